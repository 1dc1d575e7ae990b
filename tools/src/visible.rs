//! Characters that a terminal would not show, or would be steered by.
use std::path::Path;

/// What stands for a character: controls other than tab and line feed are shown as pictures; what has no width, breaks the line or turns
/// the direction of writing is shown as U+FFFD.
pub fn visible(c: char) -> char {
    match c {
        '\t' | '\n' => c,
        '\0'..='\x1F' | '\x7F' => picture(c),
        '\u{80}'..='\u{9F}' | '\u{AD}' | '\u{61C}' | '\u{180E}' => '\u{FFFD}',
        '\u{200B}'..='\u{200F}' | '\u{2028}'..='\u{202E}' | '\u{2060}'..='\u{206F}' | '\u{FEFF}' => '\u{FFFD}',
        _ => c,
    }
}

/// Unicode's picture of a control character of ASCII.
fn picture(c: char) -> char {
    match c {
        '\x7F' => '\u{2421}',
        _ => char::from_u32(0x2400 + c as u32).expect("the pictures of the control characters"),
    }
}

/// A file's name for a message: on one line, and with no character that a terminal does not show.
pub fn name(path: &Path) -> String {
    let shown = |c| if c == '\t' || c == '\n' { picture(c) } else { visible(c) };
    path.to_string_lossy().chars().map(shown).collect()
}

#[cfg(test)]
mod tests {
    use super::*;

    #[test]
    fn no_character_of_a_name_steers_a_terminal() {
        assert_eq!(name(Path::new("a/\x1B[31mb\n\t.aura")), "a/␛[31mb␊␉.aura");
        assert_eq!(name(Path::new("é\u{202E}\u{9B}\x7F ")), "é\u{FFFD}\u{FFFD}␡ ");
    }

    #[test]
    fn tab_and_line_feed_of_a_script_stay() {
        assert_eq!("a\t\n\r\0é".chars().map(visible).collect::<String>(), "a\t\n␍␀é");
        assert_eq!("\u{FEFF}\u{200B}\u{2028}\u{3000}".chars().map(visible).collect::<String>(), "\u{FFFD}\u{FFFD}\u{FFFD}\u{3000}");
    }
}
