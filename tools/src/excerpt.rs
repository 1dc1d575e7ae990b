//! A part of a line with a caret below the place that matters.
use aura_tools::visible::visible;
use std::io::{self, Write};

/// The characters shown before the place and from it on, so that with its number a line fits 80 columns.
const BEFORE: usize = 46;
const FROM: usize = 24;
const CUT: &str = "..";

/// The part of a line around the byte `at`, and how many characters stand before that byte. A tab is shown as a space, which keeps the
/// caret in its column.
fn around(line: &str, at: usize) -> (String, usize) {
    let start = line[..at].char_indices().rev().take(BEFORE).last().map_or(at, |(start, _)| start);
    let end = line[at..].char_indices().nth(FROM).map_or(line.len(), |(end, _)| at + end);
    let cut = |is_cut: bool| if is_cut { CUT } else { "" };
    let shown = |text: &str| text.chars().map(|c| if c == '\t' { ' ' } else { visible(c) }).collect::<String>();
    let before = format!("{}{}", cut(start > 0), shown(&line[start..at]));
    let column = before.chars().count();
    (format!("{before}{}{}", shown(&line[at..end]), cut(end < line.len())), column)
}

/// Writes the line with its number, and below it the caret with a note.
pub fn write(out: &mut impl Write, number: usize, line: &str, at: usize, note: &str) -> io::Result<()> {
    let (text, column) = around(line, at.min(line.len()));
    writeln!(out, "{}", format!("{number:>6} | {text}").trim_end())?;
    writeln!(out, "{}", format!("{:>6} | {:column$}^ {note}", "", "").trim_end())
}

#[cfg(test)]
mod tests {
    use super::*;

    fn written(line: &str, at: usize, note: &str) -> String {
        let mut out = Vec::new();
        write(&mut out, 7, line, at, note).expect("a vector takes all");
        String::from_utf8(out).expect("UTF-8")
    }

    #[test]
    fn the_caret_stands_below_its_character() {
        assert_eq!(written("\té = \\q", 7, ""), "     7 |  é = \\q\n       |       ^\n");
        assert_eq!(written("ab", 2, "begun here"), "     7 | ab\n       |   ^ begun here\n");
        assert_eq!(written("", 0, ""), "     7 |\n       | ^\n");
    }

    #[test]
    fn a_long_line_is_cut_on_both_sides() {
        let line = "é".repeat(1_000);
        let text = written(&line, 1_000, "");
        let lines: Vec<&str> = text.lines().collect();
        assert_eq!(lines[0], format!("     7 | ..{}..", "é".repeat(BEFORE + FROM)));
        assert_eq!(lines[1].chars().count(), "     7 | ..".len() + BEFORE + 1);
        assert!(lines[0].chars().count() <= 84);
    }

    #[test]
    fn no_control_reaches_the_terminal() {
        assert!(!written("a\x1B[31mb", 1, "").contains('\x1B'));
    }
}
