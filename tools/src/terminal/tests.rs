use super::*;
use crate::mistakes::without_end;
use aura_lexer::lex;

fn strip(text: &str) -> String {
    let mut parts = text.split('\x1B');
    let first = parts.next().expect("a part").to_string();
    parts.fold(first, |all, part| all + part.split_once('m').expect("a sequence ends with m").1)
}

fn written(script: &str, in_colour: bool) -> String {
    let mut out = Vec::new();
    write_script(&lex(script.as_bytes()).expect("accepted"), in_colour, &mut out).expect("a vector takes all");
    String::from_utf8(out).expect("UTF-8")
}

fn words(script: &str) -> String {
    let mut out = Vec::new();
    write_words(&lex(script.as_bytes()).expect("accepted"), &mut out).expect("a vector takes all");
    String::from_utf8(out).expect("UTF-8")
}

/// The script with what is written underlined between brackets, and no other sequence.
fn underlined(script: &str) -> String {
    let on = sequence(MISTAKE);
    let mut text = String::new();
    for (i, part) in written(script, true).split(&on).enumerate() {
        match part.split_once(RESET).filter(|_| i > 0) {
            Some((wrong, rest)) => text += &format!("[{wrong}]{}", strip(rest)),
            None => text += &strip(part),
        }
    }
    text
}

#[test]
fn mistakes_are_underlined() {
    assert_eq!(underlined("a \\b"), "a [\\]b");
    assert_eq!(underlined("\"ab\nc"), "[\"ab]\nc");
    assert_eq!(underlined("\"\\q\""), "\"\\[q]\"");
    assert_eq!(underlined("'ab'"), "'a[b][']");
    assert_eq!(underlined("\"${ab"), "\"${a[b]");
    assert_eq!(underlined("\"ab"), "\"a[b]");
    assert_eq!(underlined("é+"), "[é]+");
    assert_eq!(underlined("a /* b"), "a [/* b]");
}

#[test]
fn a_mistake_at_a_line_feed_underlines_the_last_character_before() {
    assert_eq!(underlined("\"${a\n"), "\"${[a]\n");
    assert_eq!(underlined("\"${é\n\r\n\n"), "\"${[é]\n\r\n\n");
    assert_eq!(underlined("'a\n"), "'[a]\n");
    assert_eq!(underlined("'a\r\nb"), "'[a]\r\nb");
    assert_eq!(underlined("/* a\n\n"), "[/* a]\n\n");
    assert_eq!(underlined("\"\"\"\n"), "[\"\"\"]\n");
}

/// Without its sequences the output is the mark and the script, with the visible characters for those that are not.
fn reproduces(script: &str) {
    let shown = |line| {
        let (text, end) = without_end(line);
        text.chars().map(visible).collect::<String>() + end
    };
    let (mark, source) = script.split_at(if script.starts_with('\u{FEFF}') { 3 } else { 0 });
    let expected = mark.to_string() + &source.split_inclusive('\n').map(shown).collect::<String>();
    assert_eq!(strip(&written(script, true)), expected, "{script:?}");
    assert_eq!(written(script, false), expected, "{script:?}");
}

#[test]
fn every_example_comes_back() {
    let folder = concat!(env!("CARGO_MANIFEST_DIR"), "/../examples/data");
    let mut seen = 0;
    for entry in std::fs::read_dir(folder).expect("the folder of examples") {
        let bytes = std::fs::read(entry.expect("an entry").path()).expect("a file");
        if let Ok(script) = std::str::from_utf8(&bytes) {
            reproduces(script);
            seen += 1;
        }
    }
    assert!(seen >= 30, "only {seen} examples");
}

#[test]
fn every_short_script_comes_back() {
    let symbols = ["\"", "$", "{", "}", "\\", "u", "a", "\n", "é", "'", "/", "*", "\u{FEFF}", " ", "<", "\r\n"];
    let mut scripts = vec![String::new()];
    for _ in 0..4 {
        scripts = scripts.iter().flat_map(|s| symbols.iter().map(move |t| format!("{s}{t}"))).collect();
        scripts.iter().for_each(|script| reproduces(script));
    }
    assert_eq!(scripts.len(), 16usize.pow(4));
}

#[test]
fn no_control_reaches_the_terminal() {
    let script: String = (0..0x2100).filter_map(char::from_u32).collect();
    let seen = strip(&written(&script, true));
    assert!(seen.chars().all(|c| !c.is_control() || c == '\t' || c == '\n'));
    assert!(!seen.contains(['\u{202E}', '\u{2066}', '\u{200F}']));
    assert!(seen.contains('␛') && seen.contains('␀') && seen.contains('␡') && seen.contains('␍'));
    assert_eq!(seen.chars().count(), script.chars().count());
}

#[test]
fn a_carriage_return_before_a_line_feed_is_not_shown() {
    assert_eq!(written("a\r\n\rb\r\n", false), "a\r\n␍b\r\n");
}

#[test]
fn no_line_begins_in_another_lines_colour() {
    for line in written("/* a\nb */ \"c\nd", true).lines() {
        let last = line.rfind('\x1B').map(|at| &line[at..]);
        assert!(last.is_none_or(|sequence| sequence.starts_with(RESET)), "{line:?}");
    }
}

#[test]
fn words_name_line_and_column() {
    let text = words("a\n  \"\\q\"\n'é");
    let lines: Vec<&str> = text.lines().collect();
    assert_eq!(lines.len(), 3, "{text}");
    assert_eq!(lines[0], "", "the script does not end with a line feed");
    assert!(lines[1].starts_with("line 2, column 5 (byte 6): error 7: "), "{text}");
    assert!(lines[2].starts_with("line 3, column 2 (byte 10): error 9: "), "{text}");
    assert_eq!(words("val a"), "");
    assert!(words("${\n").starts_with("open: "));
}

#[test]
fn no_more_than_200_mistakes_are_told() {
    assert_eq!(words(&"\u{7}".repeat(201)).lines().last(), Some("and 1 more mistakes"));
    assert_eq!(words(&"\u{7}\n".repeat(200)).lines().count(), 200);
    assert_eq!(words(&"\u{7}\n".repeat(2_000)).lines().count(), 201);
}
