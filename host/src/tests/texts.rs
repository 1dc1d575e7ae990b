//! Where the texts lie in the text buffer (document 02, order 3).
use crate::*;

/// Of each token with a text in the text buffer: its kind, and the text's offset and length.
fn places(lexed: &Lexed) -> Vec<[u64; 3]> {
    let made = lexed.tokens().filter(|(token, _)| token.kind.has_made_text());
    made.map(|(token, _)| [token.kind.into(), token.offset, token.length]).collect()
}

#[test]
fn each_begins_where_those_before_it_end() {
    for (script, count) in [
        ("val a=1", 0),
        ("\"\" \"\"", 2),
        ("\"a$b ${c}d\" \"\" ${e} \"\"\"f\"\"\" 'g'\n/// h\n/***/\n/** i\n j */", 12),
        ("\u{FEFF}\"$a\\u\" '\\q' \"$b", 4),
    ] {
        let lexed = lex(script.as_bytes()).expect("accepted");
        let mut end = 0;
        for [_, offset, length] in places(&lexed) {
            assert_eq!(offset, end, "{script:?}");
            end += length;
        }
        assert_eq!((end, places(&lexed).len()), (lexed.used().texts as u64, count), "{script:?}");
    }
}

#[test]
fn the_page_shows_the_text_buffer_as_it_is() {
    let code: Vec<&str> = super::HOSTS_MD.split_once("Of the script ").expect("the page has a script").1.split('`').collect();
    let (script, buffer) = (code[1], code[3]);
    let lexed = lex(script.as_bytes()).expect("accepted");
    assert_eq!(lexed.text_buffer(), buffer.as_bytes(), "{script}");
    let number = |cell: &str| cell.split(',').next().and_then(|n| n.parse().ok()).expect("a number");
    let rows = super::page_rows(super::HOSTS_MD, "### The text buffer, read straight through");
    let shown: Vec<[u64; 3]> = rows.iter().map(|row| [number(&row[0]), number(&row[1]), number(&row[2])]).collect();
    assert_eq!(places(&lexed), shown, "{script}");
}
