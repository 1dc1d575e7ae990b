//! The office print: its bytes, its answers, and what it leaves alone.
use super::refusal;
use crate::*;

/// Scripts and their prints, by the words of order 2.
const PRINTS: &[(&str, &str)] = &[
    // the layout
    ("", ""),
    (" \n// only\n/* comments */\t", ""),
    ("\u{FEFF}", ""),
    ("\u{FEFF}a\u{3000}b", "a b"),
    ("val a=1", "val a = 1"),
    ("a\r\n\n  b\tc // d\n", "a b c"),
    ("f(x,1..3)", "f ( x , 1 .. 3 )"),
    ("1.5e-3f 0x7E8 1_000L 1e 0x", "1.5e-3f 0x7E8 1_000L 1e 0x"),
    ("true null unit Unit _ $ab", "true null unit Unit _ $ ab"),
    ("a:=b", "a := b"),
    ("<<<>>>", "<<< >>>"),
    ("${a b}", "${}"),
    ("a ${", "a ${}"),
    ("${}${{a\n}x", "${} ${} x"),
    // character literals
    ("'a''\\'''\"''$'", "'a' '\\'' '\"' '$'"),
    ("'\\n''\\\\''\\t''\\u00E9'", "'\\n' '\\\\' '\t' 'é'"),
    ("'\\uD800'", "'\\uD800'"),
    // strings
    ("\"\"", "\"\""),
    ("\"\\uD800\"+\"\"\"\"\"\"", "\"\" + \"\""),
    ("\"\"\"x\"y\"\"\"", "\"x\\\"y\""),
    ("\"\"\"a\nb\\c$d\r\"\"\"", "\"a\\nb\\\\c\\u0024d\r\""),
    ("\"\\\\\\\"'\\n\\t\\u00e9\"", "\"\\\\\\\"'\\n\té\""),
    ("\"a$b\"c", "\"a$b\" c"),
    ("\"a$$b\"", "\"a\\u0024$b\""),
    ("\"$\"\"1$2\"", "\"\\u0024\" \"1\\u00242\""),
    ("\"$a$b\"", "\"$a$b\""),
    ("\"a${b}c$d\"", "\"a${b}c$d\""),
    ("\"${a}${ b }$c\"", "\"${a}${ b }$c\""),
    // what follows a $name
    ("\"$a\\uD800b\"", "\"$a\\u0062\""),
    ("\"$a\\u0031b\"", "\"$a\\u0031b\""),
    ("\"$a\\u005F_\"", "\"$a\\u005f_\""),
    ("\"$a\\u005A \"", "\"$a\\u005a \""),
    ("\"$aé$b\\n\"", "\"$aé$b\\n\""),
    ("\"$a\\uD800$b\"", "\"$a\\uD800$b\""),
    ("\"$a\\uD800${b}\\uD800c\"", "\"$a\\uD800${b}c\""),
    ("\"$a\\uD800\"", "\"$a\""),
    // doc comments
    ("/***/", "/// \n"),
    ("///", "/// \n"),
    ("/// d", "/// d\n"),
    ("a/// d\nb", "a /// d\nb"),
    ("/** d */ a", "/// d\na"),
    ("/** d\n * e\n */ a", "/**\n* d\n* e\n*/\na"),
    ("/** d\n *\n * e */", "/**\n* d\n* \n* e\n*/\n"),
    ("/// d\n/// e", "/// d\n/// e\n"),
];

const IMPORT: &[u8] = include_bytes!("../../../examples/data/import.aura");

fn scripts() -> impl Iterator<Item = &'static [u8]> {
    PRINTS.iter().map(|(script, _)| script.as_bytes()).chain([IMPORT])
}

#[test]
fn a_print_has_the_bytes_that_order_2_says() {
    for (script, expected) in PRINTS {
        let bytes = print(script.as_bytes()).unwrap_or_else(|refusal| panic!("{script:?}: {refusal}"));
        assert_eq!(String::from_utf8(bytes).expect("UTF-8"), *expected, "the print of {script:?}");
    }
}

#[test]
fn the_page_shows_prints_as_they_are() {
    let rows = super::page_rows(super::HOSTS_MD, "## The office print");
    assert!(rows.len() >= 9, "only {} rows", rows.len());
    for row in rows {
        let [script, expected] = [&row[0], &row[1]].map(|cell| cell.replace('␊', "\n"));
        assert_eq!(print(script.as_bytes()), Ok(expected.into_bytes()), "the print of {script:?}");
    }
}

#[test]
fn a_print_is_lexed_as_its_script() {
    // of each token: kind, text, whether it goes on with the string of the token before, and whether it stands in a string
    let told = |script: &[u8]| {
        let lexed = lex(script).expect("accepted");
        assert!(!lexed.has_errors(), "{:?}", lexed.source());
        let mut last = None;
        let mark = |(token, text): (Token, &str)| {
            let start = token.span.start;
            let continues = last.replace(start) == Some(start);
            (token.kind, text.to_string(), continues, lexed.source()[start as usize..].starts_with('"'))
        };
        lexed.tokens().map(mark).collect::<Vec<_>>()
    };
    for script in scripts() {
        let printed = print(script).expect("printed");
        assert_eq!(told(script), told(&printed));
        assert!(lex(&printed).expect("accepted").is_closed());
        assert_eq!(mark_length(&printed), 0);
        assert_eq!(print(&printed), Ok(printed));
    }
}

#[test]
fn a_buffer_of_any_size_is_filled_or_kept() {
    for script in scripts() {
        let expected = print(script).expect("printed");
        let need = expected.len();
        assert!(need <= print_room(script.len()));
        for size in (0..need.min(60)).chain(need.saturating_sub(9)..need + 9) {
            let mut buffer = vec![7; size + 9];
            let answer = print_into(script, &mut buffer[..size]);
            let (written, kept) = match size < need {
                true => (Err(refusal(12, need as u64)), 0),
                false => (Ok(need), need),
            };
            assert_eq!(answer, written, "a buffer of {size} bytes");
            assert_eq!(buffer[..kept], expected[..kept]);
            assert!(buffer[kept..].iter().all(|&b| b == 7), "a buffer of {size} bytes is written beyond byte {kept}");
        }
    }
}

#[test]
fn refusals_come_in_their_order() {
    let mut long = vec![b' '; LIMIT + 1];
    assert_eq!(print(&long), Err(refusal(1, 1_048_577)));
    long[7] = 0xFF;
    assert_eq!(print(&long), Err(refusal(1, 1_048_577)));
    assert_eq!(print(&long[..LIMIT]), Err(refusal(2, 7)));
    assert_eq!(print(b"'' \xC3"), Err(refusal(9, 3)));
    assert_eq!(print(b"\xEF\xBB\xBF''\xED\xA0\x80"), Err(refusal(10, 5)), "the mark is counted");
    assert_eq!(print(b"''\xC3("), Err(refusal(2, 2)));
    assert_eq!(print_into(b"''", &mut []), Err(refusal(11, 2)));
    assert_eq!(print_into(b"a", &mut []), Err(refusal(12, 1)));
    assert_eq!(print_into(b"", &mut []), Ok(0));
}

#[test]
fn an_answer_keeps_the_other_slot() {
    for (size, number, expected) in [(0, 12, [1, 9]), (1, 0, [9, 1])] {
        let mut answer = [9; raw::PRINT_SLOTS];
        assert_eq!(raw::print(b"a", &mut [7][..size], &mut answer), number);
        assert_eq!(answer, expected);
    }
}

/// The figure of refusal 11 is the start of the first error recorded, in bytes after the mark.
#[test]
fn a_mistake_is_refused_by_its_start() {
    let figures = [("a é", 2), ("\u{FEFF}a é", 2), ("'a", 2), ("\"$a", 3), ("a /* b", 2), ("\"a\n\"b", 0), ("\"${", 3)];
    for (script, figure) in figures {
        let lexed = lex(script.as_bytes()).expect("accepted");
        let first = lexed.errors().next().map(|error| error.span.start);
        let mut buffer = [7; 60];
        assert_eq!(print_into(script.as_bytes(), &mut buffer), Err(refusal(11, figure)), "{script:?}");
        assert_eq!((first, buffer), (Some(figure), [7; 60]), "{script:?}");
    }
    let starts: Vec<u64> = lex(b"\"\\q\n").expect("accepted").errors().map(|error| error.span.start).collect();
    assert_eq!((starts, print(b"\"\\q\n")), (vec![2, 0], Err(refusal(11, 2))), "the first one recorded, not the first by its place");
}

#[test]
fn the_largest_prints_are_made() {
    let spaces = vec![b' '; LIMIT];
    assert_eq!(print(&spaces), Ok(Vec::new()));
    let mut dollars = vec![b'$'; LIMIT];
    dollars[..3].fill(b'"');
    dollars[LIMIT - 3..].fill(b'"');
    let printed = print(&dollars).expect("printed");
    assert_eq!(printed.len(), 6 * (LIMIT - 6) + 2);
    assert!(printed.starts_with(b"\"\\u0024\\u0024") && printed.ends_with(b"\\u0024\""));
    assert_eq!(print(&printed), Err(refusal(1, printed.len() as u64)), "such a print is no script again");
}
