//! The answers of the calls, and that the tables agree with the headers for C.
use crate::*;

mod print;
mod texts;

fn kinds(script: &str) -> Vec<u8> {
    let lexed = lex(script.as_bytes()).expect("accepted");
    lexed.tokens().map(|(token, _)| token.kind.number()).collect()
}

fn texts(script: &str) -> Vec<String> {
    let lexed = lex(script.as_bytes()).expect("accepted");
    lexed.tokens().map(|(_, text)| text.to_string()).collect()
}

fn errors(script: &str) -> Vec<LexError> {
    lex(script.as_bytes()).expect("accepted").errors().collect()
}

fn refusal(number: u64, figure: u64) -> Refusal {
    Refusal::from_answer(number, figure)
}

#[test]
fn document_01s_example() {
    let lexed = lex(b"val a=1").expect("accepted");
    let spans: Vec<[u64; 6]> = lexed.tokens().map(|(token, _)| token.span.fields()).collect();
    assert_eq!(spans, [[0, 2, 1, 1, 1, 3], [4, 4, 1, 5, 1, 5], [5, 5, 1, 6, 1, 6], [6, 7, 1, 7, 1, 8], [7, 7, 1, 8, 1, 8]]);
    assert_eq!(kinds("val a=1"), [6, 5, 76, 0, 124]);
    assert_eq!(texts("val a=1"), ["val", "a", "=", "1", ""]);
    assert_eq!(lexed.used(), Used { tokens: 25 + 33 + 25 + 33 + 25, texts: 0, errors: 0, count: 5, closed: true });
}

#[test]
fn small_scripts() {
    assert_eq!((kinds(""), texts("")), (vec![124], vec!["".to_string()]));
    assert_eq!((kinds("\"\""), &texts("\"\"")[0][..]), (vec![2, 124], ""));
    assert_eq!((kinds("\"$a$b\""), &texts("\"$a$b\"")[0][..]), (vec![121, 124], "$a$b"));
    assert_eq!((kinds("1e"), kinds("1f"), kinds("0x")), (vec![1, 124], vec![0, 124], vec![0, 124]));
    assert_eq!((kinds(":="), &texts(":=")[0][..]), (vec![114, 124], "::="));
    assert_eq!((kinds("'''"), &texts("'''")[0][..]), (vec![3, 124], "'"));
    assert_eq!((kinds("$ab"), texts("$ab")), (vec![5, 5, 124], vec!["$".to_string(), "ab".to_string(), "".to_string()]));
}

#[test]
fn mistakes_have_their_kind_place_and_character() {
    let all = errors("\"$a");
    assert_eq!((all.len(), all[0].kind, all[0].span.start, all[0].code), (1, ErrorKind::StringAtEnd, 3, None));
    assert!(!lex(b"\"$a").expect("accepted").used().closed);
    let all = errors("''");
    assert_eq!((all.len(), all[0].kind, all[0].span.start), (1, ErrorKind::CharLiteral, 2));
    let all = errors("\"\\q\"");
    assert_eq!((all.len(), all[0].kind, all[0].code), (1, ErrorKind::BadEscape, Some('q' as u32)));
    let all = errors("a é");
    assert_eq!((all.len(), all[0].kind, all[0].code), (1, ErrorKind::UnexpectedCharacter, Some('é' as u32)));
    assert_eq!((all[0].span.start, all[0].span.end), (2, 4));
}

#[test]
fn refusals_change_nothing() {
    let long = vec![b' '; LIMIT + 1];
    assert_eq!(lex(&long).err(), Some(refusal(1, 1_048_577)));
    assert_eq!(measure(&long), Err(refusal(1, 1_048_577)));
    assert_eq!(lex(&[0xC3]).err(), Some(refusal(9, 0)));
    assert_eq!(lex(&[0xEF, 0xBB, 0xBF, b'a', 0xED, 0xA0, 0x80]).err(), Some(refusal(10, 4)));
    assert_eq!(measure(&[0xEF, 0xBB]), Err(refusal(9, 0)));
    assert_eq!(measure(b"a\xC0\x80"), Err(refusal(2, 1)));
    let mut buffers = [[7u8; 100]; 3];
    let [tokens, texts, errors] = &mut buffers;
    assert_eq!(tokenize(b"", &mut tokens[..24], texts, errors), Err(refusal(3, 25)));
    assert_eq!(tokenize(b"'ab'", tokens, &mut texts[..0], errors), Err(refusal(3, 33 + 33 + 33 + 25)));
    assert_eq!(tokenize(b"'a'", tokens, &mut texts[..0], errors), Err(refusal(4, 1)));
    assert_eq!(tokenize(b"''", tokens, texts, &mut errors[..24]), Err(refusal(5, 25)));
    assert_eq!(buffers, [[7; 100]; 3]);
}

#[test]
fn bytes_beyond_those_used_keep() {
    let script = b"\"a$b\" 'c";
    let (mut tokens, mut texts, mut errors) = ([7; 400], [7; 40], [7; 400]);
    let used = tokenize(script, &mut tokens, &mut texts, &mut errors).expect("accepted");
    assert_eq!(measure(script), Ok(used));
    assert_eq!((used.tokens, used.texts, used.errors, used.count), (33 * 3 + 25, 4, 25, 4));
    assert!(tokens[used.tokens..].iter().all(|&b| b == 7));
    assert!(texts[used.texts..].iter().all(|&b| b == 7));
    assert!(errors[used.errors..].iter().all(|&b| b == 7));
}

#[test]
fn the_limit_is_accepted() {
    let spaces = vec![b' '; LIMIT];
    let lexed = lex(&spaces).expect("accepted");
    assert_eq!(lexed.tokens().map(|(t, _)| t.span.start).collect::<Vec<_>>(), [LIMIT as u64]);
    let marks = vec![b'+'; LIMIT];
    assert_eq!(lex(&marks).expect("accepted").tokens().count(), LIMIT / 2 + 1);
    let bells = vec![7; LIMIT];
    assert_eq!(lex(&bells).expect("accepted").errors().count(), LIMIT);
}

#[test]
fn the_reader_keeps_its_place_when_refused() {
    let lexed = lex(b"val a").expect("accepted");
    let mut reader = lexed.reader();
    assert_eq!(reader.match_kind(126u8), Err(refusal(6, 126)));
    assert_eq!(reader.consume(256u64).err(), Some(refusal(6, 256)));
    assert_eq!(reader.match_kind(TokenKind::Var), Ok(false));
    assert_eq!(reader.place(), 0);
    assert_eq!(reader.match_kind(TokenKind::Val), Ok(true));
    assert_eq!(reader.place(), 25);
    let (token, fits) = reader.consume(TokenKind::Val).expect("a whole record");
    assert_eq!((token.kind, fits, reader.place()), (TokenKind::Ident, false, 58));
    assert_eq!(reader.next_token().expect("EOF").kind, TokenKind::EOF);
    assert!(reader.consume(TokenKind::EOF).expect("EOF").1);
    assert_eq!(reader.place(), 58);
    let mut astray = TokenReader::at(lexed.token_records(), 60);
    assert_eq!(astray.next_token().err(), Some(refusal(7, 60)));
    assert_eq!(astray.place(), 60);
}

#[test]
fn errors_end_with_refusal_7() {
    let lexed = lex(b"\x07 \x08").expect("accepted");
    let (first, next) = next_error(lexed.error_records(), 0).expect("a whole record");
    assert_eq!((first.code, next), (Some(7), 29));
    let (second, next) = next_error(lexed.error_records(), next).expect("a whole record");
    assert_eq!((second.code, next), (Some(8), 58));
    assert_eq!(next_error(lexed.error_records(), next), Err(refusal(7, 58)));
}

#[test]
fn texts_of_damaged_records_are_refused() {
    let script = b"\xEF\xBB\xBFabc 'd'";
    let lexed = lex(script).expect("accepted");
    let (tokens, texts) = (lexed.token_records(), lexed.text_buffer());
    assert_eq!(token_text(script, texts, tokens, 0), Ok(&b"abc"[..]));
    assert_eq!(token_text(script, texts, tokens, 33), Ok(&b"d"[..]));
    assert_eq!(token_text(b"\xEF\xBB\xBFab", texts, tokens, 0), Err(refusal(8, 0)));
    assert_eq!(text_check(script, b"", tokens, 33), Err(refusal(8, 0)));
    assert_eq!(token_text(script, texts, &tokens[..32], 0), Err(refusal(7, 0)));
}

#[test]
fn token_ends_cover_the_script() {
    let script = "val été=\"é\" ++ a<<b'x'/// d\n:=$";
    let lexed = lex(script.as_bytes()).expect("accepted");
    let parts: Vec<&str> = lexed.tokens().map(|(t, _)| &script[t.range()]).collect();
    let expected = ["val", "é", "t", "é", "=", "\"é\"", "++", "a", "<<", "b", "'x'", "/// d", ":=", "$", ""];
    assert_eq!(parts, expected);
}

#[test]
fn characters() {
    assert_eq!(first_bad("é".as_bytes()), Ok(()));
    assert_eq!(first_bad(b"ab\xC3"), Err(refusal(9, 2)));
    assert_eq!(first_bad(b"ab\xC3c"), Err(refusal(2, 2)));
    assert_eq!(first_bad(b"ab\xF4\x90"), Err(refusal(10, 2)));
    assert_eq!((mark_length(b"\xEF\xBB\xBFa"), mark_length(b"\xEF\xBB"), after_mark(b"\xEF\xBB\xBFa")), (3, 0, &b"a"[..]));
    assert!(is_white(0x3000) && is_white(9) && !is_white(0x200B) && !is_white(u32::MAX));
    let mut buffer = [7; 5];
    assert_eq!(encode_char(0xE9, &mut buffer, 3), Some(2));
    assert_eq!((encode_char(0xE9, &mut buffer, 4), encode_char(0xD800, &mut buffer, 0)), (None, None));
    assert_eq!(buffer, [7, 7, 7, 0xC3, 0xA9]);
}

#[test]
fn iterators_know_what_is_left() {
    let lexed = lex("val é=\"$a b\" \u{7}".as_bytes()).expect("accepted");
    let mut tokens = lexed.tokens();
    assert_eq!((tokens.len(), tokens.len()), (lexed.used().count, tokens.clone().count()));
    tokens.next();
    assert_eq!(tokens.size_hint(), (tokens.clone().count(), Some(tokens.clone().count())));
    let mut errors = lexed.errors();
    assert_eq!((errors.len(), errors.clone().count()), (2, 2));
    assert!(lexed.has_errors() && lexed.is_closed());
    assert_eq!(errors.next().expect("an error").range(), 4..6);
    assert_eq!((errors.next().map(|e| e.range()), errors.len(), errors.next()), (Some(14..15), 0, None));
    let open = lex(b"/*").expect("accepted");
    assert!(!open.is_closed() && open.has_errors());
    assert!(!lex(b"a").expect("accepted").has_errors());
}

#[test]
fn columns_are_an_editors() {
    let lexed = lex("a\n é b".as_bytes()).expect("accepted");
    assert_eq!(columns(lexed.source()), [1, 2, 1, 2, 2, 3, 4, 5]);
    let b = lexed.tokens().nth(2).expect("a token").0;
    assert_eq!((b.span.start_line, b.span.start_col), (2, 5), "one more than an editor's, behind a line feed skipped as space");
    assert_eq!(columns(""), [1]);
}

#[test]
fn sentences_name_number_figure_and_advice() {
    for kind in RefusalKind::ALL {
        let sentence = Refusal { kind: *kind, figure: 4711 }.to_string();
        assert!(
            sentence.starts_with(&format!("refusal {}, figure 4711: {}; {} (", kind.number(), kind.meaning(), kind.advice())),
            "{sentence}"
        );
        assert!(sentence.ends_with(&format!("({}: 4711)", kind.figure())), "{sentence}");
    }
    let words: Vec<String> = errors("\"\\q\"\u{7}").iter().map(LexError::to_string).collect();
    assert!(words[0].starts_with("error 7: ") && words[0].contains("U+0071 q; "), "{words:?}");
    assert!(words[1].starts_with("error 1: ") && words[1].contains("U+0007; "), "{words:?}");
}

#[test]
#[should_panic(expected = "link the library that belongs to this crate")]
fn a_number_that_is_not_in_use_comes_from_another_library() {
    Refusal::from_answer(99, 0);
}

/// The rows `X(..)` of a macro of a header, each as its arguments; texts without their quotes.
fn header_rows(header: &str, table: &str) -> Vec<Vec<String>> {
    let start = header.find(&format!("#define {table}(X)")).expect("the header has the table");
    let rows = header[start..].lines().skip(1).map_while(|line| line.trim().strip_prefix("X("));
    rows.map(arguments).collect()
}

/// The arguments up to the closing bracket of a row.
fn arguments(row: &str) -> Vec<String> {
    let (mut all, mut quoted) = (vec![String::new()], false);
    let mut chars = row.chars();
    while let Some(c) = chars.next() {
        let last = all.last_mut().expect("an argument");
        match c {
            '"' => quoted = !quoted,
            '\\' => last.push(chars.next().expect("an escape")),
            ',' if !quoted => all.push(String::new()),
            ')' if !quoted => break,
            ' ' if !quoted => {}
            _ => last.push(c),
        }
    }
    all
}

const KINDS_H: &str = include_str!("../../include/aura_kinds.h");
const WORDS_H: &str = include_str!("../../include/aura_words.h");
const LEXER_H: &str = include_str!("../../include/aura_lexer.h");
const HOSTS_MD: &str = include_str!("../../docs/HOSTS.md");

#[test]
fn the_kinds_are_those_of_the_header() {
    let ours: Vec<_> =
        TokenKind::all().iter().map(|k| vec![k.number().to_string(), k.name().to_string(), k.spelling().to_string()]).collect();
    assert_eq!(ours.len(), 126);
    assert_eq!(ours, header_rows(KINDS_H, "AURA_KINDS"));
    for (i, kind) in TokenKind::all().iter().enumerate() {
        assert_eq!((kind.number() as usize, TokenKind::from_number(i as u64)), (i, Some(*kind)));
        assert!(kind.spelling().len() <= 9 && (!kind.carries_text() || kind.spelling().is_empty()));
    }
    assert_eq!((TokenKind::from_number(126), TokenKind::from_number(u64::MAX)), (None, None));
}

#[test]
fn each_spelling_is_its_kind() {
    for kind in TokenKind::all().iter().filter(|k| !k.spelling().is_empty()) {
        let script = if *kind == TokenKind::DoubleColonT { ":=" } else { kind.spelling() };
        assert_eq!((kinds(script), &texts(script)[0][..]), (vec![kind.number(), 124], kind.spelling()));
    }
}

#[test]
fn error_kinds_are_numbered_from_1() {
    for (i, kind) in ErrorKind::ALL.iter().enumerate() {
        assert_eq!((kind.number() as usize, ErrorKind::from_number(i as u64 + 1)), (i + 1, Some(*kind)));
    }
    assert_eq!((ErrorKind::from_number(0), ErrorKind::from_number(11)), (None, None));
}

/// The rows of our table of errors: number, meaning, advice.
fn error_rows() -> Vec<[String; 3]> {
    ErrorKind::ALL.iter().map(|kind| [kind.number().to_string(), kind.meaning().to_string(), kind.advice().to_string()]).collect()
}

/// The rows of our table of refusals: number, meaning, figure, advice.
fn refusal_rows() -> Vec<[String; 4]> {
    let row = |kind: &RefusalKind| [kind.number().to_string(), kind.meaning().into(), kind.figure().into(), kind.advice().into()];
    RefusalKind::ALL.iter().map(row).collect()
}

/// The rows of a table of a page behind a heading, without the marks of code.
fn page_rows(page: &str, heading: &str) -> Vec<Vec<String>> {
    let start = page.find(&format!("\n{heading}\n")).expect("the page has the heading");
    let rows = page[start..].lines().skip_while(|line| !line.starts_with('|')).take_while(|line| line.starts_with('|')).skip(2);
    rows.map(|row| row.replace('`', "").trim_matches('|').split(" | ").map(|cell| cell.trim().to_string()).collect()).collect()
}

/// The rows of a table of a header without the second argument, which is the name of a constant.
fn unnamed(table: &str) -> Vec<Vec<String>> {
    let mut rows = header_rows(WORDS_H, table);
    rows.iter_mut().for_each(|row| drop(row.remove(1)));
    rows
}

#[test]
fn errors_and_refusals_are_told_in_the_same_words_everywhere() {
    assert_eq!((error_rows().len(), refusal_rows().len()), (10, 12));
    assert_eq!(unnamed("AURA_ERRORS"), error_rows());
    assert_eq!(unnamed("AURA_REFUSALS"), refusal_rows());
    assert_eq!(page_rows(HOSTS_MD, "## Errors"), error_rows());
    assert_eq!(page_rows(HOSTS_MD, "## Refusals"), refusal_rows());
}

#[test]
fn the_version_is_the_headers() {
    let defined =
        |name: &str| LEXER_H.lines().find_map(|line| line.strip_prefix(&format!("#define {name} "))).expect("the header defines it");
    assert_eq!(defined("AURA_VERSION"), format!("{:?}", env!("CARGO_PKG_VERSION")));
    assert_eq!(defined("AURA_ORIGINAL"), format!("{ORIGINAL:?}"));
}
