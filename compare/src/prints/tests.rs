//! The check of a print finds a wrong one: the model with one rule changed, and calls with a wrong answer.
use super::*;
use crate::oracle;
use crate::print_laws;
use crate::print_model::Layout;
use crate::print_scripts;
use crate::runs;

fn lexed(script: &[u8]) -> Lexed {
    oracle::lex_bytes(script).expect("it is UTF-8")
}

/// Writes a print as the call has to.
fn write(bytes: &[u8], print: &mut [u8]) -> Result<usize, Refusal> {
    let part = print.get_mut(..bytes.len()).ok_or(Refusal::from_answer(12, bytes.len() as u64))?;
    part.copy_from_slice(bytes);
    Ok(bytes.len())
}

/// The lists of a script that has no error, or the call's refusal.
fn asked(script: &[u8]) -> Result<Lexed, Refusal> {
    runs::refusal(script).map_or(Ok(()), Err)?;
    let lexed = lexed(script);
    match lexed.errors.first() {
        Some(first) => Err(Refusal::from_answer(11, first.span[0])),
        None => Ok(lexed),
    }
}

/// The model as a call, in a layout.
fn model(layout: &Layout, script: &[u8], print: &mut [u8]) -> Result<usize, Refusal> {
    write(&layout.print(source(script), &asked(script)?.tokens), print)
}

/// What the run's check reports first, over scripts of the run.
fn reported(count: u64, printer: Printer) -> Option<String> {
    let mut found = None;
    print_scripts::random(1, count, &mut |script| {
        found = match runs::refusal(script) {
            Some(refusal) => refused_by(script, refusal, printer).err(),
            None => compare_by(script, &lexed(script), printer).err(),
        };
        found.is_none()
    });
    found
}

/// Whether the laws alone find a layout, over the same scripts.
fn breaks_a_law(count: u64, layout: &Layout) -> bool {
    !print_scripts::random(1, count, &mut |script| {
        asked(script).map_or(true, |lexed| {
            let print = layout.print(source(script), &lexed.tokens);
            print_laws::check_in(layout, script, &lexed, &print).is_ok()
        })
    })
}

const COUNT: u64 = 2_000;

#[test]
fn the_model_is_not_reported() {
    assert_eq!(reported(COUNT, &|script, print| model(&ORDER_2, script, print)), None);
    assert!(!breaks_a_law(COUNT, &ORDER_2));
}

/// Order 2 with one rule changed, and whether its laws find it by themselves. They leave the other bytes open, which the model fixes.
#[rustfmt::skip]
const CHANGED: [(&str, bool, Layout); 39] = [
    ("no space", true, Layout { separator: ["", ""], ..ORDER_2 }),
    ("two spaces", false, Layout { separator: ["  ", ""], ..ORDER_2 }),
    ("a space behind the last token", false, Layout { separator: [" ", " "], ..ORDER_2 }),
    ("a space behind a doc comment", true, Layout { doc_separator: [" ", "\n"], ..ORDER_2 }),
    ("no line feed behind a last doc comment", false, Layout { doc_separator: ["\n", ""], ..ORDER_2 }),
    ("an empty line behind a doc comment", false, Layout { doc_separator: ["\n\n", "\n"], ..ORDER_2 }),
    ("a string's backslash as it is", true, Layout { string_escapes: &[('"', "\\\""), ('\n', "\\n"), ('$', "\\u0024")], ..ORDER_2 }),
    ("a string's quote as it is", true, Layout { string_escapes: &[('\\', "\\\\"), ('\n', "\\n"), ('$', "\\u0024")], ..ORDER_2 }),
    ("a string's line feed as it is", true, Layout { string_escapes: &[('\\', "\\\\"), ('"', "\\\""), ('$', "\\u0024")], ..ORDER_2 }),
    ("a string's $ as it is", true, Layout { string_escapes: &[('\\', "\\\\"), ('"', "\\\""), ('\n', "\\n")], ..ORDER_2 }),
    ("a string's $ behind a backslash", true,
        Layout { string_escapes: &[('\\', "\\\\"), ('"', "\\\""), ('\n', "\\n"), ('$', "\\$")], ..ORDER_2 }),
    ("a string's other quote escaped", false,
        Layout { string_escapes: &[('\\', "\\\\"), ('"', "\\\""), ('\n', "\\n"), ('$', "\\u0024"), ('\'', "\\'")], ..ORDER_2 }),
    ("a string's carriage return escaped", false,
        Layout { string_escapes: &[('\\', "\\\\"), ('"', "\\\""), ('\n', "\\n"), ('$', "\\u0024"), ('\r', "\\r")], ..ORDER_2 }),
    ("a literal's backslash as it is", true, Layout { char_escapes: &[('\'', "\\'"), ('\n', "\\n")], ..ORDER_2 }),
    ("a literal's quote as it is", false, Layout { char_escapes: &[('\\', "\\\\"), ('\n', "\\n")], ..ORDER_2 }),
    ("a literal's line feed as it is", false, Layout { char_escapes: &[('\\', "\\\\"), ('\'', "\\'")], ..ORDER_2 }),
    ("a literal's $ escaped", false,
        Layout { char_escapes: &[('\\', "\\\\"), ('\'', "\\'"), ('\n', "\\n"), ('$', "\\u0024")], ..ORDER_2 }),
    ("a literal's other quote escaped", false,
        Layout { char_escapes: &[('\\', "\\\\"), ('\'', "\\'"), ('\n', "\\n"), ('"', "\\\"")], ..ORDER_2 }),
    ("a letter behind $name as it is", true, Layout { extends_name: |c| c.is_ascii_digit() || c == '_', ..ORDER_2 }),
    ("a capital letter behind $name as it is", true,
        Layout { extends_name: |c| c.is_ascii_lowercase() || c.is_ascii_digit() || c == '_', ..ORDER_2 }),
    ("a digit behind $name as it is", true, Layout { extends_name: |c| c.is_ascii_alphabetic() || c == '_', ..ORDER_2 }),
    ("an underscore behind $name as it is", true, Layout { extends_name: |c| c.is_ascii_alphanumeric(), ..ORDER_2 }),
    ("a letter beyond ASCII behind $name escaped", false, Layout { extends_name: |c| c.is_alphanumeric() || c == '_', ..ORDER_2 }),
    ("a code in capital letters", false, Layout { unicode_escape: |c| format!("\\u{:04X}", u32::from(c)), ..ORDER_2 }),
    ("a code of two digits", true, Layout { unicode_escape: |c| format!("\\u{:02x}", u32::from(c)), ..ORDER_2 }),
    ("nothing parts $name from a 121", true, Layout { name_separator: "", ..ORDER_2 }),
    ("the parting code in small letters", false, Layout { name_separator: "\\ud800", ..ORDER_2 }),
    ("an empty literal with nothing in it", true, Layout { empty_char: "", ..ORDER_2 }),
    ("an empty literal with another code", false, Layout { empty_char: "\\uDFFF", ..ORDER_2 }),
    ("::= for kind 114", true, Layout { colon_equal: "::=", ..ORDER_2 }),
    ("a 121 outside a string by its text", false, Layout { interpolation: "${...}", ..ORDER_2 }),
    ("a 121 outside a string left open", true, Layout { interpolation: "${", ..ORDER_2 }),
    ("a doc comment of one line without its space", false, Layout { line_doc: "///", ..ORDER_2 }),
    ("a doc comment of one line as a comment", true, Layout { line_doc: "// ", ..ORDER_2 }),
    ("a longer doc text from its first line on", false, Layout { block_doc: ["/**", "* ", "*/"], ..ORDER_2 }),
    ("a longer doc text without stars", true, Layout { block_doc: ["/**\n", "", "*/"], blank_line: "", ..ORDER_2 }),
    ("a longer doc text without spaces", true, Layout { block_doc: ["/**\n", "*", "*/"], blank_line: "*", ..ORDER_2 }),
    ("a longer doc text as several", true, Layout { block_doc: ["", "/// ", ""], blank_line: "/// ", ..ORDER_2 }),
    ("a blank line without its space", false, Layout { blank_line: "*", ..ORDER_2 }),
];

#[test]
fn a_changed_rule_is_reported() {
    for (name, _, layout) in &CHANGED {
        assert!(reported(COUNT, &|script, print| model(layout, script, print)).is_some(), "{name}");
    }
}

/// So a rule that is wrong in the call and in the model alike is reported, where a law turns on it.
#[test]
fn the_laws_find_what_they_fix() {
    for (name, by_law, layout) in &CHANGED {
        assert_eq!(breaks_a_law(COUNT, layout), *by_law, "{name}");
    }
}

/// The figure of 11 from an error of the list, which is not empty.
fn with_figure(script: &[u8], print: &mut [u8], figure: fn(&[u8], &Lexed) -> u64) -> Result<usize, Refusal> {
    let answer = model(&ORDER_2, script, print);
    match answer {
        Err(refusal) if refusal.number() == 11 => Err(Refusal::from_answer(11, figure(script, &lexed(script)))),
        _ => answer,
    }
}

/// The model with a wrong answer, or wrong bytes.
#[test]
fn a_wrong_call_is_reported() {
    let right = |script: &[u8], print: &mut [u8]| model(&ORDER_2, script, print);
    let calls: [(&str, Printer); 13] = [
        ("11's figure from the error that starts first", &|script, print| {
            with_figure(script, print, |_, lexed| lexed.errors.iter().map(|e| e.span[0]).min().expect("an error"))
        }),
        ("11's figure from the last error", &|script, print| {
            with_figure(script, print, |_, lexed| lexed.errors.last().expect("an error").span[0])
        }),
        ("11's figure from the error's end", &|script, print| with_figure(script, print, |_, lexed| lexed.errors[0].span[1])),
        ("11's figure with the mark counted", &|script, print| {
            with_figure(script, print, |script, lexed| lexed.errors[0].span[0] + (script.len() - source(script).len()) as u64)
        }),
        ("12 before 11", &|script, print| match right(script, print) {
            Err(refusal) if refusal.number() == 11 && print.is_empty() => Err(Refusal::from_answer(12, 1)),
            answer => answer,
        }),
        ("a script with an error is printed", &|script, print| {
            runs::refusal(script).map_or(Ok(()), Err)?;
            let lexed = lexed(script);
            write(&ORDER_2.print(source(script), &lexed.tokens), print)
        }),
        ("a byte is written before 12", &|script, print| {
            let answer = right(script, print);
            if let (Err(12), Some(first)) = (answer.map_err(|refusal| refusal.number()), print.first_mut()) {
                *first = b' ';
            }
            answer
        }),
        ("a byte is written before 11", &|script, print| {
            let answer = right(script, print);
            if let (Err(11), Some(last)) = (answer.map_err(|refusal| refusal.number()), print.last_mut()) {
                *last = b' ';
            }
            answer
        }),
        ("12's figure is the bytes missing", &|script, print| match right(script, print) {
            Err(refusal) if refusal.number() == 12 => Err(Refusal::from_answer(12, refusal.figure - print.len() as u64)),
            answer => answer,
        }),
        ("a buffer that fits exactly is refused", &|script, print| match right(script, print) {
            Ok(written) if written == print.len() && written > 0 => Err(Refusal::from_answer(12, written as u64)),
            answer => answer,
        }),
        ("an empty print into an empty buffer is refused", &|script, print| match right(script, print) {
            Ok(0) if print.is_empty() => Err(Refusal::from_answer(12, 0)),
            answer => answer,
        }),
        ("a byte beyond those written is cleared", &|script, print| {
            let written = right(script, print)?;
            print.get_mut(written..written + 1).unwrap_or_default().fill(0);
            Ok(written)
        }),
        ("the bytes written are the buffer's", &|script, print| right(script, print).map(|_| print.len())),
    ];
    for (name, call) in calls {
        assert!(reported(COUNT, call).is_some(), "{name}");
    }
}

#[test]
fn a_print_over_the_limit_has_to_be_refused_with_1() {
    let script = ["\"\"\"", &"$".repeat(LIMIT / 6 + 1), "\"\"\""].concat();
    let lexed = oracle::lex(&script);
    let compared = |printer: Printer| compare_by(script.as_bytes(), &lexed, printer).map(|print| print.map(|bytes| bytes.len()));
    assert_eq!(compared(&|script, print| model(&ORDER_2, script, print)), Ok(Ok(6 * (LIMIT / 6 + 1) + 2)));
    let endless = |script: &[u8], print: &mut [u8]| match script.len() > LIMIT {
        true => write(script, print),
        false => model(&ORDER_2, script, print),
    };
    assert!(compared(&endless).is_err_and(|what| what.starts_with("the print of the print: print buffer of ")));
}
