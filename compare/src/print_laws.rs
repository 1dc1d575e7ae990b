//! Order 2's laws of a print, asked of the original: what lexing the print gives.
use crate::check::SECONDS;
use crate::lexed::Lexed;
use crate::oracle;
use crate::print_model::{self, Layout, ORDER_2};
use crate::prints::{room, source, MARK};
use aura_lexer::TokenKind;
use std::fmt;

/// Whether a print is closed is asked with every second script where it has up to so many bytes, else with the empty one and `a`: without
/// an error only `${` can be open, and `a` shows that.
const SHORT: usize = 1_000;
const LONG_SECONDS: usize = 2;

/// What a print preserves of a token.
#[derive(PartialEq, Eq)]
struct Preserved<'a> {
    kind: u8,
    text: &'a [u8],
    /// Whether it belongs to the same string as the token before it.
    continued: bool,
    in_string: bool,
}

impl fmt::Display for Preserved<'_> {
    fn fmt(&self, f: &mut fmt::Formatter<'_>) -> fmt::Result {
        let Preserved { kind, text, continued, in_string } = self;
        let name = TokenKind::from_number(u64::from(*kind)).map_or("unknown", TokenKind::name);
        let text = String::from_utf8_lossy(text);
        let yes = |answer: &bool| if *answer { "yes" } else { "no" };
        write!(f, "{name} ({kind}) {text:?}, in a string: {}, in that of the token before: {}", yes(in_string), yes(continued))
    }
}

/// The tokens of a source, which is a script after its mark.
fn preserved<'a>(source: &'a [u8], lexed: &'a Lexed) -> impl Iterator<Item = Preserved<'a>> {
    lexed.tokens.iter().enumerate().map(move |(i, token)| Preserved {
        kind: token.kind,
        text: &token.text,
        continued: i > 0 && print_model::is_continued(source, &lexed.tokens[i - 1], token),
        in_string: print_model::is_piece(source, token),
    })
}

/// The first token that a print does not preserve.
fn difference(source: &[u8], original: &Lexed, print: &[u8], again: &Lexed) -> Option<String> {
    let (count, count_again) = (original.tokens.len(), again.tokens.len());
    let mut pairs = preserved(source, original).zip(preserved(print, again)).enumerate();
    let token = pairs.find(|(_, (a, b))| a != b).map(|(i, (a, b))| format!("token {i} is {a}; in the print it is {b}"));
    token.or_else(|| (count != count_again).then(|| format!("{count} tokens; in the print {count_again}")))
}

/// What the original makes of a print: the script's tokens again, no error, and nothing open.
fn lexed_again(source: &[u8], original: &Lexed, print: &[u8]) -> Result<Lexed, String> {
    let again = oracle::lex_bytes(print)?;
    if let Some(error) = again.errors.first() {
        return Err(format!("the print has an error: {error}"));
    }
    if let Some(text) = difference(source, original, print, &again) {
        return Err(text);
    }
    let seconds = if print.len() <= SHORT { SECONDS.len() } else { LONG_SECONDS };
    oracle::joins_some(seconds, print, true, &again).map_err(|why| format!("the print: {why}"))?;
    Ok(again)
}

/// The laws for a print in a layout.
pub fn check_in(layout: &Layout, script: &[u8], original: &Lexed, print: &[u8]) -> Result<(), String> {
    let source = source(script);
    if print.starts_with(MARK) {
        return Err("the print begins with a byte-order mark".to_string());
    }
    if print.len() > room(source.len()) {
        return Err(format!("a print of {} bytes for {} bytes of script", print.len(), source.len()));
    }
    let again = lexed_again(source, original, print)?;
    match layout.print(print, &again.tokens) {
        twice if twice == print => Ok(()),
        twice => Err(format!("the model's print of the print: {:?}", String::from_utf8_lossy(&twice))),
    }
}

/// The laws for the print of a script without errors, of which the original gives these lists.
pub fn check(script: &[u8], original: &Lexed, print: &[u8]) -> Result<(), String> {
    check_in(&ORDER_2, script, original, print)
}
