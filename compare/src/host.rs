//! The proved library's calls by way of the crate `aura_lexer`. The answers are lent with a guard value in every slot, so that
//! slots without a meaning are seen to keep; the typed functions of the crate have to answer the same. What is handed out is the
//! values, without the figure's slot.
use aura_lexer::raw::{self, CHECK_SLOTS, CONSUME_SLOTS, ERROR_SLOTS, FIGURE, MATCH_SLOTS, PRINT_SLOTS, TOKEN_SLOTS, USED_SLOTS};
use aura_lexer::TokenReader;
pub use aura_lexer::{Refusal, Used};

const KEPT: u64 = 0xEEEE_EEEE_EEEE_EEEE;

/// The values of each answer.
const TOKEN_VALUES: usize = TOKEN_SLOTS - 1;
const CONSUME_VALUES: usize = CONSUME_SLOTS - 1;
const MATCH_VALUES: usize = MATCH_SLOTS - 1;
const ERROR_VALUES: usize = ERROR_SLOTS - 1;

/// The values of a yes, which keeps the figure's slot, or the refusal, which sets no other. VALUES is SLOTS without the figure's.
fn answered<const SLOTS: usize, const VALUES: usize>(number: u64, answer: [u64; SLOTS]) -> Result<[u64; VALUES], Refusal> {
    let (figure, values) = (answer[FIGURE], &answer[FIGURE + 1..]);
    if number == 0 {
        assert_eq!(figure, KEPT, "a yes keeps the figure's slot");
        return Ok(values.try_into().expect("the other slots"));
    }
    assert_eq!(values, [KEPT; VALUES], "a refusal sets the figure's slot only");
    Err(Refusal::from_answer(number, figure))
}

/// The number of the refusal and the first byte of the first bad sequence, or none where the text is UTF-8.
pub fn first_bad(text: &[u8]) -> Option<(u64, u64)> {
    let mut figure = KEPT;
    let number = raw::first_bad(text, &mut figure);
    if number == 0 {
        assert_eq!(figure, KEPT, "a yes keeps the figure");
        None
    } else {
        Some((number, figure))
    }
}

/// The bytes of the byte-order mark that the text begins with.
pub fn mark_length(text: &[u8]) -> u64 {
    raw::mark_length(text)
}

pub fn is_white(code: u32) -> bool {
    aura_lexer::is_white(code)
}

/// The bytes written at the place, 0 for a refusal.
pub fn encode_char(code: u32, buffer: &mut [u8], at: u64) -> u64 {
    raw::encode_char(code, buffer, at as usize)
}

fn used(number: u64, answer: [u64; USED_SLOTS]) -> Result<Used, Refusal> {
    let [_, _, _, _, closed] = answered(number, answer)?;
    assert!(closed <= 1, "closed is 0 or 1");
    Used::from_answer(number, answer)
}

pub fn measure(script: &[u8]) -> Result<Used, Refusal> {
    let mut answer = [KEPT; USED_SLOTS];
    let number = raw::measure(script, &mut answer);
    used(number, answer)
}

pub fn tokenize(script: &[u8], tokens: &mut [u8], texts: &mut [u8], errors: &mut [u8]) -> Result<Used, Refusal> {
    let mut answer = [KEPT; USED_SLOTS];
    let number = raw::tokenize(script, tokens, texts, errors, &mut answer);
    used(number, answer)
}

/// The bytes written into the print buffer.
pub fn print(script: &[u8], print: &mut [u8]) -> Result<usize, Refusal> {
    let mut answer = [KEPT; PRINT_SLOTS];
    let number = raw::print(script, print, &mut answer);
    answered(number, answer).map(|[bytes]: [u64; 1]| bytes as usize)
}

/// The values of a token after the place, as the crate's typed token has them.
fn token_values(token: aura_lexer::Token) -> [u64; 9] {
    let [a, b, c, d, e, f] = token.span.fields();
    [u64::from(token.kind.number()), a, b, c, d, e, f, token.offset, token.length]
}

/// The next place, the kind, the span, the text's offset and length.
pub fn next_token(tokens: &[u8], place: usize) -> Result<[u64; TOKEN_VALUES], Refusal> {
    let mut answer = [KEPT; TOKEN_SLOTS];
    let number = raw::next_token(tokens, place, &mut answer);
    let ours = answered::<_, TOKEN_VALUES>(number, answer);
    let mut reader = TokenReader::at(tokens, place);
    let typed = reader.next_token().map(token_values);
    assert_eq!(typed, ours.map(|r| r[1..].try_into().expect("nine")), "the typed reader's token");
    assert_eq!(reader.place() as u64, ours.map_or(place as u64, |r| r[0]), "the typed reader's place");
    ours
}

/// The next token's values, and 1 where the kind is the one asked for.
pub fn consume(tokens: &[u8], place: usize, kind: u8) -> Result<[u64; CONSUME_VALUES], Refusal> {
    let mut answer = [KEPT; CONSUME_SLOTS];
    let number = raw::consume(tokens, place, kind.into(), &mut answer);
    let ours = answered::<_, CONSUME_VALUES>(number, answer);
    let mut reader = TokenReader::at(tokens, place);
    let typed = reader.consume(kind).map(|(token, fits)| (token_values(token), u64::from(fits)));
    assert_eq!(typed, ours.map(|r| (r[1..10].try_into().expect("nine"), r[10])), "the typed reader's consume");
    assert_eq!(reader.place() as u64, ours.map_or(place as u64, |r| r[0]), "the typed reader's place");
    ours
}

/// The next place, and 1 where the kind is the one asked for.
pub fn match_kind(tokens: &[u8], place: usize, kind: u8) -> Result<[u64; MATCH_VALUES], Refusal> {
    let mut answer = [KEPT; MATCH_SLOTS];
    let number = raw::match_kind(tokens, place, kind.into(), &mut answer);
    let ours = answered::<_, MATCH_VALUES>(number, answer);
    let mut reader = TokenReader::at(tokens, place);
    let typed = reader.match_kind(kind).map(u64::from);
    assert_eq!(typed, ours.map(|r| r[1]), "the typed reader's match");
    assert_eq!(reader.place() as u64, ours.map_or(place as u64, |r| r[0]), "the typed reader's place");
    ours
}

/// The next place, the kind, the span, the code point.
pub fn next_error(errors: &[u8], place: usize) -> Result<[u64; ERROR_VALUES], Refusal> {
    let mut answer = [KEPT; ERROR_SLOTS];
    let number = raw::next_error(errors, place, &mut answer);
    let ours = answered(number, answer);
    let typed = aura_lexer::next_error(errors, place).map(|(error, next)| {
        let [a, b, c, d, e, f] = error.span.fields();
        [next as u64, u64::from(error.kind.number()), a, b, c, d, e, f, u64::from(error.code.unwrap_or(0))]
    });
    assert_eq!(typed, ours, "the typed reader's error");
    ours
}

pub fn text_check(script: &[u8], texts: &[u8], tokens: &[u8], place: usize) -> Result<(), Refusal> {
    let mut answer = [KEPT; CHECK_SLOTS];
    let number = raw::text_check(script, texts, tokens, place, &mut answer);
    let ours = answered(number, answer).map(|[]: [u64; 0]| ());
    let text = aura_lexer::token_text(script, texts, tokens, place);
    assert_eq!(text.map(|_| ()), ours, "the typed text");
    ours
}
