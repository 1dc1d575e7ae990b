//! The original lexer: a fresh `Lexer::new`, then `tokenize` and `errors`. A changed copy of it is asked in the same way.
use crate::check;
use crate::lexed::{Lexed, Mistake, Span, Token};
use crate::lexer::Lexer;
use std::sync::OnceLock;

/// The number of a message that the original does not have.
const UNKNOWN: u8 = 0;

/// A lexer in Rust, in the form in which answers are compared: the original, or a changed copy of it.
pub trait Lexing {
    fn start(source: &str) -> Self
    where
        Self: Sized;
    fn tokenize(&mut self) -> Vec<Token>;
    fn errors(&self) -> Vec<Mistake>;
    fn next_token(&mut self) -> Token;
    /// An error has its message and its span.
    fn consume(&mut self, kind: u8) -> Result<Token, (String, Span)>;
    fn match_kind(&mut self, kind: u8) -> bool;
}

/// Implements `Lexing` for a `Lexer`, whose kinds are listed by their numbers.
macro_rules! lexing {
    ($lexer:ty, $kinds:expr) => {
        impl crate::oracle::Lexing for $lexer {
            fn start(source: &str) -> Self {
                <$lexer>::new(source)
            }
            fn tokenize(&mut self) -> Vec<crate::lexed::Token> {
                <$lexer>::tokenize(self).into_iter().map(|t| crate::oracle::token!(t)).collect()
            }
            fn errors(&self) -> Vec<crate::lexed::Mistake> {
                <$lexer>::errors(self).iter().map(|e| crate::oracle::error(&e.message, crate::oracle::span!(e.span))).collect()
            }
            fn next_token(&mut self) -> crate::lexed::Token {
                let t = <$lexer>::next_token(self);
                crate::oracle::token!(t)
            }
            fn consume(&mut self, kind: u8) -> Result<crate::lexed::Token, (String, crate::lexed::Span)> {
                let answer = <$lexer>::consume(self, $kinds[usize::from(kind)]);
                answer.map(|t| crate::oracle::token!(t)).map_err(|e| (e.message, crate::oracle::span!(e.span)))
            }
            fn match_kind(&mut self, kind: u8) -> bool {
                <$lexer>::match_kind(self, $kinds[usize::from(kind)])
            }
        }
    };
}

/// A token of the original, or of a changed copy, whose type is another one.
macro_rules! token {
    ($t:expr) => {
        crate::lexed::Token { kind: $t.kind as u8, span: crate::oracle::span!($t.span), text: $t.literal.into_bytes() }
    };
}

macro_rules! span {
    ($s:expr) => {
        [$s.start, $s.end, $s.start_line, $s.start_col, $s.end_line, $s.end_col].map(|n| n as u64)
    };
}

#[cfg(feature = "mutants")]
pub(crate) use lexing;
pub(crate) use {span, token};

lexing!(Lexer, crate::KINDS);

/// The only character of a message between what stands before it and behind it.
fn named(message: &str, before: &str, behind: &str) -> Option<u32> {
    let mut rest = message.strip_prefix(before)?.strip_suffix(behind)?.chars();
    rest.next().filter(|_| rest.next().is_none()).map(u32::from)
}

/// An error by its message: its number, and the character that it names.
pub fn error(message: &str, span: Span) -> Mistake {
    if let Some(code) = named(message, "Unexpected character: '", "'") {
        return Mistake { kind: 1, span, code: Some(code) };
    }
    if let Some(code) = named(message, "Invalid escape sequence: \\", "") {
        return Mistake { kind: 7, span, code: Some(code) };
    }
    let kind = match message {
        "Unterminated block comment" => 2,
        "Unterminated raw string literal" => 3,
        "Unterminated string literal" => 4,
        "Unterminated string literal: newline in string, use \"\"\"...\"\"\" for multi-line strings" => 5,
        "Invalid unicode escape (expected \\uXXXX)" => 6,
        "Unterminated string interpolation" => 8,
        "Unterminated character literal" => 9,
        "Unterminated documentation comment" => 10,
        _ => UNKNOWN,
    };
    Mistake { kind, span, code: None }
}

/// All of a lexer's answers for its script.
pub fn answers(lexer: &mut dyn Lexing) -> Lexed {
    Lexed { tokens: lexer.tokenize(), errors: lexer.errors() }
}

pub fn lex(source: &str) -> Lexed {
    answers(&mut Lexer::start(source))
}

/// The same for bytes that are known to be UTF-8.
pub fn lex_bytes(script: &[u8]) -> Result<Lexed, String> {
    std::str::from_utf8(script).map(lex).map_err(|e| e.to_string())
}

/// Demand 3 asked of the original: whether `closed` is right for the script, of which it gives `first`.
pub fn joins(script: &[u8], closed: bool, first: &Lexed) -> Result<(), String> {
    joins_some(check::SECONDS.len(), script, closed, first)
}

/// The same with so many of the second scripts.
pub fn joins_some(count: usize, script: &[u8], closed: bool, first: &Lexed) -> Result<(), String> {
    static SECONDS: OnceLock<Vec<Lexed>> = OnceLock::new();
    check::joins(script, closed, first, &SECONDS.get_or_init(|| check::seconds(lex_bytes))[..count], lex_bytes)
}

#[cfg(test)]
mod tests {
    use super::*;

    #[test]
    fn a_message_has_its_number() {
        let span = [0; 6];
        let numbers = |message: &str| (error(message, span).kind, error(message, span).code);
        assert_eq!(numbers("Unexpected character: '''"), (1, Some(u32::from('\''))));
        assert_eq!(numbers("Unexpected character: ''"), (UNKNOWN, None));
        assert_eq!(numbers("Unexpected character: 'ab'"), (UNKNOWN, None));
        assert_eq!(numbers("Invalid escape sequence: \\\u{e9}"), (7, Some(0xE9)));
        assert_eq!(numbers("Invalid escape sequence: \\"), (UNKNOWN, None));
        assert_eq!(numbers("Unterminated string literal"), (4, None));
        assert_eq!(numbers("Unterminated string literal: newline"), (UNKNOWN, None));
        assert_eq!(numbers("a message that the original does not have"), (UNKNOWN, None));
    }
}
