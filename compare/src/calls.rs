//! Calls of the readers in an order that is drawn, and what both sides answer to them.
use crate::host;
use crate::lexed::{Span, Token};
use crate::oracle::Lexing;
use crate::scripts::Numbers;
use aura_lexer::TokenKind;
use std::fmt;

#[derive(Clone, Copy)]
pub enum Call {
    Next,
    Consume(u8),
    Match(u8),
}

fn name(kind: u64) -> &'static str {
    TokenKind::from_number(kind).map_or("unknown", TokenKind::name)
}

impl fmt::Display for Call {
    fn fmt(&self, f: &mut fmt::Formatter<'_>) -> fmt::Result {
        match *self {
            Call::Next => write!(f, "next"),
            Call::Consume(kind) => write!(f, "consume {}", name(kind.into())),
            Call::Match(kind) => write!(f, "match {}", name(kind.into())),
        }
    }
}

/// What a call answers: a token's kind and span, the original's message and the span of a consume that failed, or whether the kind
/// matched.
#[derive(Debug, PartialEq, Eq)]
pub enum Answer {
    Token(u8, Span),
    Failed(String, Span),
    Matched(bool),
}

/// Draws a call that asks for one of the kinds.
pub fn draw(numbers: &mut Numbers, kinds: &[u8]) -> Call {
    let kind = kinds[numbers.below(kinds.len())];
    match numbers.below(3) {
        0 => Call::Next,
        1 => Call::Consume(kind),
        _ => Call::Match(kind),
    }
}

fn span(slots: &[u64]) -> Span {
    slots[2..8].try_into().expect("six slots")
}

/// What consuming a kind answered. The record of a token of another kind is told as the original tells it.
fn consumed(kind: u8, slots: &[u64]) -> Answer {
    if slots[10] == 1 {
        return Answer::Token(slots[1] as u8, span(slots));
    }
    Answer::Failed(format!("Expected {} but got {}", name(kind.into()), name(slots[1])), span(slots))
}

/// The answers of the proved readers over the records of tokens.
pub fn ours(tokens: &[u8], calls: &[Call]) -> Result<Vec<Answer>, String> {
    let mut place = 0;
    let mut answers = Vec::new();
    for call in calls {
        let refused = |r| format!("refused {r:?} at {place}");
        let (next, answer) = match *call {
            Call::Next => host::next_token(tokens, place).map(|r| (r[0], Answer::Token(r[1] as u8, span(&r)))),
            Call::Consume(kind) => host::consume(tokens, place, kind).map(|r| (r[0], consumed(kind, &r))),
            Call::Match(kind) => host::match_kind(tokens, place, kind).map(|r| (r[0], Answer::Matched(r[1] == 1))),
        }
        .map_err(refused)?;
        answers.push(answer);
        place = next as usize;
    }
    Ok(answers)
}

/// The answers of a lexer in Rust.
pub fn theirs(lexer: &mut dyn Lexing, calls: &[Call]) -> Vec<Answer> {
    let token = |t: Token| Answer::Token(t.kind, t.span);
    calls
        .iter()
        .map(|call| match *call {
            Call::Next => token(lexer.next_token()),
            Call::Consume(kind) => lexer.consume(kind).map_or_else(|(message, span)| Answer::Failed(message, span), token),
            Call::Match(kind) => Answer::Matched(lexer.match_kind(kind)),
        })
        .collect()
}
