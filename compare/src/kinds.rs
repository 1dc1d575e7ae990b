//! The token kinds of the crate `aura_lexer` against the original's.
use crate::decode::SPELLINGS;
use crate::oracle;
use crate::say::say;
use aura_lexer::TokenKind;

/// The names of the original's `TokenKind`, in its order, from its source.
fn names() -> Vec<&'static str> {
    let after = crate::TOKEN_RS.split("pub enum TokenKind {").nth(1).expect("token.rs has the enum");
    let body = after.split("\n}").next().expect("a body");
    let words = body.lines().map(|line| line.split("//").next().expect("a part").trim().trim_end_matches(','));
    words.filter(|word| !word.is_empty()).collect()
}

/// A script that the original reads as the one token of a spelling.
fn script_of(spelling: &str) -> &str {
    if spelling == "::=" {
        ":="
    } else {
        spelling
    }
}

fn check(number: usize, name: &str) -> Result<(), String> {
    let kind = TokenKind::from_number(number as u64).ok_or(format!("no kind {number}"))?;
    if kind.name() != name {
        return Err(format!("kind {number} is {name}, not {}", kind.name()));
    }
    let spelling = kind.spelling();
    if spelling != SPELLINGS[number] {
        return Err(format!("the spelling of {name} is {:?}, not {spelling:?}", SPELLINGS[number]));
    }
    if spelling.is_empty() {
        return Ok(());
    }
    let lexed = oracle::lex(script_of(spelling));
    let first = &lexed.tokens[0];
    if first.kind as usize != number || first.text != spelling.as_bytes() {
        return Err(format!("the original reads {spelling:?} as {first:?}"));
    }
    Ok(())
}

pub fn run() -> bool {
    let names = names();
    let result = names.iter().enumerate().try_for_each(|(number, name)| check(number, name));
    if names.len() != TokenKind::all().len() {
        say!("DIFFERENT: the original has {} kinds, the crate {}", names.len(), TokenKind::all().len());
        return false;
    }
    match result {
        Ok(()) => say!("kinds: {} names and spellings, all equal", names.len()),
        Err(ref text) => say!("DIFFERENT: {text}"),
    }
    result.is_ok()
}
