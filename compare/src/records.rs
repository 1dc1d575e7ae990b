//! The readers over good, cut and damaged buffers, at every place, against the decoder written from document 01.
use crate::check;
use crate::decode;
use crate::host::{self, Refusal};
use crate::list;
use crate::say::say;
use crate::scripts::Numbers;

/// What the text check has to answer for the record at a place.
fn expected_check(script: &[u8], texts: &[u8], tokens: &[u8], at: usize) -> Result<(), Refusal> {
    let Some(r) = decode::record(tokens, at) else {
        return Err(Refusal::from_answer(7, at as u64));
    };
    let Some((offset, length)) = r.text else {
        return Ok(());
    };
    let size = if decode::is_made(r.kind) { texts.len() } else { script.strip_prefix("\u{FEFF}".as_bytes()).unwrap_or(script).len() };
    if offset + length <= size as u64 {
        Ok(())
    } else {
        Err(Refusal::from_answer(8, offset))
    }
}

/// Every place of a buffer, and some beyond it.
fn places(size: usize) -> impl Iterator<Item = usize> {
    (0..size + 40).chain([usize::MAX - 40, usize::MAX])
}

/// Consume and match of a kind at a place, by what next has to answer there.
fn same_kind(tokens: &[u8], at: usize, kind: u8, next: Result<[u64; 10], Refusal>) -> Result<(), String> {
    let next = if kind > 125 { Err(Refusal::from_answer(6, u64::from(kind))) } else { next };
    let consumed = next.map(|r| {
        let mut values = [0; 11];
        values[..10].copy_from_slice(&r);
        values[10] = u64::from(r[1] == u64::from(kind));
        values
    });
    let matched = consumed.map(|r| [if r[10] == 1 { r[0] } else { at as u64 }, r[10]]);
    let ours = (host::consume(tokens, at, kind), host::match_kind(tokens, at, kind));
    if ours != (consumed, matched) {
        return Err(format!("kind {kind} at {at} of {tokens:02X?}: proved {ours:?}, expected {:?}", (consumed, matched)));
    }
    Ok(())
}

fn same_tokens(script: &[u8], texts: &[u8], tokens: &[u8]) -> Result<u64, String> {
    let mut done = 0;
    for at in places(tokens.len()) {
        let ours = host::next_token(tokens, at);
        let theirs = match decode::record(tokens, at) {
            None => Err(Refusal::from_answer(7, at as u64)),
            Some(r) => {
                let next = if r.kind == crate::lexed::EOF { at } else { r.next };
                let (offset, length) = r.text.unwrap_or((0, 0));
                let [a, b, c, d, e, f] = r.span;
                Ok([next as u64, u64::from(r.kind), a, b, c, d, e, f, offset, length])
            }
        };
        if ours != theirs {
            return Err(format!("next token at {at} of {tokens:02X?}: proved {ours:?}, decoded {theirs:?}"));
        }
        for kind in [0, 5, 39, 76, 124, 125, 126, 255, tokens.get(at).copied().unwrap_or(0)] {
            same_kind(tokens, at, kind, theirs)?;
            done += 2;
        }
        let ours = host::text_check(script, texts, tokens, at);
        let theirs = expected_check(script, texts, tokens, at);
        if ours != theirs {
            return Err(format!("text check at {at} of {tokens:02X?}: proved {ours:?}, expected {theirs:?}"));
        }
        done += 2;
    }
    Ok(done)
}

fn same_errors(errors: &[u8]) -> Result<u64, String> {
    let mut done = 0;
    for at in places(errors.len()) {
        let ours = host::next_error(errors, at);
        let theirs = match decode::error(errors, at) {
            None => Err(Refusal::from_answer(7, at as u64)),
            Some((m, next)) => {
                let [a, b, c, d, e, f] = m.span;
                Ok([next as u64, u64::from(m.kind), a, b, c, d, e, f, u64::from(m.code.unwrap_or(0))])
            }
        };
        if ours != theirs {
            return Err(format!("next error at {at} of {errors:02X?}: proved {ours:?}, decoded {theirs:?}"));
        }
        done += 1;
    }
    Ok(done)
}

/// A buffer, cut or with a byte changed.
fn damaged(numbers: &mut Numbers, bytes: &[u8]) -> Vec<u8> {
    let mut copy = bytes.to_vec();
    if numbers.below(2) == 0 || copy.is_empty() {
        copy.truncate(numbers.below(bytes.len() + 1));
    } else {
        let at = numbers.below(copy.len());
        copy[at] = numbers.next() as u8;
    }
    copy
}

fn compare() -> Result<u64, String> {
    let mut numbers = Numbers::new(7);
    let mut done = 0;
    for (i, script) in list::SMALL.iter().enumerate() {
        let script = if i % 2 == 0 { script.to_string() } else { format!("\u{FEFF}{script}") };
        let script = script.as_bytes();
        let [tokens, texts, errors] = check::buffers(script)?;
        done += same_tokens(script, &texts, &tokens)? + same_errors(&errors)?;
        for _ in 0..40 {
            done += same_tokens(script, &texts, &damaged(&mut numbers, &tokens))?;
            done += same_tokens(script, &damaged(&mut numbers, &texts), &tokens)?;
            done += same_errors(&damaged(&mut numbers, &errors))?;
        }
    }
    for kind in 0..=255u8 {
        for size in [0, 1, 24, 25, 26, 28, 29, 30, 32, 33, 34] {
            let mut bytes = vec![kind; size];
            if size > 1 {
                bytes[1..].fill(1);
            }
            done += same_tokens(b"", b"", &bytes)? + same_errors(&bytes)?;
        }
    }
    Ok(done)
}

pub fn run() -> bool {
    match compare() {
        Ok(done) => {
            say!("records: {done} answers of the readers compared, all equal");
            true
        }
        Err(text) => {
            say!("DIFFERENT: {text}");
            false
        }
    }
}
