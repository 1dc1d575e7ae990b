//! The print of one script against the model, with buffers of many sizes.
#![cfg_attr(not(oracle), allow(dead_code))]

use crate::check::LIMIT;
use crate::host::{self, Refusal};
use crate::lexed::Lexed;
use crate::print_model::ORDER_2;

pub const MARK: &[u8] = "\u{FEFF}".as_bytes();
const GUARD: usize = 16;
/// A buffer's bytes before it is lent. None of them occurs in UTF-8 and none has its neighbour's value, so that every byte that is
/// written or moved is seen.
const BEFORE: [u8; 8] = [0xF8, 0xF9, 0xFA, 0xFB, 0xFC, 0xFD, 0xFE, 0xFF];
/// Prints of up to so many bytes go into a buffer of every size.
const EVERY_SIZE: usize = 40;

/// What prints a script into a lent buffer and answers the bytes written: the proved call, or in the tests a wrong one.
type Printer<'a> = &'a dyn Fn(&[u8], &mut [u8]) -> Result<usize, Refusal>;

/// A print buffer of this size is never too small for a script of `n` bytes.
pub fn room(n: usize) -> usize {
    6 * n
}

/// The script after its byte-order mark.
pub fn source(script: &[u8]) -> &[u8] {
    script.strip_prefix(MARK).unwrap_or(script)
}

/// The bytes of a buffer and of the guards on both sides.
fn lent(size: usize) -> Vec<u8> {
    let mut bytes = BEFORE.repeat((GUARD + size + GUARD).div_ceil(BEFORE.len()));
    bytes.truncate(GUARD + size + GUARD);
    bytes
}

/// The first byte that differs, counted from the buffer's beginning, and what stands there on both sides.
fn difference(ours: &[u8], expected: &[u8]) -> String {
    const SHOWN: usize = 12;
    let at = ours.iter().zip(expected).take_while(|(ours, expected)| ours == expected).count();
    let words = |bytes: &[u8]| bytes[at..bytes.len().min(at + SHOWN)].escape_ascii().to_string();
    format!("byte {}: `{}`, expected `{}`", at as i64 - GUARD as i64, words(ours), words(expected))
}

/// Prints into a buffer of so many bytes, which has to answer what is expected and to change the bytes written and no others.
fn call(script: &[u8], size: usize, expected: Result<&[u8], Refusal>, printer: Printer) -> Result<(), String> {
    let mut bytes = lent(size);
    let answer = printer(script, &mut bytes[GUARD..GUARD + size]);
    if answer != expected.map(<[u8]>::len) {
        return Err(format!("print buffer of {size} bytes: answered {answer:?}, expected {:?}", expected.map(<[u8]>::len)));
    }
    let mut after = lent(size);
    if let Ok(print) = expected {
        after[GUARD..GUARD + print.len()].copy_from_slice(print);
    }
    match bytes == after {
        true => Ok(()),
        false => Err(format!("print buffer of {size} bytes, {}", difference(&bytes, &after))),
    }
}

/// A script that is refused, whatever buffer is lent.
fn refused_by(script: &[u8], refusal: Refusal, printer: Printer) -> Result<(), String> {
    [0, room(script.len().min(LIMIT))].iter().try_for_each(|size| call(script, *size, Err(refusal), printer))
}

/// A script that the print refuses as measuring does.
pub fn refused(script: &[u8], refusal: Refusal) -> Result<(), String> {
    refused_by(script, refusal, &host::print)
}

/// The sizes of buffers for a print of so many bytes.
fn sizes(need: usize) -> Vec<usize> {
    match need {
        0..=EVERY_SIZE => (0..=need + 2).collect(),
        _ => vec![0, need - 1, need, need + 1],
    }
}

/// A script that is printed, with each of the sizes.
fn printed(script: &[u8], print: &[u8], printer: Printer) -> Result<(), String> {
    let need = print.len();
    let expected = |size| if size < need { Err(Refusal::from_answer(12, need as u64)) } else { Ok(print) };
    sizes(need).into_iter().try_for_each(|size| call(script, size, expected(size), printer))
}

/// The print of a print is itself, where it is within the limit.
fn printed_again(print: &[u8], printer: Printer) -> Result<(), String> {
    let again = match print.len() > LIMIT {
        true => refused_by(print, Refusal::from_answer(1, print.len() as u64), printer),
        false => call(print, print.len(), Ok(print), printer),
    };
    again.map_err(|what| format!("the print of the print: {what}"))
}

/// The model's answer for an accepted script, of which the original gives these lists. The printer has to give the same.
fn compare_by(script: &[u8], original: &Lexed, printer: Printer) -> Result<Result<Vec<u8>, Refusal>, String> {
    if let Some(first) = original.errors.first() {
        let refusal = Refusal::from_answer(11, first.span[0]);
        return refused_by(script, refusal, printer).map(|()| Err(refusal));
    }
    let print = ORDER_2.print(source(script), &original.tokens);
    printed(script, &print, printer)?;
    printed_again(&print, printer)?;
    Ok(Ok(print))
}

/// Compares the print of an accepted script, of which the original gives these lists: the print, or none where an error was recorded.
/// The crate's own `print` has to answer the same.
pub fn compare(script: &[u8], original: &Lexed) -> Result<Option<Vec<u8>>, String> {
    let expected = compare_by(script, original, &host::print)?;
    match aura_lexer::print(script) == expected {
        true => Ok(expected.ok()),
        false => Err("the crate's print has another answer than the call".to_string()),
    }
}

#[cfg(all(test, oracle))]
mod tests;
