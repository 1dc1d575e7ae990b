//! The office print of a script.
use crate::raw::{self, FIGURE, PRINT_BYTES, PRINT_SLOTS};
use crate::refusals::{checked, Refusal};
use crate::LIMIT;

/// A print buffer of this size is never too small for a script of `n` bytes.
pub const fn print_room(n: usize) -> usize {
    6 * n
}

/// Writes the office print of a script into a lent buffer: the bytes written. A refusal changes nothing; bytes beyond those written
/// keep. Where the buffer is too small the figure of refusal 12 is the bytes needed.
pub fn print_into(script: &[u8], print: &mut [u8]) -> Result<usize, Refusal> {
    let mut answer = [0; PRINT_SLOTS];
    let number = raw::print(script, print, &mut answer);
    checked(number, answer[FIGURE])?;
    Ok(answer[PRINT_BYTES] as usize)
}

/// The office print of a script without errors: the same tokens in one layout, as UTF-8 without a byte-order mark. One with an error is
/// refused with 11. Lexing the print gives the script's kinds and texts back, and printing it changes nothing, where it has at most
/// [`LIMIT`] bytes; a longer one is made too.
///
/// It lends a buffer for the worst case and cuts it afterwards: one call instead of two, and the part that is not written to is never
/// looked at, so that it costs no memory.
///
/// ```
/// assert_eq!(aura_lexer::print(b"val a=1 // one")?, b"val a = 1");
/// # Ok::<(), aura_lexer::Refusal>(())
/// ```
pub fn print(script: &[u8]) -> Result<Vec<u8>, Refusal> {
    let mut print = vec![0; print_room(script.len().min(LIMIT))];
    let written = print_into(script, &mut print)?;
    print.truncate(written);
    print.shrink_to_fit();
    Ok(print)
}
