//! The proved Aura lexer behind safe functions. `lex` is the whole of it for most hosts, and `print` writes a script in one layout; the
//! other functions are the exported calls one by one, on buffers that the caller lends.
//!
//! ```
//! let lexed = aura_lexer::lex(b"val a=1")?;
//! let names: Vec<&str> = lexed.tokens().map(|(token, _)| token.kind.name()).collect();
//! assert_eq!(names, ["Val", "Ident", "Assign", "IntLiteral", "EOF"]);
//! assert!(!lexed.has_errors() && lexed.is_closed());
//! # Ok::<(), aura_lexer::Refusal>(())
//! ```
//!
//! The static library of the proved crates is linked from the folder that the variable `AURA_LIB_DIR` names when the crate is built;
//! without it from `target/staticlib` of the repository.
#![deny(missing_docs)]

mod answers;
mod columns;
mod errors;
mod kinds;
mod lexed;
mod print;
pub mod raw;
mod reader;
mod refusals;

pub use answers::{Span, Token, Used};
pub use columns::columns;
pub use errors::{ErrorKind, LexError};
pub use kinds::TokenKind;
pub use lexed::{lex, Errors, Lexed, Tokens};
pub use print::{print, print_into, print_room};
pub use reader::{next_error, text_check, token_text, TokenReader};
pub use refusals::{Refusal, RefusalKind};

use refusals::checked;

/// The commit of onlynight/AuraLang whose lexer this one is a translation of.
pub const ORIGINAL: &str = "c401ce55f2";

/// The longest script, in bytes, its byte-order mark counted.
pub const LIMIT: usize = 1_048_576;

/// A token buffer of this size is never too small for a script of `n` bytes.
pub const fn tokens_room(n: usize) -> usize {
    33 * (n + 1)
}

/// A text buffer of this size is never too small for a script of `n` bytes.
pub const fn texts_room(n: usize) -> usize {
    2 * n + 2
}

/// An error buffer of this size is never too small for a script of `n` bytes.
pub const fn errors_room(n: usize) -> usize {
    29 * n
}

/// What tokenising a script would answer, with large enough buffers.
pub fn measure(script: &[u8]) -> Result<Used, Refusal> {
    let mut answer = [0; raw::USED_SLOTS];
    let number = raw::measure(script, &mut answer);
    Used::from_answer(number, answer)
}

/// Tokenises a script into lent buffers. A refusal changes none of them; bytes beyond those used keep. The texts lie in the order of their
/// tokens, from byte 0, without gaps; the answer and every byte that is left are fixed by the script and by what was lent.
pub fn tokenize(script: &[u8], tokens: &mut [u8], texts: &mut [u8], errors: &mut [u8]) -> Result<Used, Refusal> {
    let mut answer = [0; raw::USED_SLOTS];
    let number = raw::tokenize(script, tokens, texts, errors, &mut answer);
    Used::from_answer(number, answer)
}

/// Whether a text is UTF-8; the refusal's figure is the first byte of the first bad sequence.
pub fn first_bad(text: &[u8]) -> Result<(), Refusal> {
    let mut figure = 0;
    let number = raw::first_bad(text, &mut figure);
    checked(number, figure)
}

/// The bytes of the byte-order mark that a text begins with: 3 or 0.
pub fn mark_length(text: &[u8]) -> usize {
    raw::mark_length(text) as usize
}

/// The text after its byte-order mark, which offsets count from.
pub fn after_mark(text: &[u8]) -> &[u8] {
    &text[mark_length(text)..]
}

/// Whether a code point has Unicode's property White_Space.
pub fn is_white(code: u32) -> bool {
    raw::is_white(code) != 0
}

/// Writes a character as UTF-8 at a place of the buffer: the bytes written, or none where the code point is no character or does
/// not fit; the buffer keeps then.
pub fn encode_char(code: u32, buffer: &mut [u8], at: usize) -> Option<usize> {
    match raw::encode_char(code, buffer, at) {
        0 => None,
        written => Some(written as usize),
    }
}

#[cfg(test)]
mod tests;
