//! Reading records back.
use crate::answers::Token;
use crate::errors::LexError;
use crate::raw::{CONSUME_FITS, FIGURE, MATCH_FITS, NEXT_PLACE};
use crate::refusals::{checked, Refusal};
use crate::{after_mark, raw};

/// The token buffer and a place in it. A refused call keeps the place, and at EOF the reader stays.
#[derive(Clone, Copy, Debug)]
pub struct TokenReader<'a> {
    tokens: &'a [u8],
    place: usize,
}

impl<'a> TokenReader<'a> {
    /// A reader at the first record of what tokenising used.
    pub fn new(tokens: &'a [u8]) -> Self {
        Self::at(tokens, 0)
    }

    /// A reader at a place, of which the next call says whether a record starts there.
    pub fn at(tokens: &'a [u8], place: usize) -> Self {
        TokenReader { tokens, place }
    }

    /// The place of the record that comes next.
    pub fn place(&self) -> usize {
        self.place
    }

    /// The token at the place; the reader moves on.
    pub fn next_token(&mut self) -> Result<Token, Refusal> {
        let mut answer = [0; raw::TOKEN_SLOTS];
        let number = raw::next_token(self.tokens, self.place, &mut answer);
        checked(number, answer[FIGURE])?;
        self.place = answer[NEXT_PLACE] as usize;
        Ok(Token::from_answer(&answer))
    }

    /// The token at the place, and whether it is of the kind; the reader moves on either way, but does not leave EOF.
    pub fn consume(&mut self, kind: impl Into<u64>) -> Result<(Token, bool), Refusal> {
        let mut answer = [0; raw::CONSUME_SLOTS];
        let number = raw::consume(self.tokens, self.place, kind.into(), &mut answer);
        checked(number, answer[FIGURE])?;
        self.place = answer[NEXT_PLACE] as usize;
        Ok((Token::from_answer(&answer), answer[CONSUME_FITS] == 1))
    }

    /// Whether the token at the place is of the kind; the reader moves on only then, and does not leave EOF.
    pub fn match_kind(&mut self, kind: impl Into<u64>) -> Result<bool, Refusal> {
        let mut answer = [0; raw::MATCH_SLOTS];
        let number = raw::match_kind(self.tokens, self.place, kind.into(), &mut answer);
        checked(number, answer[FIGURE])?;
        self.place = answer[NEXT_PLACE] as usize;
        Ok(answer[MATCH_FITS] == 1)
    }
}

/// The error record at a place, and the next place. Behind the last record it answers 7.
pub fn next_error(errors: &[u8], place: usize) -> Result<(LexError, usize), Refusal> {
    let mut answer = [0; raw::ERROR_SLOTS];
    let number = raw::next_error(errors, place, &mut answer);
    checked(number, answer[FIGURE])?;
    Ok((LexError::from_answer(&answer), answer[NEXT_PLACE] as usize))
}

/// Whether the text of the token record at a place lies inside its buffer. The script is lent with its byte-order mark.
pub fn text_check(script: &[u8], texts: &[u8], tokens: &[u8], place: usize) -> Result<(), Refusal> {
    let mut answer = [0; raw::CHECK_SLOTS];
    let number = raw::text_check(script, texts, tokens, place, &mut answer);
    checked(number, answer[FIGURE])
}

/// The text of the token record at a place: a part of the script or of the text buffer, or the fixed spelling of its kind. It is bytes,
/// since a record that was damaged may cut a character; the texts of [`Lexed::tokens`](crate::Lexed::tokens) are whole.
pub fn token_text<'a>(script: &'a [u8], texts: &'a [u8], tokens: &[u8], place: usize) -> Result<&'a [u8], Refusal> {
    text_check(script, texts, tokens, place)?;
    let token = TokenReader::at(tokens, place).next_token()?;
    if !token.kind.carries_text() {
        return Ok(token.kind.spelling().as_bytes());
    }
    let home = if token.kind.has_made_text() { texts } else { after_mark(script) };
    let start = token.offset as usize;
    Ok(&home[start..start + token.length as usize])
}
