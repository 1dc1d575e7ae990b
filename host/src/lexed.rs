//! A script with its records.
use crate::answers::{Token, Used};
use crate::errors::LexError;
use crate::reader::{next_error, token_text, TokenReader};
use crate::refusals::Refusal;
use crate::{after_mark, errors_room, texts_room, tokenize, tokens_room, LIMIT};
use std::iter::FusedIterator;

/// An accepted script and the records of its tokens and errors.
#[derive(Clone, Debug)]
pub struct Lexed<'a> {
    script: &'a [u8],
    tokens: Vec<u8>,
    texts: Vec<u8>,
    errors: Vec<u8>,
    used: Used,
    error_count: usize,
}

/// Tokenises a script. It takes buffers for the worst case, about 64 bytes for each byte of the script, and cuts them afterwards.
pub fn lex(script: &[u8]) -> Result<Lexed<'_>, Refusal> {
    let n = script.len().min(LIMIT);
    let mut tokens = vec![0; tokens_room(n)];
    let mut texts = vec![0; texts_room(n)];
    let mut errors = vec![0; errors_room(n)];
    let used = tokenize(script, &mut tokens, &mut texts, &mut errors)?;
    cut(&mut tokens, used.tokens);
    cut(&mut texts, used.texts);
    cut(&mut errors, used.errors);
    let error_count = count(&errors);
    Ok(Lexed { script, tokens, texts, errors, used, error_count })
}

fn cut(buffer: &mut Vec<u8>, used: usize) {
    buffer.truncate(used);
    buffer.shrink_to_fit();
}

/// The number of records that tokenising wrote in the error buffer.
fn count(records: &[u8]) -> usize {
    let mut place = 0;
    let mut number = 0;
    while place < records.len() {
        (_, place) = next_error(records, place).expect(WHOLE);
        number += 1;
    }
    number
}

const WHOLE: &str = "tokenising wrote whole records";
const UTF8: &str = "an accepted script is UTF-8, a token ends between characters, and a made text is characters written as UTF-8";

impl<'a> Lexed<'a> {
    /// The bytes used in each buffer, the number of tokens, and whether the script is closed.
    pub fn used(&self) -> Used {
        self.used
    }

    /// Whether nothing is open at the script's end: a script behind it and a line feed is read as if it stood alone.
    pub fn is_closed(&self) -> bool {
        self.used.closed
    }

    /// Whether the script has errors.
    pub fn has_errors(&self) -> bool {
        self.error_count > 0
    }

    /// The script as it was lent, its byte-order mark included.
    pub fn script(&self) -> &'a [u8] {
        self.script
    }

    /// The script after its byte-order mark, which offsets count from.
    pub fn source(&self) -> &'a str {
        std::str::from_utf8(after_mark(self.script)).expect(UTF8)
    }

    /// The records of the tokens, as far as the buffer is used.
    pub fn token_records(&self) -> &[u8] {
        &self.tokens
    }

    /// The texts that the lexer made, as far as the buffer is used: in the order of their tokens, one behind another, so that it can be read
    /// straight through by the lengths of those tokens of which [`TokenKind::has_made_text`](crate::TokenKind::has_made_text) holds.
    pub fn text_buffer(&self) -> &[u8] {
        &self.texts
    }

    /// The records of the errors, as far as the buffer is used.
    pub fn error_records(&self) -> &[u8] {
        &self.errors
    }

    /// A reader at the first token.
    pub fn reader(&self) -> TokenReader<'_> {
        TokenReader::new(&self.tokens)
    }

    /// The tokens with their texts, EOF last. A text is a part of the script, which is UTF-8 and in which tokens end between
    /// characters, or it was made of characters: so it is UTF-8.
    pub fn tokens(&self) -> Tokens<'_> {
        Tokens { lexed: self, reader: self.reader(), left: self.used.count }
    }

    /// The errors in the order recorded.
    pub fn errors(&self) -> Errors<'_> {
        Errors { records: &self.errors, place: 0, left: self.error_count }
    }
}

/// The tokens of a script with their texts.
#[derive(Clone, Debug)]
pub struct Tokens<'a> {
    lexed: &'a Lexed<'a>,
    reader: TokenReader<'a>,
    left: usize,
}

impl<'a> Iterator for Tokens<'a> {
    type Item = (Token, &'a str);

    fn next(&mut self) -> Option<Self::Item> {
        self.left = self.left.checked_sub(1)?;
        let Lexed { script, tokens, texts, .. } = self.lexed;
        let text = token_text(script, texts, tokens, self.reader.place()).expect(WHOLE);
        let token = self.reader.next_token().expect(WHOLE);
        Some((token, std::str::from_utf8(text).expect(UTF8)))
    }

    fn size_hint(&self) -> (usize, Option<usize>) {
        (self.left, Some(self.left))
    }
}

impl ExactSizeIterator for Tokens<'_> {}
impl FusedIterator for Tokens<'_> {}

/// The errors of a script.
#[derive(Clone, Debug)]
pub struct Errors<'a> {
    records: &'a [u8],
    place: usize,
    left: usize,
}

impl Iterator for Errors<'_> {
    type Item = LexError;

    fn next(&mut self) -> Option<LexError> {
        self.left = self.left.checked_sub(1)?;
        let (error, next) = next_error(self.records, self.place).expect(WHOLE);
        self.place = next;
        Some(error)
    }

    fn size_hint(&self) -> (usize, Option<usize>) {
        (self.left, Some(self.left))
    }
}

impl ExactSizeIterator for Errors<'_> {}
impl FusedIterator for Errors<'_> {}
