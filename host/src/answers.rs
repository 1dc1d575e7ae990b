//! What the calls answer with a yes, as types.
use crate::kinds::TokenKind;
use crate::raw::{FIGURE, KIND, START, TEXT_LENGTH, TEXT_OFFSET, USED_SLOTS};
use crate::refusals::{checked, Refusal};
use std::ops::Range;

/// What tokenising used, and what it says of the script as a whole.
#[derive(Clone, Copy, Debug, PartialEq, Eq, Hash)]
pub struct Used {
    /// The bytes used in the token buffer.
    pub tokens: usize,
    /// The bytes used in the text buffer.
    pub texts: usize,
    /// The bytes used in the error buffer.
    pub errors: usize,
    /// The number of tokens, EOF counted.
    pub count: usize,
    /// Whether nothing is open at the script's end.
    pub closed: bool,
}

impl Used {
    /// The answer of measuring or tokenising.
    pub fn from_answer(number: u64, answer: [u64; USED_SLOTS]) -> Result<Self, Refusal> {
        checked(number, answer[FIGURE])?;
        let [_, tokens, texts, errors, count, closed] = answer.map(|n| n as usize);
        Ok(Used { tokens, texts, errors, count, closed: closed == 1 })
    }
}

/// Where something stands: the six fields of its record. Offsets count bytes after the byte-order mark. Lines and columns count from 1,
/// columns in characters; behind a line feed that was skipped as white space a record's columns are one more than an editor's, which
/// [`columns`](crate::columns) gives.
///
/// Where a token ends depends on its kind, so [`Token::range`] has the bytes of a token and not its span alone.
#[derive(Clone, Copy, Debug, PartialEq, Eq, Hash)]
pub struct Span {
    /// The offset of the first character. Pieces of one string share the string's.
    pub start: u64,
    /// The offset of the last character for names and keywords (kinds 4 to 68), the start for a lone mark, else one past the last.
    pub end: u64,
    /// The line of the start.
    pub start_line: u64,
    /// The column of the start.
    pub start_col: u64,
    /// The line of the end.
    pub end_line: u64,
    /// The column of the end.
    pub end_col: u64,
}

impl Span {
    /// From a reader's yes.
    pub(crate) fn from_answer(answer: &[u64]) -> Self {
        let slots = &answer[START..];
        Span { start: slots[0], end: slots[1], start_line: slots[2], start_col: slots[3], end_line: slots[4], end_col: slots[5] }
    }

    /// The six fields in the order of the records.
    pub fn fields(&self) -> [u64; 6] {
        [self.start, self.end, self.start_line, self.start_col, self.end_line, self.end_col]
    }
}

/// A token's record.
#[derive(Clone, Copy, Debug, PartialEq, Eq, Hash)]
pub struct Token {
    /// What it is.
    pub kind: TokenKind,
    /// Where it stands.
    pub span: Span,
    /// The offset of its text in the script or in the text buffer; 0 where the kind carries no text.
    pub offset: u64,
    /// The bytes of its text; 0 where the kind carries no text.
    pub length: u64,
}

impl Token {
    /// From a reader's yes.
    pub(crate) fn from_answer(answer: &[u64]) -> Self {
        Token {
            kind: TokenKind::from_number(answer[KIND]).expect("a reader's yes has a kind of at most 125"),
            span: Span::from_answer(answer),
            offset: answer[TEXT_OFFSET],
            length: answer[TEXT_LENGTH],
        }
    }

    /// The offset one past its last character, whatever the kind: a word's span ends at its last character, a lone mark's at its
    /// start.
    pub fn end(&self) -> u64 {
        let one_more = self.kind.is_word() || (self.span.end == self.span.start && self.kind != TokenKind::EOF);
        self.span.end + u64::from(one_more)
    }

    /// The bytes that it takes, counted after the byte-order mark. A piece of a string begins where the string does.
    pub fn range(&self) -> Range<usize> {
        self.span.start as usize..self.end() as usize
    }
}
