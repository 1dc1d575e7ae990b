//! What a lexer answers, in the form in which the two are compared.
use aura_lexer::{ErrorKind, TokenKind};
use std::fmt;

pub type Span = [u64; 6];

#[derive(Clone, Debug, PartialEq, Eq)]
pub struct Token {
    pub kind: u8,
    pub text: Vec<u8>,
    pub span: Span,
}

#[derive(Clone, Debug, PartialEq, Eq)]
pub struct Mistake {
    pub kind: u8,
    pub span: Span,
    pub code: Option<u32>,
}

fn place(span: &Span) -> String {
    let [start, end, start_line, start_col, end_line, end_col] = span;
    format!("bytes {start} to {end}, line {start_line} column {start_col} to line {end_line} column {end_col}")
}

impl fmt::Display for Token {
    fn fmt(&self, f: &mut fmt::Formatter<'_>) -> fmt::Result {
        let name = TokenKind::from_number(u64::from(self.kind)).map_or("unknown", TokenKind::name);
        write!(f, "{name} ({}) {:?}, {}", self.kind, String::from_utf8_lossy(&self.text), place(&self.span))
    }
}

impl fmt::Display for Mistake {
    fn fmt(&self, f: &mut fmt::Formatter<'_>) -> fmt::Result {
        let meaning = ErrorKind::from_number(u64::from(self.kind)).map_or("unknown", ErrorKind::meaning);
        let code = self.code.map_or(String::new(), |c| format!(" U+{c:04X}"));
        write!(f, "{} ({meaning}){code}, {}", self.kind, place(&self.span))
    }
}

/// The first place where two lists differ, both sides in words. Elements are counted from 0.
fn first_difference<T: PartialEq + fmt::Display>(what: &str, ours: &[T], theirs: &[T]) -> Option<String> {
    let words = |x: Option<&T>| x.map_or("none".to_string(), T::to_string);
    let i = (0..ours.len().max(theirs.len())).find(|&i| ours.get(i) != theirs.get(i))?;
    Some(format!("{what} {i}: ours is {}; the original's is {}", words(ours.get(i)), words(theirs.get(i))))
}

#[derive(Clone, Debug, PartialEq, Eq)]
pub struct Lexed {
    pub tokens: Vec<Token>,
    pub errors: Vec<Mistake>,
}

pub const EOF: u8 = 124;

/// Columns on the second script's line 1 grow by 1.
fn shift_column(line: u64, column: u64) -> u64 {
    if line == 1 {
        column + 1
    } else {
        column
    }
}

/// Document 01's shift, for a first text of `n` bytes after its mark whose EOF is on `line`.
fn shift(span: Span, n: u64, line: u64) -> Span {
    let [start, end, start_line, start_col, end_line, end_col] = span;
    [start + n + 1, end + n + 1, start_line + line, shift_column(start_line, start_col), end_line + line, shift_column(end_line, end_col)]
}

impl Lexed {
    /// What demand 3 asks of the first script, a line feed and the second: the first's tokens without EOF and its errors, then
    /// the second's, shifted. `n` is the first's bytes after its mark.
    pub fn join(&self, second: &Lexed, n: u64) -> Lexed {
        let line = self.tokens.last().expect("a list ends with EOF").span[2];
        let mut whole = self.clone();
        whole.tokens.pop();
        whole.tokens.extend(second.tokens.iter().map(|t| Token { span: shift(t.span, n, line), ..t.clone() }));
        whole.errors.extend(second.errors.iter().map(|e| Mistake { span: shift(e.span, n, line), ..e.clone() }));
        whole
    }

    /// The first place where our answer differs from the original's.
    pub fn difference(&self, original: &Lexed) -> Option<String> {
        first_difference("token", &self.tokens, &original.tokens).or_else(|| first_difference("error", &self.errors, &original.errors))
    }
}
