//! The errors that a script has: mistakes that are recorded while it is read to its end.
use crate::answers::Span;
use crate::raw::{CODE_POINT, KIND};
use std::fmt;
use std::ops::Range;

macro_rules! errors {
    ($($name:ident $number:literal $meaning:literal, $advice:literal;)*) => {
        /// The kinds of errors, 1 to 10.
        #[derive(Clone, Copy, Debug, PartialEq, Eq, Hash, PartialOrd, Ord)]
        #[repr(u8)]
        pub enum ErrorKind {
            $(#[doc = concat!("Error ", $number, ": ", $meaning, ".")] $name = $number,)*
        }

        impl ErrorKind {
            /// All of them, by their numbers.
            pub const ALL: [ErrorKind; 10] = [$(ErrorKind::$name,)*];

            /// What is wrong, in words.
            pub fn meaning(self) -> &'static str {
                match self { $(ErrorKind::$name => $meaning,)* }
            }

            /// What to do about it.
            pub fn advice(self) -> &'static str {
                match self { $(ErrorKind::$name => $advice,)* }
            }
        }
    };
}

// The words are those of AURA_ERRORS in include/aura_words.h and of the table in docs/HOSTS.md: the tests hold them against both.
errors! {
    UnexpectedCharacter 1 "a character that begins no token", "take it out, or put it into a string or a comment";
    BlockComment 2 "a block comment without its end", "close it with */";
    RawString 3 "a raw string without its end", "close it with \"\"\"";
    StringAtEnd 4 "a string without its closing quote at the end of the script", "close it with \"";
    StringAtLineFeed 5 "a string without its closing quote at the end of the line",
        "close it with \" on its line, or use \"\"\" for several lines";
    BadUnicode 6 "\\u without four hexadecimal digits", "write four digits, as in \\u0041";
    BadEscape 7 "a backslash before a character that it does not escape",
        "write \\\\ for a backslash, or one of \\n \\t \\r \\\\ \\' \\\" \\0 \\b \\f \\v \\/ \\u";
    Interpolation 8 "an interpolation ${ without its }", "close it with }";
    CharLiteral 9 "a character literal without its closing quote", "close it with ' after one character, or use \" for a string";
    DocComment 10 "a doc comment without its end", "close it with */";
}

impl ErrorKind {
    /// The kind of a number from 1 to 10, else none.
    pub fn from_number(number: u64) -> Option<Self> {
        Self::ALL.get(usize::try_from(number).ok()?.checked_sub(1)?).copied()
    }

    /// The number of document 01.
    pub fn number(self) -> u8 {
        self as u8
    }

    /// Whether its record has a code point.
    pub fn names_character(self) -> bool {
        matches!(self, ErrorKind::UnexpectedCharacter | ErrorKind::BadEscape)
    }
}

/// An error's record.
#[derive(Clone, Copy, Debug, PartialEq, Eq, Hash)]
pub struct LexError {
    /// What is wrong.
    pub kind: ErrorKind,
    /// Where.
    pub span: Span,
    /// The character that the kinds 1 and 7 name.
    pub code: Option<u32>,
}

impl LexError {
    /// From a reader's yes.
    pub(crate) fn from_answer(answer: &[u64]) -> Self {
        let kind = ErrorKind::from_number(answer[KIND]).expect("a reader's yes has a kind from 1 to 10");
        LexError { kind, span: Span::from_answer(answer), code: kind.names_character().then_some(answer[CODE_POINT] as u32) }
    }

    /// The bytes that it spans, counted after the byte-order mark; none for an error at a single place.
    pub fn range(&self) -> Range<usize> {
        self.span.start as usize..self.span.end as usize
    }

    /// What is wrong, in words, with the character that it names: "a character that begins no token, U+0040 @".
    pub fn meaning(&self) -> String {
        let meaning = self.kind.meaning();
        let Some(code) = self.code else { return meaning.to_string() };
        match char::from_u32(code).filter(|c| c.is_alphanumeric() || c.is_ascii_punctuation()) {
            Some(c) => format!("{meaning}, U+{code:04X} {c}"),
            None => format!("{meaning}, U+{code:04X}"),
        }
    }
}

/// The error in words, without its place.
impl fmt::Display for LexError {
    fn fmt(&self, f: &mut fmt::Formatter<'_>) -> fmt::Result {
        write!(f, "error {}: {}; {}", self.kind.number(), self.meaning(), self.kind.advice())
    }
}

impl std::error::Error for LexError {}
