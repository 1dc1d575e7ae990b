//! The refusals: what a call answers where it says no.
use std::fmt;

macro_rules! refusals {
    ($($name:ident $number:literal $meaning:literal, $figure:literal, $advice:literal;)*) => {
        /// The question that was answered with a no (document 01), by its number.
        #[derive(Clone, Copy, Debug, PartialEq, Eq, Hash)]
        #[repr(u64)]
        #[non_exhaustive]
        pub enum RefusalKind {
            $(#[doc = concat!("Refusal ", $number, ": ", $meaning, ". Its figure: ", $figure, ".")] $name = $number,)*
        }

        impl RefusalKind {
            /// All of them, by their numbers.
            pub const ALL: &'static [RefusalKind] = &[$(RefusalKind::$name,)*];

            /// What was wrong, in words.
            pub fn meaning(self) -> &'static str {
                match self { $(RefusalKind::$name => $meaning,)* }
            }

            /// What its figure is.
            pub fn figure(self) -> &'static str {
                match self { $(RefusalKind::$name => $figure,)* }
            }

            /// What to do about it.
            pub fn advice(self) -> &'static str {
                match self { $(RefusalKind::$name => $advice,)* }
            }
        }
    };
}

// The words are those of AURA_REFUSALS in include/aura_words.h and of the table in docs/HOSTS.md: the tests hold them against both.
refusals! {
    Length 1 "the script is over 1,048,576 bytes", "its length", "split the script into parts of at most 1,048,576 bytes";
    Utf8 2 "the script is not UTF-8", "the first byte of the first bad sequence", "save the script as UTF-8";
    Tokens 3 "the token buffer is too small", "the bytes needed", "lend a token buffer of at least that size";
    Texts 4 "the text buffer is too small", "the bytes needed", "lend a text buffer of at least that size";
    Errors 5 "the error buffer is too small", "the bytes needed", "lend an error buffer of at least that size";
    Kind 6 "a kind over 125 was asked for", "the kind", "ask for a kind from 0 to 125";
    Place 7 "no whole record of a known kind starts at the place", "the place",
        "go on from a place that a reader answered, in the part of the buffer that tokenising used";
    Text 8 "a record's text lies outside its buffer", "its offset", "lend the script and the text buffer that belong to the records";
    Cut 9 "the script ends in the middle of a character", "the first byte of the first bad sequence", "it was cut short on its way; send it again";
    Barred 10 "the script holds bytes that no program may write as UTF-8", "the first byte of the first bad sequence",
        "the program that saved it is at fault; save the script as UTF-8 with another one";
    Mistake 11 "the script has a mistake", "where the first one recorded starts, in bytes after the byte-order mark",
        "list its mistakes, mend them, and print it again";
    Print 12 "the print buffer is too small", "the bytes needed", "lend a print buffer of at least that size";
}

impl RefusalKind {
    /// The kind of a number, or none where the number is not in use.
    pub fn from_number(number: u64) -> Option<Self> {
        Self::ALL.iter().copied().find(|kind| kind.number() == number)
    }

    /// The number of document 01.
    pub fn number(self) -> u64 {
        self as u64
    }
}

/// A "no": the question, and its figure. Nothing was changed.
#[derive(Clone, Copy, Debug, PartialEq, Eq, Hash)]
pub struct Refusal {
    /// The question that was answered with a no.
    pub kind: RefusalKind,
    /// What `kind.figure()` says.
    pub figure: u64,
}

impl Refusal {
    /// The refusal that a call's number and figure say. A number that is not in use comes from a library that does not belong to this
    /// crate; then it panics.
    pub fn from_answer(number: u64, figure: u64) -> Self {
        match RefusalKind::from_number(number) {
            Some(kind) => Refusal { kind, figure },
            None => panic!("the library answered {number}, which is no refusal's number: link the library that belongs to this crate"),
        }
    }

    /// The number of document 01.
    pub fn number(&self) -> u64 {
        self.kind.number()
    }
}

impl fmt::Display for Refusal {
    fn fmt(&self, f: &mut fmt::Formatter<'_>) -> fmt::Result {
        let Refusal { kind, figure } = *self;
        let (number, meaning, what, advice) = (kind.number(), kind.meaning(), kind.figure(), kind.advice());
        write!(f, "refusal {number}, figure {figure}: {meaning}; {advice} ({what}: {figure})")
    }
}

impl std::error::Error for Refusal {}

/// A yes, or the refusal that a call's number and its figure say.
pub(crate) fn checked(number: u64, figure: u64) -> Result<(), Refusal> {
    match number {
        0 => Ok(()),
        _ => Err(Refusal::from_answer(number, figure)),
    }
}
