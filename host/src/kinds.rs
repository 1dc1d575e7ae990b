//! The token kinds: names, numbers and spellings.

/// What a kind is: its words, or its spelling.
macro_rules! document {
    ($spelling:literal) => {
        concat!("`", $spelling, "`")
    };
    ($spelling:literal $words:literal) => {
        $words
    };
}

macro_rules! kinds {
    ($($name:ident $spelling:literal $($words:literal)?,)*) => {
        /// A token's kind. Its number is its place in `TokenKind` of the original's token.rs, from 0.
        #[derive(Clone, Copy, Debug, PartialEq, Eq, Hash, PartialOrd, Ord)]
        #[repr(u8)]
        pub enum TokenKind {
            $(#[doc = concat!(document!($spelling $($words)?), ".")] $name,)*
        }

        const KINDS: &[TokenKind] = &[$(TokenKind::$name,)*];
        const NAMES: &[&str] = &[$(stringify!($name),)*];
        const SPELLINGS: &[&str] = &[$($spelling,)*];
    };
}

// The names of TokenKind in the original's token.rs, in its order, with the fixed spelling (document 01, "Records"): it is empty
// for the kinds that carry a text, for those that are never made, and for EOF, which have words for what they are instead.
// `compare kinds` holds it against the original, the tests against include/aura_kinds.h.
kinds! {
    IntLiteral "" "a whole number, as it is written",
    FloatLiteral "" "a number with a point or an exponent, as it is written",
    StringLiteral "" "a string without interpolations, or a piece of one with them",
    CharLiteral "" "a character literal",
    BoolLiteral "" "`true` or `false`",
    Ident "" "a name",
    Val "val",
    Var "var",
    Fun "fun",
    Struct "struct",
    Class "class",
    Interface "interface",
    Enum "enum",
    Actor "actor",
    Sealed "sealed",
    Return "return",
    If "if",
    Else "else",
    When "when",
    For "for",
    In "in",
    While "while",
    Do "do",
    Break "break",
    Continue "continue",
    Try "try",
    Catch "catch",
    Finally "finally",
    Throw "throw",
    Is "is",
    As "as",
    Public "public",
    Private "private",
    Protected "protected",
    Internal "internal",
    Null "null",
    This "this",
    Super "super",
    Object "object",
    Unit "" "`unit` or `Unit`",
    Typealias "typealias",
    Override "override",
    Suspend "suspend",
    Inline "inline",
    Const "const",
    Comptime "comptime",
    Defer "defer",
    Extern "extern",
    Import "import",
    Package "package",
    Lazy "lazy",
    Lateinit "lateinit",
    Data "data",
    Value "value",
    To "to",
    Await "await",
    Async "async",
    Select "select",
    Channel "" "never made",
    Spawn "" "never made",
    Send "" "never made",
    Ask "" "never made",
    Box "box",
    Weak "weak",
    Malloc "" "never made",
    Free "" "never made",
    Retain "" "never made",
    Release "" "never made",
    Native "native",
    Plus "+",
    Minus "-",
    Star "*",
    Slash "/",
    Percent "%",
    DoublePlus "++",
    DoubleMinus "--",
    Assign "=",
    PlusEq "+=",
    MinusEq "-=",
    StarEq "*=",
    SlashEq "/=",
    PercentEq "%=",
    EqEq "==",
    Neq "!=",
    Lt "<",
    Gt ">",
    LtEq "<=",
    GtEq ">=",
    AndAnd "&&",
    OrOr "||",
    Bang "!",
    Ampersand "&",
    Pipe "|",
    Caret "^",
    LtLt "<<",
    GtGt ">>",
    GtGtGt ">>>",
    DoubleBang "!!",
    Arrow "->",
    DoubleArrow "=>",
    DoubleDot "" "never made",
    TripleDot "" "never made",
    At "@",
    Hash "#",
    DoubleColon "::",
    LParen "(",
    RParen ")",
    LBrace "{",
    RBrace "}",
    LBracket "[",
    RBracket "]",
    Comma ",",
    Semicolon ";",
    Colon ":",
    DoubleColonT "::=",
    Dot ".",
    DoubleDotOp "..",
    TripleDotOp "...",
    QuestionMark "?",
    DoubleQMark "??",
    StringPart "" "never made",
    StringInterpStart "" "an interpolation: `$name` or `${..}`",
    StringInterpEnd "" "never made",
    DocComment "" "a doc comment",
    EOF "" "the end of the script",
    Error "" "a character that begins no token, or marks that are none, as `<<<`",
}

impl TokenKind {
    /// The kind of a number, or none over 125.
    pub fn from_number(number: u64) -> Option<Self> {
        KINDS.get(usize::try_from(number).ok()?).copied()
    }

    /// All kinds, by their numbers.
    pub fn all() -> &'static [Self] {
        KINDS
    }

    /// The number in the records.
    pub fn number(self) -> u8 {
        self as u8
    }

    /// The name in the original's token.rs.
    pub fn name(self) -> &'static str {
        NAMES[self as usize]
    }

    /// The fixed spelling; empty for the kinds that carry a text, for those that are never made, and for EOF.
    pub fn spelling(self) -> &'static str {
        SPELLINGS[self as usize]
    }

    /// Whether a record of this kind has a text offset and length.
    pub fn carries_text(self) -> bool {
        matches!(self as u8, 0..=5 | 39 | 121 | 123 | 125)
    }

    /// Whether its text is a part of the text buffer. Otherwise a text is a part of the script.
    pub fn has_made_text(self) -> bool {
        matches!(self as u8, 2 | 3 | 121 | 123)
    }

    /// Names and keywords, whose span ends at the offset of their last character.
    pub fn is_word(self) -> bool {
        matches!(self as u8, 4..=68)
    }
}

impl From<TokenKind> for u8 {
    fn from(kind: TokenKind) -> u8 {
        kind as u8
    }
}

impl From<TokenKind> for u64 {
    fn from(kind: TokenKind) -> u64 {
        u64::from(u8::from(kind))
    }
}
