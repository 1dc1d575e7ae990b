//! Declarations in source texts: of the definitions, and of the original.
use std::ops::RangeInclusive;

/// The words in front of a declared name, in definitions and in the proved crates' code.
const BEFORE: [&str; 6] = ["pub", "abbrev", "unfoldable", "record", "data", "struct"];

/// The words in front of a declared name in Rust.
const BEFORE_RUST: [&str; 7] = ["fn", "const", "static", "struct", "enum", "type", "macro_rules"];

/// The name that a line at the margin declares.
fn declared(line: &str) -> Option<&str> {
    let mut words = line.split([' ', ':', '(', '{']).skip_while(|word| BEFORE.contains(word));
    BEFORE.iter().any(|word| line.starts_with(&format!("{word} "))).then(|| words.next())?
}

/// Lines that belong to the declaration below them.
fn leads(line: &str) -> bool {
    ["--", "//", "infix"].iter().any(|start| line.starts_with(start))
}

/// The lines of a name's declaration, counted from 1: its comment, its head and its equations, up to an empty line or the next head.
pub fn find(lines: &[&str], name: &str) -> Option<RangeInclusive<usize>> {
    let head = lines.iter().position(|line| declared(line) == Some(name))?;
    let above = lines[..head].iter().rev().take_while(|line| leads(line)).count();
    let below = lines[head + 1..].iter().take_while(|line| !line.trim().is_empty() && declared(line).is_none()).count();
    Some(head + 1 - above..=head + 1 + below)
}

/// The words of a definition's lines that can be names: no comments, and no fields behind a point.
pub fn words(lines: &[String]) -> impl Iterator<Item = &str> {
    let code = lines.iter().map(|line| line.split("--").next().unwrap_or_default());
    let words = code.flat_map(|code| code.split([' ', '(', ')', '{', '}', ';', ',']));
    words.filter_map(|word| word.split('.').next()).filter(|word| !word.is_empty())
}

/// The names that a line of Rust declares, each behind the word that says what it is.
pub fn in_rust(line: &str) -> impl Iterator<Item = (&str, &str)> {
    let code = line.split("//").next().unwrap_or_default();
    let words: Vec<&str> = code.split(|c: char| !c.is_alphanumeric() && c != '_').filter(|word| !word.is_empty()).collect();
    let pairs: Vec<(&str, &str)> = words.windows(2).map(|pair| (pair[0], pair[1])).collect();
    pairs.into_iter().filter(|(before, _)| BEFORE_RUST.contains(before))
}

#[cfg(test)]
mod tests {
    use super::*;

    const TEXT: &str = "\
-- The file.
use a.b.{c}

-- A heading.

-- One
-- two.
unfoldable pub next : Text → Bool
next [] = false
next (c ∷ cs) = p c

infixr 20 ◌and_then◌
abbrev pub ◌and_then◌ : A → B
(f and_then g) cs = nothing

pub record Part (s : Span) : Type 0 where
  pub taken : Text

unfoldable pub lookup {ℓ} : A
lookup = none
abbrev small : A
pub struct Span {
    pub start: usize,
}";

    fn lines_of(name: &str) -> Option<(usize, usize)> {
        let lines: Vec<&str> = TEXT.lines().collect();
        find(&lines, name).map(|range| (*range.start(), *range.end()))
    }

    #[test]
    fn a_declaration_has_its_comment_and_its_equations() {
        assert_eq!(lines_of("next"), Some((6, 10)));
        assert_eq!(lines_of("◌and_then◌"), Some((12, 14)));
        assert_eq!(lines_of("Part"), Some((16, 17)));
        assert_eq!(lines_of("lookup"), Some((19, 20)));
        assert_eq!(lines_of("small"), Some((21, 21)));
        assert_eq!(lines_of("Span"), Some((22, 24)));
    }

    #[test]
    fn a_field_or_a_use_is_no_declaration() {
        for name in ["taken", "start", "a", "c", "and_then", "nex", "nextt", "file", "pub", ""] {
            assert_eq!(lines_of(name), None, "{name}");
        }
    }

    #[test]
    fn words_of_code_can_be_names() {
        let lines =
            ["-- a comment".to_string(), "f (c ∷ cs) = let u = up_to x in record { a = u.before, b = (g u).past } -- end".to_string()];
        let found: Vec<&str> = words(&lines).collect();
        assert_eq!(found, ["f", "c", "∷", "cs", "=", "let", "u", "=", "up_to", "x", "in", "record", "a", "=", "u", "b", "=", "g", "u"]);
    }

    #[test]
    fn names_in_rust() {
        let of = |line| in_rust(line).collect::<Vec<_>>();
        assert_eq!(of("    pub fn new(source: &str) -> Self {"), [("fn", "new")]);
        assert_eq!(of("const KEYWORDS: &[(&str, TokenKind)] = &["), [("const", "KEYWORDS")]);
        assert_eq!(of("        macro_rules! flush_lit {"), [("macro_rules", "flush_lit")]);
        assert_eq!(of("        self.next_token() // fn next_token"), []);
    }
}
