//! The mistakes of a script as they are shown: where, and in words.
use aura_lexer::{columns, ErrorKind, LexError, Lexed, TokenKind};
use std::ops::Range;

/// A place in a script, as an editor counts: bytes after the mark from 0, lines and columns from 1.
#[derive(Clone, Copy, Debug, PartialEq, Eq)]
pub struct Place {
    pub byte: usize,
    pub line: usize,
    pub column: u32,
}

/// The lines and columns of a script.
pub struct Places<'a> {
    source: &'a str,
    columns: Vec<u32>,
    starts: Vec<usize>,
}

impl<'a> Places<'a> {
    pub fn new(source: &'a str) -> Self {
        let starts = std::iter::once(0).chain(source.match_indices('\n').map(|(at, _)| at + 1)).collect();
        Places { source, columns: columns(source), starts }
    }

    pub fn at(&self, byte: usize) -> Place {
        Place { byte, line: self.starts.partition_point(|&start| start <= byte), column: self.columns[byte] }
    }

    /// How many bytes of its line stand before a place.
    pub fn in_line(&self, place: Place) -> usize {
        place.byte - self.starts[place.line - 1]
    }

    /// A line by its number from 1, without its end.
    pub fn line(&self, number: usize) -> &'a str {
        let end = self.starts.get(number).copied().unwrap_or(self.source.len());
        without_end(&self.source[self.starts[number - 1]..end]).0
    }
}

/// A line, and the line feed or the carriage return and line feed that end it.
pub fn without_end(line: &str) -> (&str, &str) {
    let bare = line.strip_suffix('\n').map_or(line, |bare| bare.strip_suffix('\r').unwrap_or(bare));
    line.split_at(bare.len())
}

/// The last character before a place that is no line feed, nor a carriage return before one; nothing where there is none.
fn last_seen(source: &str, end: usize) -> Range<usize> {
    let mut end = end;
    while let Some(c) = source[..end].chars().next_back() {
        let start = end - c.len_utf8();
        if c != '\n' && !(c == '\r' && source[end..].starts_with('\n')) {
            return start..end;
        }
        end = start;
    }
    0..0
}

/// The bytes to underline: those of the error's span; at a single place the character there. Where only line feeds would be
/// underlined, and at the end of the script, it is the last character before that is none.
pub fn underlined(source: &str, error: &LexError) -> Range<usize> {
    let Range { start, end } = error.range();
    let one = source[start..].chars().next().map_or(0, char::len_utf8);
    let end = end.max(start + one);
    match source[start..end].trim_end_matches(['\r', '\n']) {
        "" => last_seen(source, end),
        _ => start..end,
    }
}

/// A mistake as it is shown.
#[derive(Clone, Copy, Debug)]
pub struct Mistake {
    pub error: LexError,
    /// Where it shows. What is still open when the script ends shows there.
    pub at: Place,
    /// Where that was begun.
    pub begun: Option<Place>,
}

impl Mistake {
    /// What is wrong and what to do, without the place.
    pub fn sentence(&self) -> String {
        let kind = self.error.kind;
        let begun = self.begun.map_or(String::new(), |at| format!(", begun at line {}, column {}", at.line, at.column));
        format!("error {}: {}{begun}; {}", kind.number(), self.error.meaning(), kind.advice())
    }
}

/// Where the last string of a script begins.
fn last_string(lexed: &Lexed) -> Option<usize> {
    let strings = lexed.tokens().filter(|(token, _)| token.kind == TokenKind::StringLiteral);
    strings.last().map(|(token, _)| token.range().start)
}

/// Where the last interpolation of a script begins, if the end of the script cut it off: its text has the brace that the script has not.
fn last_interpolation(lexed: &Lexed) -> Option<usize> {
    let interpolations = lexed.tokens().filter(|(token, _)| token.kind == TokenKind::StringInterpStart);
    interpolations.last().map(|(token, text)| token.range().end + 1 - text.len())
}

/// Where the thing was begun whose end is missing when the script ends.
fn begun(lexed: &Lexed, error: &LexError) -> Option<usize> {
    match error.kind {
        ErrorKind::BlockComment | ErrorKind::RawString | ErrorKind::DocComment => Some(error.range().start),
        ErrorKind::StringAtEnd => last_string(lexed),
        ErrorKind::Interpolation => last_interpolation(lexed),
        _ => None,
    }
}

/// The mistakes in the order recorded.
pub fn mistakes<'a>(lexed: &'a Lexed, places: &'a Places) -> impl Iterator<Item = Mistake> + 'a {
    lexed.errors().map(move |error| {
        let begun = begun(lexed, &error).map(|byte| places.at(byte));
        let byte = match begun {
            Some(_) => last_seen(places.source, error.range().end).start,
            None => underlined(places.source, &error).start,
        };
        Mistake { error, at: places.at(byte), begun }
    })
}

/// What an open end means, for people.
pub const OPEN: &str =
    "the script ends inside a comment, a string, the braces of ${ or a character; a script behind it would be read as part of that";

#[cfg(test)]
mod tests {
    use super::*;
    use aura_lexer::lex;

    /// A mistake's kind, where it shows and where it was begun, as lines and columns.
    type Shown = (u8, (usize, u32), Option<(usize, u32)>);

    fn shown(script: &str) -> Vec<Shown> {
        let lexed = lex(script.as_bytes()).expect("accepted");
        let places = Places::new(lexed.source());
        let pair = |place: Place| (place.line, place.column);
        mistakes(&lexed, &places).map(|m| (m.error.kind.number(), pair(m.at), m.begun.map(pair))).collect()
    }

    #[test]
    fn what_is_left_open_shows_at_the_end_and_names_its_begin() {
        assert_eq!(shown("a\n /* b\n\n"), [(2, (2, 5), Some((2, 2)))]);
        assert_eq!(shown("a\n\"\"\"b\r\nc\r\n"), [(3, (3, 1), Some((2, 1)))]);
        assert_eq!(shown("/** b\n é"), [(10, (2, 2), Some((1, 1)))]);
        assert_eq!(shown("a\n \"bé"), [(4, (2, 4), Some((2, 2)))]);
        assert_eq!(shown("\"$a"), [(4, (1, 3), Some((1, 1)))]);
        assert_eq!(shown("x \"a$b ${c\n"), [(8, (1, 10), Some((1, 8))), (4, (1, 10), Some((1, 3)))]);
    }

    #[test]
    fn other_mistakes_show_where_they_are() {
        assert_eq!(shown("a\n  \"\\q\" é"), [(7, (2, 5), None), (1, (2, 8), None)]);
        assert_eq!(shown("\n\"ab\nc"), [(5, (2, 1), None)]);
        assert_eq!(shown("'a\n"), [(9, (1, 2), None)]);
        assert_eq!(shown("'a\r\n\n"), [(9, (1, 2), None)], "the carriage return belongs to the line's end");
        assert_eq!(shown("'a\r"), [(9, (1, 3), None)], "this one does not");
        assert_eq!(shown("''"), [(9, (1, 2), None)]);
    }

    #[test]
    fn lines_come_without_their_ends() {
        let places = Places::new("a\r\n\nbé\r");
        assert_eq!([places.line(1), places.line(2), places.line(3)], ["a", "", "bé\r"]);
        assert_eq!(places.at(4), Place { byte: 4, line: 3, column: 1 });
        assert_eq!(places.at(8), Place { byte: 8, line: 3, column: 4 });
    }

    #[test]
    fn a_sentence_tells_where_it_was_begun() {
        let lexed = lex(b"a /* b").expect("accepted");
        let places = Places::new(lexed.source());
        let first = mistakes(&lexed, &places).next().expect("a mistake");
        assert_eq!(first.sentence(), "error 2: a block comment without its end, begun at line 1, column 3; close it with */");
    }
}
