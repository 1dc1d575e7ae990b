//! The tokens and errors of a script: the listing of document 01's program `tokens`, and one with names for people.
use crate::mistakes::{mistakes, Places};
use aura_lexer::{Lexed, Span, Token};
use std::io::{self, Write};

fn write_fields(out: &mut impl Write, letter: char, kind: u8, span: Span) -> io::Result<()> {
    write!(out, "{letter} {kind}")?;
    span.fields().iter().try_for_each(|field| write!(out, " {field}"))
}

fn write_text(out: &mut impl Write, text: &str) -> io::Result<()> {
    out.write_all(if text.is_empty() { b" -" } else { b" " })?;
    text.bytes().try_for_each(|byte| write!(out, "{byte:02x}"))
}

fn write_end(lexed: &Lexed, out: &mut impl Write) -> io::Result<()> {
    writeln!(out, "{}", if lexed.is_closed() { "closed" } else { "open" })
}

/// The listing of document 01.
pub fn write(lexed: &Lexed, out: &mut impl Write) -> io::Result<()> {
    for (token, text) in lexed.tokens() {
        write_fields(out, 'T', token.kind.number(), token.span)?;
        write_text(out, text)?;
        writeln!(out)?;
    }
    for error in lexed.errors() {
        write_fields(out, 'E', error.kind.number(), error.span)?;
        if let Some(code) = error.code {
            write!(out, " {code}")?;
        }
        writeln!(out)?;
    }
    write_end(lexed, out)
}

/// Where a token begins and where its last character stands, as an editor counts; one place where it has no character.
fn extent(token: &Token, source: &str, places: &Places) -> String {
    let range = token.range();
    let first = places.at(range.start);
    let Some(last) = source[range.clone()].chars().next_back() else {
        return format!("{}:{}", first.line, first.column);
    };
    let last = places.at(range.end - last.len_utf8());
    format!("{}:{}-{}:{}", first.line, first.column, last.line, last.column)
}

/// The same with names: `1:1-1:3 Val "val"`.
pub fn write_names(lexed: &Lexed, out: &mut impl Write) -> io::Result<()> {
    let source = lexed.source();
    let places = Places::new(source);
    for (token, text) in lexed.tokens() {
        let (extent, name) = (extent(&token, source, &places), token.kind.name());
        if token.range().is_empty() {
            writeln!(out, "{extent} {name}")?;
        } else {
            writeln!(out, "{extent} {name} {text:?}")?;
        }
    }
    for mistake in mistakes(lexed, &places) {
        writeln!(out, "{}:{} {}", mistake.at.line, mistake.at.column, mistake.sentence())?;
    }
    write_end(lexed, out)
}

#[cfg(test)]
mod tests {
    use super::*;

    fn names(script: &str) -> String {
        let mut out = Vec::new();
        write_names(&aura_lexer::lex(script.as_bytes()).expect("accepted"), &mut out).expect("a vector takes all");
        String::from_utf8(out).expect("UTF-8")
    }

    #[test]
    fn names_stand_beside_editors_places() {
        assert_eq!(
            names("val a=1\n\"é\\n\""),
            "1:1-1:3 Val \"val\"\n1:5-1:5 Ident \"a\"\n1:6-1:6 Assign \"=\"\n1:7-1:7 IntLiteral \"1\"\n\
             2:1-2:5 StringLiteral \"é\\n\"\n2:6 EOF\nclosed\n"
        );
        assert!(names("a \u{1B}").contains("\n1:3-1:3 Error \"\\u{1b}\"\n1:4 EOF\n1:3 error 1: "), "{}", names("a \u{1B}"));
        assert!(names("/* a").ends_with(", begun at line 1, column 1; close it with */\nopen\n"), "{}", names("/* a"));
    }
}
