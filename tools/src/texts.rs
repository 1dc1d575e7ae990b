//! The texts of a script, one on each line: of strings, character literals, interpolations and doc comments.
use crate::words::{Asked, Options};
use crate::{accepted, read, Failure, Status};
use aura_lexer::Lexed;
use std::ffi::OsString;
use std::io::{self, BufWriter, Write};

pub const HELP: &str = include_str!("../help/texts.txt");

/// Each text as it is, with a line feed behind it.
fn write(lexed: &Lexed, out: &mut impl Write) -> io::Result<()> {
    for (_, text) in lexed.tokens().filter(|(token, _)| token.kind.has_made_text()) {
        writeln!(out, "{text}")?;
    }
    Ok(())
}

/// `lex texts [FILE]`.
pub fn run(words: &[OsString]) -> Result<Status, Failure> {
    let asked = Asked::sort(words, Options { flags: &[], values: &[] })?;
    if asked.help() {
        return crate::print(HELP);
    }
    let (_, script) = read(&asked)?;
    let lexed = accepted(&script)?;
    let mut out = BufWriter::new(io::stdout().lock());
    write(&lexed, &mut out)?;
    out.flush()?;
    Ok(Status::Good)
}

#[cfg(test)]
mod tests {
    use super::*;

    fn texts(script: &str) -> String {
        let mut out = Vec::new();
        write(&aura_lexer::lex(script.as_bytes()).expect("accepted"), &mut out).expect("a vector takes all");
        String::from_utf8(out).expect("UTF-8")
    }

    #[test]
    fn each_text_has_its_line() {
        assert_eq!(texts("val a=1"), "");
        assert_eq!(texts("/// one\nf(\"Plot $n\", 'x', \"\", \"\"\"a\nb\"\"\")"), "one\nPlot \n$n\nx\n\na\nb\n");
        assert_eq!(texts("${a b} \"open"), "${...}\nopen\n");
    }
}
