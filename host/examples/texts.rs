//! The texts of a script, one on each line: texts < SCRIPT
//! They are those of strings, character literals, interpolations and doc comments, and stand in the text buffer in the order of their
//! tokens, from byte 0, without gaps (document 02, order 3). So the buffer is read straight through, by the lengths in the records alone.
//! A text with line feeds in it takes more than one line. The exit status is 0, 1 for a refusal, 2 where the script can't be read or the
//! texts can't be written.
use aura_lexer::{lex, Lexed, LIMIT};
use std::io::{self, BufWriter, Read, Write};
use std::process::ExitCode;

fn stopped(what: &str, error: io::Error) -> ExitCode {
    eprintln!("texts: {what}: {error}");
    ExitCode::from(2)
}

/// Writes each text as it lies behind the one before it.
fn write_texts(lexed: &Lexed, out: &mut impl Write) -> io::Result<()> {
    let mut rest = lexed.text_buffer();
    for (token, _) in lexed.tokens().filter(|(token, _)| token.kind.has_made_text()) {
        let (text, behind) = rest.split_at(token.length as usize);
        out.write_all(text)?;
        out.write_all(b"\n")?;
        rest = behind;
    }
    out.flush()
}

fn main() -> ExitCode {
    let mut script = Vec::new();
    if let Err(error) = io::stdin().take(LIMIT as u64 + 1).read_to_end(&mut script) {
        return stopped("cannot read the script", error);
    }
    let lexed = match lex(&script) {
        Ok(lexed) => lexed,
        Err(refusal) => {
            eprintln!("texts: {}; {}", refusal.kind.meaning(), refusal.kind.advice());
            return ExitCode::FAILURE;
        }
    };
    match write_texts(&lexed, &mut BufWriter::new(io::stdout().lock())) {
        Ok(()) => ExitCode::SUCCESS,
        Err(error) => stopped("cannot write to standard output", error),
    }
}
