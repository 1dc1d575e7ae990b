//! Lists the tokens and errors of an Aura script, in the form of document 01's program `tokens`: listing [FILE]
//! Without FILE it reads standard input. The exit status is 0, 1 for a refusal, 2 where the script can't be read.
use aura_lexer::{lex, Lexed};
use std::io::{self, BufWriter, Read, Write};
use std::process::ExitCode;

fn script() -> io::Result<Vec<u8>> {
    match std::env::args_os().nth(1) {
        Some(file) => std::fs::read(file),
        None => {
            let mut bytes = Vec::new();
            io::stdin().read_to_end(&mut bytes)?;
            Ok(bytes)
        }
    }
}

fn hex(text: &str) -> String {
    match text {
        "" => "-".to_string(),
        _ => text.bytes().map(|byte| format!("{byte:02x}")).collect(),
    }
}

fn print(lexed: &Lexed) -> io::Result<()> {
    let mut out = BufWriter::new(io::stdout().lock());
    for (token, text) in lexed.tokens() {
        let [start, end, line, column, end_line, end_column] = token.span.fields();
        let kind = token.kind.number();
        writeln!(out, "T {kind} {start} {end} {line} {column} {end_line} {end_column} {}", hex(text))?;
    }
    for error in lexed.errors() {
        let [start, end, line, column, end_line, end_column] = error.span.fields();
        let code = error.code.map(|code| format!(" {code}")).unwrap_or_default();
        writeln!(out, "E {} {start} {end} {line} {column} {end_line} {end_column}{code}", error.kind.number())?;
    }
    writeln!(out, "{}", if lexed.is_closed() { "closed" } else { "open" })?;
    out.flush()
}

fn main() -> ExitCode {
    let script = match script() {
        Ok(script) => script,
        Err(error) => {
            eprintln!("listing: cannot read the script: {error}");
            return ExitCode::from(2);
        }
    };
    match lex(&script).map(|lexed| print(&lexed)) {
        Ok(Ok(())) => ExitCode::SUCCESS,
        Ok(Err(error)) => {
            eprintln!("listing: cannot write: {error}");
            ExitCode::from(2)
        }
        Err(refusal) => {
            println!("refused {} {}", refusal.number(), refusal.figure);
            ExitCode::FAILURE
        }
    }
}
