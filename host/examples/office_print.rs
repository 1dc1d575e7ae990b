//! Files a script as its office print: office_print < SCRIPT > PRINT
//! The exit status is 0, 1 for a refusal, 2 where the script can't be read or the print can't be written.
use aura_lexer::{print, Refusal, RefusalKind, LIMIT};
use std::io::{self, Read, Write};
use std::process::ExitCode;

fn stopped(what: &str, error: io::Error) -> ExitCode {
    eprintln!("office_print: {what}: {error}");
    ExitCode::from(2)
}

fn refused(Refusal { kind, figure }: Refusal) -> ExitCode {
    eprintln!("office_print: {}; {}", kind.meaning(), kind.advice());
    if kind == RefusalKind::Mistake {
        eprintln!("{}: {figure}", kind.figure());
    }
    ExitCode::FAILURE
}

fn main() -> ExitCode {
    let mut script = Vec::new();
    if let Err(error) = io::stdin().take(LIMIT as u64 + 1).read_to_end(&mut script) {
        return stopped("cannot read the script", error);
    }
    let print = match print(&script) {
        Ok(print) => print,
        Err(refusal) => return refused(refusal),
    };
    let mut out = io::stdout().lock();
    match out.write_all(&print).and_then(|()| out.flush()) {
        Ok(()) => ExitCode::SUCCESS,
        Err(error) => stopped("cannot write to standard output", error),
    }
}
