//! What the help desk tells the sender of a script: help_desk < SCRIPT
//! The exit status is 0 for an accepted script, 1 for a refused one, 2 where it can't be read.
use aura_lexer::{measure, RefusalKind, LIMIT};
use std::io::Read;
use std::process::ExitCode;

/// Where the fault is most likely to be.
fn look_at(kind: RefusalKind) -> &'static str {
    match kind {
        RefusalKind::Cut => "the connection",
        RefusalKind::Barred => "the sender's program",
        _ => "the script",
    }
}

fn main() -> ExitCode {
    let mut script = Vec::new();
    if let Err(error) = std::io::stdin().take(LIMIT as u64 + 1).read_to_end(&mut script) {
        eprintln!("help_desk: cannot read the script: {error}");
        return ExitCode::from(2);
    }
    match measure(&script) {
        Ok(_) => {
            println!("the script is accepted");
            ExitCode::SUCCESS
        }
        Err(refusal) => {
            let kind = refusal.kind;
            println!("{}; {}\nlook at: {}", kind.meaning(), kind.advice(), look_at(kind));
            ExitCode::FAILURE
        }
    }
}
