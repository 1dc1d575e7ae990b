//! Compares the proved lexer with the original in Rust and with Rust's standard library.
#![deny(clippy::print_stdout, clippy::print_stderr)]

mod characters;
mod check;
mod command;
mod count;
mod decode;
mod host;
mod imports;
mod lexed;
mod list;
mod mixed;
mod print_model;
mod prints;
mod question2;
mod records;
mod replay;
mod say;
mod scripts;

#[cfg(oracle)]
mod archive;
#[cfg(oracle)]
mod bench;
#[cfg(oracle)]
mod calls;
#[cfg(test)]
#[cfg_attr(not(oracle), allow(dead_code))]
mod changes;
#[cfg(oracle)]
mod files;
#[cfg(all(oracle, feature = "mutants"))]
mod held;
#[cfg(oracle)]
mod kinds;
#[cfg(oracle)]
mod listing;
#[cfg(oracle)]
mod mutants;
#[cfg(oracle)]
mod oracle;
#[cfg(oracle)]
mod page;
#[cfg(oracle)]
mod print_laws;
#[cfg(oracle)]
mod print_scripts;
#[cfg(oracle)]
mod readers;
#[cfg(oracle)]
mod runs;
#[cfg(oracle)]
mod shrink;
#[cfg(oracle)]
mod tables;

include!(concat!(env!("OUT_DIR"), "/original.rs"));

use command::{Command, Original, Request};
use say::{message, Status};
use std::ffi::OsString;
use std::process::ExitCode;

#[cfg(oracle)]
fn against_the_original(_: &Request, command: &Original) -> Status {
    match command {
        Original::Table => runs::table(),
        Original::Rows => runs::rows(),
        Original::Points => runs::points(),
        Original::Archive { deep, places } => archive::run(*deep, places),
        Original::Exhaustive { depth } => runs::exhaustive(*depth),
        Original::Random { seed, count } => runs::random(*seed, *count),
        Original::Mutate { seed, count, places } => runs::mutate(*seed, *count, places),
        Original::Large { seed } => runs::large(*seed),
        Original::Prints { seed, count } => runs::prints(*seed, *count),
        Original::Readers { seed, count } => readers::run(*seed, *count),
        Original::Kinds => kinds::run().into(),
        Original::Listing { file } => listing::run(file),
        Original::Mutants { runs } => mutants::run(*runs),
        Original::Store { file } => replay::store(file),
        Original::Bench { short, places } => bench::run(*short, places),
        Original::Page { file } => page::run(*file),
    }
}

/// Without the original nothing can be compared with it, which only a gate may pass over.
#[cfg(not(oracle))]
fn against_the_original(request: &Request, _: &Original) -> Status {
    let name = request.name;
    if request.may_skip {
        say::say!("{name}: skipped: this program was built without the original lexer's sources");
        return Status::Passed;
    }
    message!(
        "{name} needs the original lexer's sources, and this program was built without them; \
         set AURA_SRC to the folder of lexer.rs, token.rs and span.rs and build it again"
    );
    Status::NotDone
}

fn run(request: &Request) -> Status {
    match &request.command {
        Command::Help => {
            say::on_output(format_args!("{}", command::USAGE));
            Status::Passed
        }
        Command::Characters => characters::run().into(),
        Command::Replay => replay::run().into(),
        Command::Records => records::run().into(),
        Command::Count => count::run(),
        Command::CountOnce(kind) => count::once(kind),
        Command::Original(command) => against_the_original(request, command),
    }
}

fn main() -> ExitCode {
    let words: Vec<OsString> = std::env::args_os().skip(1).collect();
    let status = match command::parse(&words) {
        Ok(request) => run(&request),
        Err(wrong) => {
            message!("{wrong}\n{}", command::USAGE.trim_end());
            Status::NotDone
        }
    };
    status.into()
}
