//! `lex`: the commands over the proved lexer for people.
mod check;
mod colour;
mod excerpt;
mod html;
mod listing;
mod mistakes;
mod office_print;
mod terminal;
mod texts;
mod words;

use aura_lexer::{lex, Lexed};
use aura_tools::files::Script;
use aura_tools::visible;
use std::ffi::OsString;
use std::io::{self, BufWriter, ErrorKind, IsTerminal, Write};
use std::path::Path;
use std::process::ExitCode;
use words::{Asked, Options};

const HELP: &str = include_str!("../help/lex.txt");
const LIST_HELP: &str = include_str!("../help/list.txt");
const COLOUR_HELP: &str = include_str!("../help/colour.txt");
const VERSION: &str = include_str!("../help/version.txt");

/// The commands, as a message names them.
const COMMANDS: &str = "list, check, colour, print and texts";

/// The most mistakes of one script that the coloured view tells in words.
const MOST_WORDS: usize = 200;

/// The exit statuses.
#[derive(Clone, Copy, Debug, PartialEq, Eq)]
enum Status {
    /// The script was accepted; for `check`, and none has a mistake.
    Good = 0,
    /// A script was refused; for `check`, or has a mistake.
    Refused = 1,
    /// A script could not be read, or a word was not understood.
    Unreadable = 2,
    /// What was asked for could not be written.
    Unwritten = 3,
}

/// Why a command ends before its end.
#[derive(Debug)]
enum Failure {
    /// The words are wrong, or there is nothing to do.
    Words(String),
    Unreadable(String),
    Refused(String),
    Output(io::Error),
}

impl From<String> for Failure {
    fn from(message: String) -> Self {
        Failure::Words(message)
    }
}

impl From<io::Error> for Failure {
    fn from(error: io::Error) -> Self {
        Failure::Output(error)
    }
}

/// A message on standard error; if that is closed or full there is nowhere to tell it.
fn say(message: &str) {
    let _ = writeln!(io::stderr(), "lex: {message}");
}

fn cannot_read(name: &str, error: &io::Error) -> String {
    format!("cannot read {name}: {error}; give the name of a file that can be read, or - for standard input")
}

/// Writes a text to standard output.
fn print(text: &str) -> Result<Status, Failure> {
    let mut out = io::stdout().lock();
    out.write_all(text.as_bytes())?;
    out.flush()?;
    Ok(Status::Good)
}

/// The one script of a command, and what to call it.
fn read(asked: &Asked) -> Result<(String, Script), Failure> {
    let file = asked.file().map_err(Failure::Words)?;
    if file.is_none() && io::stdin().is_terminal() {
        say("reading a script from the keyboard, up to Ctrl-D; ./lex --help tells what else it does");
    }
    let (name, script) = match file {
        None => ("standard input".to_string(), Script::read(io::stdin(), None)),
        Some(file) => (visible::name(Path::new(file)), Script::open(Path::new(file))),
    };
    let script = script.map_err(|error| Failure::Unreadable(cannot_read(&name, &error)))?;
    Ok((name, script))
}

fn accepted(script: &Script) -> Result<Lexed<'_>, Failure> {
    lex(&script.bytes).map_err(|refusal| Failure::Refused(script.refusal(refusal)))
}

/// `lex list [FILE]`, and `lex [FILE]`.
fn list(words: &[OsString], help: &str) -> Result<Status, Failure> {
    let asked = Asked::sort(words, Options { flags: &["--names"], values: &[] })?;
    if asked.help() {
        return print(help);
    }
    let (_, script) = read(&asked)?;
    let lexed = accepted(&script)?;
    let mut out = BufWriter::new(io::stdout().lock());
    match asked.has("--names") {
        true => listing::write_names(&lexed, &mut out)?,
        false => listing::write(&lexed, &mut out)?,
    }
    out.flush()?;
    Ok(Status::Good)
}

/// Whether to write in colour. NO_COLOR (no-color.org) counts where nothing was asked for.
fn in_colour(when: Option<&str>) -> Result<bool, String> {
    let refused = || std::env::var_os("NO_COLOR").is_some_and(|value| !value.is_empty());
    match when {
        None | Some("auto") => Ok(io::stdout().is_terminal() && !refused()),
        Some("always") => Ok(true),
        Some("never") => Ok(false),
        Some(other) => Err(format!("--colour={other} is not understood: it is auto, always or never")),
    }
}

/// `lex colour [FILE]`.
fn colour(words: &[OsString]) -> Result<Status, Failure> {
    let asked = Asked::sort(words, Options { flags: &["--html"], values: &["--colour", "--color"] })?;
    if asked.help() {
        return print(COLOUR_HELP);
    }
    let in_colour = in_colour(asked.value("--colour").or(asked.value("--color"))).map_err(Failure::Words)?;
    let (name, script) = read(&asked)?;
    let lexed = accepted(&script)?;
    let mut out = BufWriter::new(io::stdout().lock());
    if asked.has("--html") {
        html::write(&lexed, &name, &mut out)?;
        out.flush()?;
        return Ok(Status::Good);
    }
    terminal::write_script(&lexed, in_colour, &mut out)?;
    out.flush()?;
    terminal::write_words(&lexed, &mut BufWriter::new(io::stderr().lock()))?;
    Ok(Status::Good)
}

fn is_option(word: &OsString) -> bool {
    word.as_encoded_bytes().starts_with(b"-")
}

fn run(words: &[OsString]) -> Result<Status, Failure> {
    let rest = words.get(1..).unwrap_or_default();
    match words.first().and_then(|word| word.to_str()) {
        Some("list") => list(rest, LIST_HELP),
        Some("check") => check::run(rest),
        Some("colour") => colour(rest),
        Some("print") => office_print::run(rest),
        Some("texts") => texts::run(rest),
        Some("--version") => print(VERSION),
        Some("--colour" | "--color") => Err(Failure::Words("a script in colour is ./lex colour FILE".to_string())),
        Some(word) if !is_option(&words[0]) && !rest.iter().all(is_option) => {
            let word = visible::name(Path::new(word));
            Err(Failure::Words(format!("{word} is no command, and a file alone is ./lex FILE; commands are {COMMANDS}")))
        }
        _ => list(words, HELP),
    }
}

fn main() -> ExitCode {
    let words: Vec<OsString> = std::env::args_os().skip(1).collect();
    let status = match run(&words) {
        Ok(status) => status,
        Err(Failure::Words(message)) => {
            say(&format!("{message}; ./lex --help tells more"));
            Status::Unreadable
        }
        Err(Failure::Unreadable(message)) => {
            say(&message);
            Status::Unreadable
        }
        Err(Failure::Refused(message)) => {
            say(&message);
            Status::Refused
        }
        // The reader of a pipe has seen enough.
        Err(Failure::Output(error)) if error.kind() == ErrorKind::BrokenPipe => Status::Unwritten,
        Err(Failure::Output(error)) => {
            say(&format!("cannot write: {error}; make room, or write elsewhere"));
            Status::Unwritten
        }
    };
    ExitCode::from(status as u8)
}

#[cfg(test)]
mod tests {
    use super::*;

    #[test]
    fn the_help_fits_80_columns() {
        for text in [HELP, LIST_HELP, COLOUR_HELP, check::HELP, office_print::HELP, texts::HELP, VERSION] {
            assert!(text.lines().all(|line| line.chars().count() <= 80), "{text}");
        }
    }

    #[test]
    fn the_version_is_the_crates() {
        assert!(VERSION.starts_with(&format!("lex {} ", env!("CARGO_PKG_VERSION"))), "{VERSION}");
        assert!(VERSION.contains(aura_lexer::ORIGINAL), "{VERSION}");
    }

    #[test]
    fn colour_is_always_never_or_asked_of_the_terminal() {
        assert_eq!((in_colour(Some("always")), in_colour(Some("never"))), (Ok(true), Ok(false)));
        assert!(in_colour(Some("often")).is_err());
    }
}
