//! What the program writes, and how it ends. Where standard output is closed, as `head` does it, the program ends quietly.
use std::fmt;
use std::io::{self, Write};
use std::process::{self, ExitCode};

/// How a command ended, by the program's exit status.
#[derive(Clone, Copy, Debug, PartialEq, Eq)]
pub enum Status {
    /// All that was asked for was done, and nothing differs.
    Passed = 0,
    /// Something differs, or is wrong.
    Failed = 1,
    /// Something that was asked for could not be done, or the words were not understood.
    NotDone = 2,
    /// Standard output was closed.
    Closed = 3,
}

impl From<bool> for Status {
    fn from(passed: bool) -> Self {
        match passed {
            true => Status::Passed,
            false => Status::Failed,
        }
    }
}

impl From<Status> for ExitCode {
    fn from(status: Status) -> Self {
        ExitCode::from(status as u8)
    }
}

/// Writes on standard output.
pub fn on_output(text: fmt::Arguments<'_>) {
    if let Err(error) = io::stdout().lock().write_fmt(text) {
        if error.kind() != io::ErrorKind::BrokenPipe {
            on_error(format_args!("standard output cannot be written: {error}"));
        }
        process::exit(Status::Closed as i32);
    }
}

/// Writes a message on standard error. Where no one reads it, it is lost.
pub fn on_error(text: fmt::Arguments<'_>) {
    let _ = writeln!(io::stderr(), "compare: {text}");
}

/// A line on standard output.
macro_rules! say {
    ($($text:tt)*) => { crate::say::on_output(format_args!("{}\n", format_args!($($text)*))) };
}

/// A message on standard error.
macro_rules! message {
    ($($text:tt)*) => { crate::say::on_error(format_args!($($text)*)) };
}

pub(crate) use {message, say};
