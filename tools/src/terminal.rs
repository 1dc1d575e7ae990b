//! The script in colour on a terminal, and its mistakes in words.
use crate::colour::{lines, Run, Style, MISTAKE};
use crate::mistakes::{mistakes, Places, OPEN};
use crate::MOST_WORDS;
use aura_lexer::Lexed;
use aura_tools::visible::visible;
use std::io::{self, Write};

const RESET: &str = "\x1B[0m";

/// The sequence that turns a style on.
fn sequence(style: Style) -> String {
    let letters = [(style.bold, "1"), (style.italic, "3"), (style.underline, "4")];
    let mut codes: Vec<String> = letters.iter().filter(|(on, _)| *on).map(|(_, code)| code.to_string()).collect();
    codes.extend(style.colour.map(|(number, _)| format!("38;5;{number}")));
    if codes.is_empty() {
        return String::new();
    }
    format!("\x1B[{}m", codes.join(";"))
}

fn write_run(out: &mut impl Write, run: &Run, in_colour: bool) -> io::Result<()> {
    let text: String = run.text.chars().map(visible).collect();
    let on = sequence(if run.wrong { MISTAKE } else { run.highlight.style() });
    if !in_colour || on.is_empty() {
        return out.write_all(text.as_bytes());
    }
    write!(out, "{on}{text}{RESET}")
}

/// The script, its byte-order mark first. Without the sequences it is the script byte for byte, but for control characters.
pub fn write_script(lexed: &Lexed, in_colour: bool, out: &mut impl Write) -> io::Result<()> {
    out.write_all(&lexed.script()[..lexed.script().len() - lexed.source().len()])?;
    for line in lines(lexed) {
        line.runs.iter().try_for_each(|run| write_run(out, run, in_colour))?;
        out.write_all(line.end.as_bytes())?;
    }
    Ok(())
}

/// Each mistake in words, as far as there are not too many, and whether the script is open at its end.
pub fn write_words(lexed: &Lexed, out: &mut impl Write) -> io::Result<()> {
    let source = lexed.source();
    let has_words = lexed.has_errors() || !lexed.is_closed();
    if !has_words {
        return Ok(());
    }
    if !source.is_empty() && !source.ends_with('\n') {
        writeln!(out)?;
    }
    let places = Places::new(source);
    for mistake in mistakes(lexed, &places).take(MOST_WORDS) {
        let at = mistake.at;
        writeln!(out, "line {}, column {} (byte {}): {}", at.line, at.column, at.byte, mistake.sentence())?;
    }
    if let Some(more @ 1..) = lexed.errors().len().checked_sub(MOST_WORDS) {
        writeln!(out, "and {more} more mistakes")?;
    }
    if !lexed.is_closed() {
        writeln!(out, "open: {OPEN}")?;
    }
    out.flush()
}

#[cfg(test)]
mod tests;
