//! The script in colour as one page that needs no other file.
use crate::colour::{lines, Highlight, Run, Style, MISTAKE};
use crate::mistakes::{mistakes, Mistake, Places, OPEN};
use crate::MOST_WORDS;
use aura_lexer::Lexed;
use aura_tools::markup::escape;
use aura_tools::visible::visible;
use std::io::{self, Write};

const STYLE: &str = include_str!("page.css");

/// A text of which every character is seen, and none is a part of the page's own marks.
fn escaped(text: &str) -> String {
    escape(&text.chars().map(visible).collect::<String>())
}

fn write_style(out: &mut impl Write, class: &str, style: Style) -> io::Result<()> {
    write!(out, "code .{class} {{")?;
    if let Some((_, colour)) = style.colour {
        write!(out, " color: {colour};")?;
    }
    for (on, words) in
        [(style.bold, " font-weight: bold;"), (style.italic, " font-style: italic;"), (style.underline, " text-decoration: underline;")]
    {
        write!(out, "{}", if on { words } else { "" })?;
    }
    writeln!(out, " }}")
}

fn write_head(out: &mut impl Write, name: &str) -> io::Result<()> {
    writeln!(out, "<!DOCTYPE html>\n<html lang=\"en\">\n<head>\n<meta charset=\"utf-8\">")?;
    writeln!(
        out,
        "<meta name=\"viewport\" content=\"width=device-width\">\n<title>{name}</title>\n<style>\n{STYLE}",
        name = escaped(name)
    )?;
    for highlight in Highlight::ALL.iter().filter(|highlight| highlight.style() != Highlight::Plain.style()) {
        write_style(out, highlight.class(), highlight.style())?;
    }
    write_style(out, "mistake", MISTAKE)?;
    writeln!(out, "</style>\n</head>\n<body>\n<h1>{}</h1>", escaped(name))
}

/// What the page says of the whole script.
fn write_summary(out: &mut impl Write, lexed: &Lexed) -> io::Result<()> {
    let (tokens, wrong) = (lexed.used().count, lexed.errors().len());
    let end = if lexed.is_closed() { "closed".to_string() } else { format!("open: {}", escaped(OPEN)) };
    writeln!(out, "<p>{} bytes, {tokens} tokens, mistakes: {wrong}; {end}.</p>", lexed.script().len())?;
    match wrong.checked_sub(MOST_WORDS) {
        Some(more @ 1..) => {
            writeln!(out, "<p>The first {MOST_WORDS} mistakes are told in words below their lines, {more} more are not.</p>")
        }
        _ => Ok(()),
    }
}

fn write_run(out: &mut impl Write, run: &Run) -> io::Result<()> {
    let text = escaped(run.text);
    match (run.wrong, run.highlight) {
        (true, _) => write!(out, "<span class=\"mistake\">{text}</span>"),
        (false, Highlight::Plain | Highlight::Mark) => write!(out, "{text}"),
        (false, highlight) => write!(out, "<span class=\"{}\">{text}</span>", highlight.class()),
    }
}

fn write_line(out: &mut impl Write, number: usize, runs: &[Run]) -> io::Result<()> {
    write!(out, "<div class=\"line\" id=\"L{number}\"><a href=\"#L{number}\">{number}</a><code>")?;
    runs.iter().try_for_each(|run| write_run(out, run))?;
    writeln!(out, "</code></div>")
}

fn write_mistake(out: &mut impl Write, mistake: &Mistake) -> io::Result<()> {
    let (at, words) = (mistake.at, escaped(&mistake.sentence()));
    writeln!(out, "<div class=\"words\">line {}, column {}: {words}</div>", at.line, at.column)
}

/// The page of a script.
pub fn write(lexed: &Lexed, name: &str, out: &mut impl Write) -> io::Result<()> {
    let places = Places::new(lexed.source());
    let mut told: Vec<Mistake> = mistakes(lexed, &places).take(MOST_WORDS).collect();
    told.sort_by_key(|mistake| mistake.at.line);
    let mut told = told.iter().peekable();
    write_head(out, name)?;
    write_summary(out, lexed)?;
    writeln!(out, "<main>")?;
    for (line, number) in lines(lexed).zip(1..) {
        write_line(out, number, &line.runs)?;
        while let Some(mistake) = told.next_if(|mistake| mistake.at.line == number) {
            write_mistake(out, mistake)?;
        }
    }
    writeln!(out, "</main>\n</body>\n</html>")
}

#[cfg(test)]
mod tests;
