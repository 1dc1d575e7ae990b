//! The original's listing of a script, in the form of document 01's program `tokens`. The refusals are those of questions 1 and 2 by
//! Rust's own check; closed or open is demand 3 asked of the original with the seconds of `check`.
use crate::check::{self, LIMIT};
use crate::lexed::{Lexed, Span};
use crate::oracle;
use crate::replay::hex;
use crate::runs::refusal;
use crate::say::{self, message, Status};
use aura_tools::files::Script;
use aura_tools::visible;
use std::path::Path;

fn fields(span: Span) -> String {
    span.map(|n| n.to_string()).join(" ")
}

/// The T and E lines.
pub fn lines(lexed: &Lexed) -> String {
    let mut text = String::new();
    for t in &lexed.tokens {
        text += &format!("T {} {} {}\n", t.kind, fields(t.span), hex(&t.text));
    }
    for e in &lexed.errors {
        let code = e.code.map(|c| format!(" {c}")).unwrap_or_default();
        text += &format!("E {} {}{code}\n", e.kind, fields(e.span));
    }
    text
}

/// Demand 3 with every second; none where one does not fit within the limit.
pub fn is_closed(script: &str, lexed: &Lexed) -> Option<bool> {
    let longest = check::SECONDS.iter().map(|s| s.len()).max().expect("there are seconds");
    if script.len() + 1 + longest > LIMIT {
        return None;
    }
    Some(oracle::joins(script.as_bytes(), true, lexed).is_ok())
}

/// The figure of a script that is too long is its length, of which less may have been read.
fn listing(script: &Script) -> Result<String, String> {
    if let Some(r) = refusal(&script.bytes) {
        let figure = script.length.filter(|length| *length > LIMIT as u64).unwrap_or(r.figure);
        return Ok(format!("refused {} {figure}\n", r.number()));
    }
    let source = std::str::from_utf8(&script.bytes).expect("it was checked");
    let lexed = oracle::lex(source);
    let closed = is_closed(source, &lexed).ok_or("too near the limit to ask for demand 3")?;
    Ok(lines(&lexed) + if closed { "closed\n" } else { "open\n" })
}

pub fn run(file: &Path) -> Status {
    match Script::open(file).map_err(|e| e.to_string()).and_then(|script| listing(&script)) {
        Ok(text) => {
            say::on_output(format_args!("{text}"));
            Status::Passed
        }
        Err(why) => {
            message!("no listing of {}: {why}", visible::name(file));
            Status::NotDone
        }
    }
}
