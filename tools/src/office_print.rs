//! The office print of a script: the same tokens in one layout, for paper files.
use crate::check::refused_at;
use crate::mistakes::{mistakes, Places};
use crate::words::{Asked, Options};
use crate::{read, say, Failure, Status};
use aura_lexer::{lex, print, Refusal, RefusalKind, LIMIT};
use aura_tools::files::Script;
use std::ffi::OsString;
use std::io::{self, Write};

pub const HELP: &str = include_str!("../help/print.txt");

/// Why a script with mistakes is not printed: the first one recorded, where it shows, and what to do.
fn mistaken(name: &str, script: &Script, refusal: Refusal) -> String {
    let Refusal { kind, figure } = refusal;
    let lexed = lex(&script.bytes).expect("printing asks for mistakes last");
    let places = Places::new(lexed.source());
    let first = mistakes(&lexed, &places).next().expect("it is refused for a mistake");
    let (at, number, meaning) = (first.at, kind.number(), kind.meaning());
    let then = match lexed.errors().len() - 1 {
        0 => "then print it again".to_string(),
        more => format!("./lex check shows {more} more; print it again when none is left"),
    };
    format!("{name}:{}:{}: refusal {number}, figure {figure}: {meaning}, {}; {then}", at.line, at.column, first.sentence())
}

/// A refusal in words, with the place as an editor counts.
fn refused(name: &str, script: &Script, refusal: Refusal) -> String {
    if refusal.kind == RefusalKind::Mistake {
        return mistaken(name, script, refusal);
    }
    let (at, ..) = refused_at(&script.bytes, refusal);
    format!("{name}:{}:{}: {}", at.line, at.column, script.refusal(refusal))
}

/// `lex print [FILE]`. It writes the bytes of the print and nothing else.
pub fn run(words: &[OsString]) -> Result<Status, Failure> {
    let asked = Asked::sort(words, Options { flags: &[], values: &[] })?;
    if asked.help() {
        return crate::print(HELP);
    }
    let (name, script) = read(&asked)?;
    let bytes = print(&script.bytes).map_err(|refusal| Failure::Refused(refused(&name, &script, refusal)))?;
    let mut out = io::stdout().lock();
    out.write_all(&bytes)?;
    out.flush()?;
    if bytes.len() > LIMIT {
        let size = bytes.len();
        say(&format!("the print of {name} has {size} bytes, too many to be lexed again; split the script and print its parts"));
    }
    Ok(Status::Good)
}

#[cfg(test)]
mod tests {
    use super::*;

    fn told(script: &[u8]) -> String {
        let script = Script::read(script, None).expect("read");
        let refusal = print(&script.bytes).expect_err("refused");
        refused("a.aura", &script, refusal)
    }

    #[test]
    fn a_mistake_is_told_with_its_place_and_what_to_do() {
        assert_eq!(
            told(b"a\n /** b\n\n"),
            "a.aura:2:6: refusal 11, figure 3: the script has a mistake, error 10: a doc comment without its end, \
             begun at line 2, column 2; close it with */; then print it again"
        );
        let several = told("\u{FEFF}a\n\"\\q\n".as_bytes());
        assert!(several.starts_with("a.aura:2:3: refusal 11, figure 4: the script has a mistake, error 7: "), "{several}");
        assert!(several.ends_with("; ./lex check shows 1 more; print it again when none is left"), "{several}");
    }

    #[test]
    fn other_refusals_have_a_place_too() {
        assert!(told(b"a\nb\xC3").starts_with("a.aura:2:2: refusal 9, figure 3: "), "{}", told(b"a\nb\xC3"));
        let long = vec![b'\n'; LIMIT + 1];
        assert!(told(&long).starts_with("a.aura:1048577:1: refusal 1: the script is over "), "{}", told(&long));
    }
}
