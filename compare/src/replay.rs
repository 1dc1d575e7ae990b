//! A stored list of the original's answers, which needs no original at hand. `data/answers.txt` has for each script a line `S` with
//! the script in hexadecimal, then its T and E lines as the program `tokens` writes them, then `closed` or `open` (by demand 3,
//! asked of the original with the seconds of `check`).
use crate::check;
use crate::lexed::{Lexed, Mistake, Token};
use crate::prints;
use crate::say::say;

const ANSWERS: &str = include_str!("../data/answers.txt");

pub fn hex(bytes: &[u8]) -> String {
    if bytes.is_empty() {
        return "-".to_string();
    }
    bytes.iter().map(|b| format!("{b:02x}")).collect()
}

fn unhex(text: &str) -> Vec<u8> {
    if text == "-" {
        return Vec::new();
    }
    (0..text.len()).step_by(2).map(|i| u8::from_str_radix(&text[i..i + 2], 16).expect("hexadecimal")).collect()
}

fn numbers(words: &[&str]) -> Vec<u64> {
    words.iter().map(|w| w.parse().expect("a number")).collect()
}

/// One script and its stored answer.
struct Stored {
    script: Vec<u8>,
    lexed: Lexed,
    closed: bool,
}

fn stored(text: &str) -> Vec<Stored> {
    let mut list: Vec<Stored> = Vec::new();
    for line in text.lines().filter(|l| !l.is_empty() && !l.starts_with('#')) {
        let words: Vec<&str> = line.split(' ').collect();
        match words[0] {
            "S" => list.push(Stored { script: unhex(words[1]), lexed: Lexed { tokens: Vec::new(), errors: Vec::new() }, closed: true }),
            "T" => {
                let n = numbers(&words[1..8]);
                let token = Token { kind: n[0] as u8, span: n[1..7].try_into().expect("six"), text: unhex(words[8]) };
                list.last_mut().expect("a script first").lexed.tokens.push(token);
            }
            "E" => {
                let n = numbers(&words[1..]);
                let mistake = Mistake { kind: n[0] as u8, span: n[1..7].try_into().expect("six"), code: n.get(7).map(|&c| c as u32) };
                list.last_mut().expect("a script first").lexed.errors.push(mistake);
            }
            other => list.last_mut().expect("a script first").closed = other == "closed",
        }
    }
    list
}

/// Every stored script with its answer, until `each` answers false.
#[cfg(all(oracle, feature = "mutants"))]
pub fn each(each: &mut dyn FnMut(&[u8], &Lexed) -> bool) -> bool {
    stored(ANSWERS).iter().all(|s| each(&s.script, &s.lexed))
}

pub fn run() -> bool {
    let list = stored(ANSWERS);
    for s in &list {
        let problem = match check::lex(&s.script) {
            Err(text) => Some(text),
            Ok((lexed, used)) if used.closed != s.closed => Some(format!("closed {}: {lexed:?}", used.closed)),
            Ok((lexed, _)) => lexed.difference(&s.lexed).or_else(|| prints::compare(&s.script, &s.lexed).err()),
        };
        if let Some(text) = problem {
            say!("DIFFERENT: {:?} ({}): {text}", String::from_utf8_lossy(&s.script), hex(&s.script));
            return false;
        }
    }
    let printed = list.iter().filter(|s| s.lexed.errors.is_empty()).count();
    say!("replay: {} stored answers of the original, {printed} printed, all equal", list.len());
    list.len() >= 2000
}

/// Makes the list from the original: the small scripts, all scripts of up to two symbols, and random ones until every kind that
/// the original makes, every error and 2,400 scripts are there.
#[cfg(oracle)]
pub fn store(file: &std::path::Path) -> crate::say::Status {
    use crate::oracle;
    use crate::say::{message, Status};
    use crate::scripts::{self, Numbers};
    use std::fmt::Write;

    let mut list: Vec<String> = crate::list::SMALL.iter().map(|s| s.to_string()).collect();
    for depth in 1..=2 {
        list.extend(scripts::all(depth));
    }
    list.push(crate::decode::SPELLINGS.join(" "));
    list.push("Int Long Short Byte Float Double Boolean Char String Any Nothing Unit unit true false it by malloc spawn".to_string());
    let mut draw = Numbers::new(2026);
    while list.len() < 2400 {
        list.push(scripts::drawn(&mut draw));
    }
    list.push(crate::imports::script(2026, 2000));
    let mut kinds = [false; 126];
    let mut faults = [false; 11];
    let mut text = String::from("# Made by `compare store` from the original lexer: see src/replay.rs.\n");
    for script in list {
        let lexed = oracle::lex(&script);
        let closed = oracle::joins(script.as_bytes(), true, &lexed).is_ok();
        writeln!(text, "S {}", hex(script.as_bytes())).expect("a string");
        lexed.tokens.iter().for_each(|t| kinds[t.kind as usize] = true);
        lexed.errors.iter().for_each(|e| faults[e.kind as usize] = true);
        text += &crate::listing::lines(&lexed);
        text += if closed { "closed\n" } else { "open\n" };
    }
    let missing: Vec<usize> = (0..126).filter(|&k| !kinds[k]).collect();
    say!("kinds that no script makes: {missing:?}; errors: {:?}", (1..11).filter(|&k| !faults[k]).collect::<Vec<_>>());
    match std::fs::write(file, text) {
        Ok(()) => Status::Passed,
        Err(error) => {
            message!("store: cannot write {}: {error}", aura_tools::visible::name(file));
            Status::NotDone
        }
    }
}
