//! The instructions and mispredicted branches of one call of `aura_tokenize`, counted by valgrind on its model of a processor: the
//! same numbers on each run, whatever else the machine does.
use crate::check;
use crate::host;
use crate::imports;
use crate::mixed;
use crate::say::{message, say, Status};
use crate::scripts::Make;
use std::ffi::OsStr;
use std::process::Command;

const SEED: u64 = 1;
const SIZE: usize = 200_000;

const KINDS: [(&str, Make); 2] = [("import", imports::script), ("mixed", mixed::script)];

/// Makes a script of a kind and calls `aura_tokenize` once, with the largest buffers; prints the bytes and the tokens.
pub fn once(kind: &OsStr) -> Status {
    let Some((_, make)) = KINDS.iter().find(|(name, _)| kind == *name) else {
        message!("count --once: there is no such kind of script; name import or mixed");
        return Status::NotDone;
    };
    let script = make(SEED, SIZE);
    let [mut tokens, mut texts, mut errors] = check::largest(script.len()).map(|size| vec![0; size]);
    let used = host::tokenize(script.as_bytes(), &mut tokens, &mut texts, &mut errors).expect("the buffers are large enough");
    say!("{} {}", script.len(), used.count);
    Status::Passed
}

/// What was counted of a script.
#[derive(Debug, PartialEq, Eq)]
struct Counts {
    bytes: u64,
    tokens: u64,
    instructions: u64,
    mispredicted: u64,
}

fn numbers(text: &str) -> Vec<u64> {
    text.split_whitespace().filter_map(|word| word.parse().ok()).collect()
}

/// Reads what `once` prints and what valgrind tells at its end: a line of the events' names and one of their numbers. None where
/// the call was not seen.
fn read(printed: &str, told: &str) -> Option<Counts> {
    let behind = |name: &str| told.lines().find_map(|line| line.split_once(name)).map(|(_, rest)| rest);
    let events: Vec<&str> = behind("Events    :")?.split_whitespace().collect();
    let collected = numbers(behind("Collected :")?);
    let event = |name: &str| collected.get(events.iter().position(|event| *event == name)?).copied();
    let [bytes, tokens] = numbers(printed)[..] else { return None };
    let instructions = event("Ir").filter(|count| *count > 0)?;
    Some(Counts { bytes, tokens, instructions, mispredicted: event("Bcm")? + event("Bim")? })
}

/// Runs `once` below valgrind, which counts within `aura_tokenize` only. An error has a status and says why.
fn count(kind: &str) -> Result<Counts, (Status, String)> {
    let program = std::env::current_exe().map_err(|e| (Status::NotDone, format!("this program's file is not known: {e}")))?;
    let output = Command::new("valgrind")
        .args(["--tool=callgrind", "--branch-sim=yes", "--toggle-collect=aura_tokenize", "--callgrind-out-file=/dev/null"])
        .arg(program)
        .args(["count", "--once", kind])
        .output()
        .map_err(|e| (Status::NotDone, format!("valgrind cannot be started: {e}; install valgrind")))?;
    let [printed, told] = [output.stdout, output.stderr].map(|bytes| String::from_utf8_lossy(&bytes).into_owned());
    read(&printed, &told)
        .filter(|_| output.status.success())
        .ok_or_else(|| (Status::Failed, format!("the {kind} script; valgrind says:\n{told}")))
}

fn print(kind: &str, counts: &Counts) {
    let Counts { bytes, tokens, instructions, mispredicted } = *counts;
    let each = |count: u64| count as f64 / tokens as f64;
    say!(
        "{:<16} {bytes:>8} {tokens:>8} {:>13.2} {:>20.1} {:>29.2}",
        format!("{kind} script"),
        each(bytes),
        each(instructions),
        each(mispredicted)
    );
}

pub fn run() -> Status {
    match KINDS.iter().map(|(kind, _)| count(kind)).collect::<Result<Vec<Counts>, _>>() {
        Ok(all) => {
            say!("one call of aura_tokenize with the largest buffers, nothing warmed before, on valgrind's model of a processor");
            say!("{:<16} {:>8} {:>8} bytes a token instructions a token mispredicted branches a token", "", "bytes", "tokens");
            KINDS.iter().zip(&all).for_each(|((kind, _), counts)| print(kind, counts));
            Status::Passed
        }
        Err((status, text)) => {
            message!("count: nothing was counted: {text}");
            status
        }
    }
}

#[cfg(test)]
mod tests {
    use super::{read, Counts};

    fn told(collected: &str) -> String {
        format!("==7== For interactive control\n==7== Events    : Ir Bc Bcm Bi Bim\n==7== Collected : {collected}\n")
    }

    #[test]
    fn reads_what_valgrind_tells() {
        let counts = Counts { bytes: 200, tokens: 30, instructions: 9000, mispredicted: 75 };
        assert_eq!(read("200 30\n", &told("9000 800 70 60 5")), Some(counts));
    }

    #[test]
    fn a_call_that_was_not_seen_is_no_count() {
        assert_eq!(read("200 30\n", &told("0 0 0 0 0")), None);
        assert_eq!(read("200 30\n", &told("9000")), None);
        assert_eq!(read("", &told("9000 800 70 60 5")), None);
        assert_eq!(read("200 30\n", "valgrind: failed to start"), None);
    }
}
