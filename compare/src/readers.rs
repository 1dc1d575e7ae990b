//! The original's `next_token`, `consume` and `match_kind` against the proved readers, in random order over random scripts.
use crate::calls::{self, Call};
use crate::check;
use crate::lexer::Lexer;
use crate::oracle::{self, Lexing};
use crate::say::{message, say, Status};
use crate::scripts::{self, Numbers};

const STEPS: usize = 40;

/// Scripts, and calls for each, which ask for the kinds of its tokens. It ends where `each` answers false.
pub fn drawn(seed: u64, count: u64, each: &mut dyn FnMut(&str, &[Call]) -> bool) -> bool {
    let mut numbers = Numbers::new(seed);
    (0..count).all(|_| {
        let text = scripts::drawn(&mut numbers);
        let kinds: Vec<u8> = oracle::lex(&text).tokens.iter().map(|t| t.kind).collect();
        let calls: Vec<Call> = (0..STEPS).map(|_| calls::draw(&mut numbers, &kinds)).collect();
        each(&text, &calls)
    })
}

/// Both readers over one script.
fn compare(text: &str, calls: &[Call]) -> Result<(), String> {
    let [tokens, _, _] = check::buffers(text.as_bytes())?;
    let ours = calls::ours(&tokens, calls)?;
    let theirs = calls::theirs(&mut Lexer::start(text), calls);
    match (0..calls.len()).find(|&i| ours[i] != theirs[i]) {
        None => Ok(()),
        Some(i) => Err(format!("call {i}, {}: ours answers {:?}, the original {:?}", calls[i], ours[i], theirs[i])),
    }
}

pub fn run(seed: u64, count: u64) -> Status {
    if count == 0 {
        message!("readers: nothing was compared: no script was asked for; ask for one at least");
        return Status::NotDone;
    }
    let all = drawn(seed, count, &mut |text, calls| {
        let compared = compare(text, calls);
        if let Err(what) = &compared {
            say!("DIFFERENT: {text:?}: {what}");
        }
        compared.is_ok()
    });
    if all {
        say!("readers: {count} scripts, {} steps of next, consume and match, all equal", count * STEPS as u64);
    }
    all.into()
}
