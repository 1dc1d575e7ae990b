//! One script through the proved lexer, with everything that can be asked of the answer. The expected answer comes from the caller:
//! from the original, or from the stored list.
#![cfg_attr(not(oracle), allow(dead_code))]

use crate::decode;
use crate::host::{self, Refusal, Used};
use crate::lexed::Lexed;

pub const LIMIT: usize = 1_048_576;
const GUARD: u8 = 0xA5;

/// The bytes of buffers that are never too small for a script of `n` bytes: of tokens, texts and errors.
pub fn largest(n: usize) -> [usize; 3] {
    [33 * (n + 1), 2 * n + 2, 29 * n]
}

/// A buffer with guard bytes behind the part that is lent.
struct Lent {
    bytes: Vec<u8>,
    size: usize,
}

impl Lent {
    fn new(size: usize) -> Self {
        Self { bytes: vec![GUARD; size + 16], size }
    }

    fn part(&mut self) -> &mut [u8] {
        &mut self.bytes[..self.size]
    }

    fn kept_from(&self, used: usize) -> bool {
        self.bytes[used..].iter().all(|&b| b == GUARD)
    }
}

struct Run {
    answer: Result<Used, Refusal>,
    tokens: Lent,
    texts: Lent,
    errors: Lent,
}

fn run(script: &[u8], sizes: [usize; 3]) -> Run {
    let [mut tokens, mut texts, mut errors] = sizes.map(Lent::new);
    let answer = host::tokenize(script, tokens.part(), texts.part(), errors.part());
    Run { answer, tokens, texts, errors }
}

impl Run {
    fn kept(&self) -> bool {
        self.tokens.kept_from(0) && self.texts.kept_from(0) && self.errors.kept_from(0)
    }

    /// The lists of an accepted run, after checking what was used.
    fn lists(&self, script: &[u8], used: Used) -> Result<Lexed, String> {
        if self.answer != Ok(used) {
            return Err(format!("answered {:?}, measured {used:?}", self.answer));
        }
        if !(self.tokens.kept_from(used.tokens) && self.texts.kept_from(used.texts) && self.errors.kept_from(used.errors)) {
            return Err("a byte beyond those used was changed".to_string());
        }
        let part = |lent: &Lent, n: usize| lent.bytes[..n].to_vec();
        decode::lists(script, &part(&self.tokens, used.tokens), &part(&self.texts, used.texts), &part(&self.errors, used.errors))
    }
}

/// A run of the proved lexer with buffers that fit exactly, its lists, and what was measured.
fn exact(script: &[u8]) -> Result<(Run, Lexed, Used), String> {
    let used = host::measure(script).map_err(|refusal| format!("refused {refusal:?}"))?;
    let exact = run(script, [used.tokens, used.texts, used.errors]);
    let lexed = exact.lists(script, used)?;
    if lexed.tokens.len() != used.count {
        return Err(format!("{} tokens, counted {}", lexed.tokens.len(), used.count));
    }
    Ok((exact, lexed, used))
}

/// The answer of the proved lexer, with buffers that fit exactly.
pub fn lex_exactly(script: &[u8]) -> Result<(Lexed, Used), String> {
    exact(script).map(|(_, lexed, used)| (lexed, used))
}

/// The same, and what it answers with other buffers.
pub fn lex(script: &[u8]) -> Result<(Lexed, Used), String> {
    let (exact, lexed, used) = exact(script)?;
    let most = run(script, largest(script.len()));
    if most.lists(script, used)? != lexed {
        return Err("another answer with the largest buffers".to_string());
    }
    for (number, size, short) in [
        (3, used.tokens, [used.tokens.wrapping_sub(1), used.texts, used.errors]),
        (4, used.texts, [used.tokens, used.texts.wrapping_sub(1), used.errors]),
        (5, used.errors, [used.tokens, used.texts, used.errors.wrapping_sub(1)]),
    ] {
        if size == 0 {
            continue;
        }
        let refused = run(script, short);
        if refused.answer != Err(Refusal::from_answer(number, size as u64)) || !refused.kept() {
            return Err(format!("a byte short: expected refusal {number} figure {size}, answered {:?}", refused.answer));
        }
    }
    read_back(script, &exact, used, &lexed)?;
    Ok((lexed, used))
}

/// The three buffers of an accepted script, as far as they are used.
pub fn buffers(script: &[u8]) -> Result<[Vec<u8>; 3], String> {
    let (exact, _, used) = exact(script)?;
    Ok([exact.tokens.bytes[..used.tokens].to_vec(), exact.texts.bytes[..used.texts].to_vec(), exact.errors.bytes[..used.errors].to_vec()])
}

/// The proved readers over the records of a run.
fn read_back(script: &[u8], run: &Run, used: Used, lexed: &Lexed) -> Result<(), String> {
    let tokens = &run.tokens.bytes[..used.tokens];
    let texts = &run.texts.bytes[..used.texts];
    let errors = &run.errors.bytes[..used.errors];
    let mut at = 0;
    for token in &lexed.tokens {
        let r = host::next_token(tokens, at).map_err(|e| format!("next token at {at}: {e:?}"))?;
        if r[1] != u64::from(token.kind) || r[2..8] != token.span {
            return Err(format!("next token at {at}: {r:?}"));
        }
        host::text_check(script, texts, tokens, at).map_err(|e| format!("text check at {at}: {e:?}"))?;
        at = r[0] as usize;
    }
    let eof = tokens.len() - 25;
    if at != eof {
        return Err(format!("the reader left EOF: it stands at {at}"));
    }
    at = 0;
    for error in &lexed.errors {
        let r = host::next_error(errors, at).map_err(|e| format!("next error at {at}: {e:?}"))?;
        if r[1] != u64::from(error.kind) || r[2..8] != error.span || error.code.is_some_and(|c| r[8] != u64::from(c)) {
            return Err(format!("next error at {at}: {r:?}"));
        }
        at = r[0] as usize;
    }
    if host::next_error(errors, at) != Err(Refusal::from_answer(7, at as u64)) {
        return Err("a next error behind the last".to_string());
    }
    Ok(())
}

/// Second scripts for demand 3. None begins with a mark.
pub const SECONDS: [&str; 12] =
    ["", "a", "\n", "*/", "\"", "\"\"\"", "}", "'", "'a'\n b", "é /* */ $x", "/// d\n\"$a\\u\"", "x\u{FEFF}\r\n0x1F'"];

/// The second scripts, lexed.
pub fn seconds(lex: impl Fn(&[u8]) -> Result<Lexed, String>) -> Vec<Lexed> {
    SECONDS.iter().map(|second| lex(second.as_bytes()).expect("a second script is accepted")).collect()
}

/// Demand 3: closed exactly if every second joins. `lex` is the lexer asked, the proved one or the original; `lexed` is what it gives
/// for the second scripts.
pub fn joins(
    script: &[u8],
    closed: bool,
    first: &Lexed,
    lexed: &[Lexed],
    lex: impl Fn(&[u8]) -> Result<Lexed, String>,
) -> Result<(), String> {
    let n = script.strip_prefix("\u{FEFF}".as_bytes()).unwrap_or(script).len() as u64;
    let mut all = true;
    for (second, alone) in SECONDS.iter().zip(lexed) {
        if script.len() + 1 + second.len() > LIMIT {
            continue;
        }
        let whole = [script, b"\n", second.as_bytes()].concat();
        let same = lex(&whole)? == first.join(alone, n);
        if closed && !same {
            return Err(format!("closed, but the second {second:?} does not join"));
        }
        all &= same;
    }
    if !closed && all && script.len() < LIMIT {
        return Err("open, but every second joins".to_string());
    }
    Ok(())
}
