//! The runs against the original lexer.
use crate::check::{self, LIMIT};
use crate::files;
use crate::host::{self, Refusal};
use crate::lexed::Lexed;
use crate::oracle;
use crate::print_laws;
use crate::print_scripts;
use crate::prints;
use crate::question2;
use crate::say::{message, say, Status};
use crate::scripts;
use crate::shrink::shrink;
use crate::tables;
use std::path::Path;
use std::sync::OnceLock;
use std::time::Duration;

const SHRINKING: Duration = Duration::from_secs(30);

fn hex(bytes: &[u8]) -> String {
    bytes.iter().map(|b| format!("{b:02X}")).collect::<Vec<_>>().join(" ")
}

/// The refusal that questions 1 and 2 ask for, by Rust's own check and order 1's words.
pub fn refusal(script: &[u8]) -> Option<Refusal> {
    if script.len() > LIMIT {
        return Some(Refusal::from_answer(1, script.len() as u64));
    }
    question2::refusal(script).map(|(number, figure)| Refusal::from_answer(number, figure))
}

fn ours(script: &[u8]) -> Result<Lexed, String> {
    check::lex(script).map(|r| r.0)
}

/// Demand 3 of a script, asked of both lexers.
fn joins(script: &[u8], closed: bool, first: &Lexed) -> Result<(), String> {
    static SECONDS: OnceLock<Vec<Lexed>> = OnceLock::new();
    check::joins(script, closed, first, SECONDS.get_or_init(|| check::seconds(ours)), ours)?;
    oracle::joins(script, closed, first)
}

/// The refusal of a script that has to be refused, by all three calls, which have to keep the buffers.
fn compare_refused(script: &[u8], expected: Refusal) -> Result<(), String> {
    let mut buffers = [vec![7; 64], vec![7; 64], vec![7; 64]];
    let [tokens, texts, errors] = &mut buffers;
    let answers = [host::measure(script), host::tokenize(script, tokens, texts, errors)];
    if answers != [Err(expected); 2] || buffers.iter().flatten().any(|&b| b != 7) {
        return Err(format!("expected {expected:?}, answered {answers:?}"));
    }
    prints::refused(script, expected)
}

/// The print of an accepted script, which has to be the model's and to keep order 2's laws.
fn print(script: &[u8], original: &Lexed) -> Result<(), String> {
    match prints::compare(script, original)? {
        Some(print) => print_laws::check(script, original, &print),
        None => Ok(()),
    }
}

/// What both lexers say of a script.
#[derive(Clone, Copy, Debug, PartialEq, Eq)]
pub enum Compared {
    Accepted { closed: bool, tokens: usize, errors: usize },
    Refused(Refusal),
}

impl Compared {
    fn accepted(closed: bool, lexed: &Lexed) -> Self {
        Compared::Accepted { closed, tokens: lexed.tokens.len(), errors: lexed.errors.len() }
    }
}

/// Compares the lexers on one script; an error says how they differ.
pub type Compare = fn(&[u8]) -> Result<Compared, String>;

/// Compares one script in everything.
pub fn compare(script: &[u8]) -> Result<Compared, String> {
    if let Some(expected) = refusal(script) {
        return compare_refused(script, expected).map(|()| Compared::Refused(expected));
    }
    let (lexed, used) = check::lex(script)?;
    let original = oracle::lex_bytes(script)?;
    if let Some(difference) = lexed.difference(&original) {
        return Err(difference);
    }
    joins(script, used.closed, &lexed)?;
    print(script, &original)?;
    Ok(Compared::accepted(used.closed, &lexed))
}

/// Compares the lists of one script, or its refusal, and no more.
pub fn compare_once(script: &[u8]) -> Result<Compared, String> {
    if let Some(expected) = refusal(script) {
        return compare_refused(script, expected).map(|()| Compared::Refused(expected));
    }
    lists(script).map(|(compared, _)| compared)
}

/// Compares the lists of an accepted script, and hands out the original's.
fn lists(script: &[u8]) -> Result<(Compared, Lexed), String> {
    let (lexed, used) = check::lex_exactly(script)?;
    let original = oracle::lex_bytes(script)?;
    match lexed.difference(&original) {
        None => Ok((Compared::accepted(used.closed, &lexed), original)),
        Some(difference) => Err(difference),
    }
}

/// Compares the lists of one script and its print, or its refusal.
fn compare_print(script: &[u8]) -> Result<Compared, String> {
    if let Some(expected) = refusal(script) {
        return compare_refused(script, expected).map(|()| Compared::Refused(expected));
    }
    let (compared, original) = lists(script)?;
    print(script, &original).map(|()| compared)
}

/// The smallest input that is found by leaving out parts of this one, and how it differs, which may be in another way.
pub fn smallest(script: &[u8], compare: Compare) -> String {
    let least = shrink(script, SHRINKING, |less| compare(less).is_err());
    let text = compare(&least).expect_err("it still differs");
    format!("{:?} ({}): {text}", String::from_utf8_lossy(&least), hex(&least))
}

/// What was compared, for the summary.
#[derive(Default)]
pub struct Tally {
    scripts: u64,
    refused: u64,
    open: u64,
    printed: u64,
    bytes: u64,
}

impl Tally {
    /// Compares a script; a difference ends the run.
    fn add(&mut self, script: &[u8]) -> bool {
        self.take(script, compare(script))
    }

    /// Takes in what comparing the script gave.
    fn take(&mut self, script: &[u8], answer: Result<Compared, String>) -> bool {
        match answer {
            Ok(Compared::Refused(_)) => self.refused += 1,
            Ok(Compared::Accepted { closed, errors, .. }) => {
                self.open += u64::from(!closed);
                self.printed += u64::from(errors == 0);
            }
            Err(_) => {
                say!("DIFFERENT: {}", smallest(script, compare));
                return false;
            }
        }
        self.scripts += 1;
        self.bytes += script.len() as u64;
        if self.scripts % 1_000_000 == 0 {
            message!("{} scripts compared", self.scripts);
        }
        true
    }

    /// The end of a run in which nothing differs.
    fn report(&self, name: &str) -> Status {
        if self.scripts == 0 {
            message!("{name}: nothing was compared: no script was asked for; ask for one at least");
            return Status::NotDone;
        }
        let Tally { scripts, refused, open, printed, bytes } = self;
        say!("{name}: {scripts} scripts, {bytes} bytes, {refused} refused, {open} open, {printed} printed, all equal");
        Status::Passed
    }
}

/// Compares every script of a generator and reports.
fn over(name: &str, scripts: impl FnOnce(&mut dyn FnMut(&[u8]) -> bool) -> bool) -> Status {
    let mut tally = Tally::default();
    match scripts(&mut |script| tally.add(script)) {
        true => tally.report(name),
        false => Status::Failed,
    }
}

pub fn table() -> Status {
    over("table", scripts::table)
}

pub fn rows() -> Status {
    over("rows", tables::rows)
}

/// Packed scripts are long and many: only one of so many is compared in everything, of the others the lists and the print.
pub fn points() -> Status {
    const WHOLE: u64 = 64;
    const LONG: usize = 1_000;
    let mut tally = Tally::default();
    let each = &mut |script: &[u8]| {
        let whole = script.len() < LONG || tally.scripts % WHOLE == 0;
        tally.take(script, if whole { compare(script) } else { compare_print(script) })
    };
    match tables::points(each) {
        true => tally.report("points"),
        false => Status::Failed,
    }
}

pub fn exhaustive(depth: u32) -> Status {
    over("exhaustive", |each| scripts::exhaustive(depth, each))
}

pub fn random(seed: u64, count: u64) -> Status {
    over("random", |each| scripts::random(seed, count, each))
}

pub fn prints(seed: u64, count: u64) -> Status {
    let mut tally = Tally::default();
    match print_scripts::all(seed, count, &mut |script| tally.take(script, compare_print(script))) {
        true => tally.report("prints"),
        false => Status::Failed,
    }
}

/// Damaged copies of the scripts at the places, or of a made one where no place is named.
pub fn mutate(seed: u64, count: u64, places: &[&Path]) -> Status {
    let texts = match places {
        [] => Ok(Vec::new()),
        _ => files::scripts(places),
    };
    match texts {
        Ok(texts) => {
            let texts: Vec<Vec<u8>> = texts.into_iter().map(|script| script.bytes).collect();
            over("mutate", |each| scripts::mutate(seed, count, &texts, each))
        }
        Err(why) => {
            message!("mutate: nothing was compared: {why}");
            Status::NotDone
        }
    }
}

pub fn large(seed: u64) -> Status {
    let mut tally = Tally::default();
    match scripts::large(seed, &mut |script| tally.add(script)) && at_the_limit(&mut tally) {
        true => tally.report("large"),
        false => Status::Failed,
    }
}

/// Scripts of the limit and of one byte less, with every ending. Demand 3 says nothing at the limit, since no second script fits, and
/// one byte before it only the empty one does. So `closed` has to be that of a short script with the same padding and ending.
fn at_the_limit(tally: &mut Tally) -> bool {
    const SHORT: usize = 64;
    let closed = |script: &str| host::measure(script.as_bytes()).map(|used| used.closed);
    for (padding, ending) in scripts::PADDINGS.iter().flat_map(|p| scripts::ENDINGS.iter().map(move |e| (*p, *e))) {
        let [short, less, most] = [SHORT, LIMIT - 1, LIMIT].map(|size| scripts::padded(padding, ending, size));
        if ![&short, &less, &most].iter().all(|script| tally.add(script.as_bytes())) {
            return false;
        }
        let answers = [&short, &less, &most].map(|script| closed(script));
        if answers != [answers[0]; 3] {
            say!("DIFFERENT: closed of {SHORT}, of the limit less one and of the limit's bytes, ending with {ending:?}: {answers:?}");
            return false;
        }
    }
    true
}
