//! The changed originals, held against the scripts of the gate's runs.
use crate::calls::{self, Answer, Call};
use crate::decode;
use crate::files;
use crate::lexed::Lexed;
use crate::oracle::{self, Lexing};
use crate::print_scripts;
use crate::readers;
use crate::replay;
use crate::say::{message, say, Status};
use crate::scripts;
use crate::shrink::shrink;
use crate::tables;
use std::cell::Cell;
use std::ffi::OsStr;
use std::panic::{self, AssertUnwindSafe};
use std::path::Path;
use std::sync::Mutex;
use std::time::{Duration, Instant};

/// A changed original: `unshowable` says why no script can show the change.
pub struct Mutant {
    name: &'static str,
    words: &'static str,
    unshowable: Option<&'static str>,
    start: fn(&str) -> Box<dyn Lexing>,
}

fn start<L: Lexing + 'static>(source: &str) -> Box<dyn Lexing> {
    Box::new(L::start(source))
}

include!(concat!(env!("OUT_DIR"), "/mutants.rs"));

/// Takes in the scripts of a run, with the gate's seeds and counts. It ends early where none is left to be found.
type Scripts = fn(&mut Held) -> bool;
const RUNS: [(&str, Scripts); 11] = [
    ("replay", |held| replay::each(&mut |script, lexed| held.answer(script, lexed))),
    ("table", |held| scripts::table(&mut |script| held.script(script))),
    ("rows", |held| tables::rows(&mut |script| held.script(script))),
    ("points", |held| tables::points(&mut |script| held.script(script))),
    ("exhaustive", |held| scripts::exhaustive(4, &mut |script| held.script(script))),
    ("random", |held| scripts::random(1, 100_000, &mut |script| held.script(script))),
    ("mutate", |held| scripts::mutate(1, 2_000, &[], &mut |script| held.script(script))),
    ("large", |held| scripts::large(1, &mut |script| held.script(script))),
    ("prints", |held| print_scripts::all(1, 50_000, &mut |script| held.script(script))),
    ("readers", |held| readers::drawn(1, 50_000, &mut |text, calls| held.calls(text, calls))),
    ("archive", archive),
];

/// How long a smaller script is looked for, and how long a changed original may take for one.
const SHRINKING: Duration = Duration::from_secs(5);
const ENDLESS: Duration = Duration::from_secs(60);

/// The most bytes of a short script.
const SHORT: usize = 4;

thread_local! {
    /// Whether a panic is one of a changed original, which is an answer like others.
    static ASKED: Cell<bool> = const { Cell::new(false) };
}
/// The changed original that is asked, and since when.
static BUSY: Mutex<Option<(&str, Instant)>> = Mutex::new(None);

/// Panics of changed originals are not printed, and one that does not come back ends the program.
fn watch() {
    let usual = panic::take_hook();
    panic::set_hook(Box::new(move |info| {
        if !ASKED.get() {
            usual(info);
        }
    }));
    std::thread::spawn(|| loop {
        std::thread::sleep(Duration::from_secs(1));
        let busy = *BUSY.lock().expect("no one panics with it");
        if let Some((name, _)) = busy.filter(|(_, since)| since.elapsed() > ENDLESS) {
            say!("mutants: {name} does not come back from a call: choose another change");
            std::process::exit(1);
        }
    });
}

/// What a changed original answers; none where it panics.
fn asked<T>(mutant: &Mutant, ask: impl FnOnce() -> T) -> Option<T> {
    *BUSY.lock().expect("no one panics with it") = Some((mutant.name, Instant::now()));
    ASKED.set(true);
    let answer = panic::catch_unwind(AssertUnwindSafe(ask)).ok();
    ASKED.set(false);
    *BUSY.lock().expect("no one panics with it") = None;
    answer
}

/// Whether a changed original answers otherwise. Its tokens are taken one by one, so that one that makes tokens without an end is
/// found; `tokenize`, which is the same loop, is asked for short scripts. One that panics answers otherwise, too.
fn differs(mutant: &Mutant, text: &str, expected: &Lexed) -> bool {
    let same = asked(mutant, || {
        let mut lexer = (mutant.start)(text);
        let tokens = expected.tokens.iter().all(|token| lexer.next_token() == *token);
        tokens && lexer.errors() == expected.errors && (text.len() > SHORT || oracle::answers(&mut *(mutant.start)(text)) == *expected)
    });
    same != Some(true)
}

/// The proved lexer's answer, and the records of its tokens; none where it refuses the script.
fn ours(script: &[u8]) -> Option<(Lexed, Vec<u8>)> {
    let lexed = aura_lexer::lex(script).ok()?;
    let tokens = lexed.token_records();
    let lists = decode::lists(script, tokens, lexed.text_buffer(), lexed.error_records()).expect("the proved lexer's records");
    Some((lists, tokens.to_vec()))
}

fn differs_from_ours(mutant: &Mutant, script: &[u8]) -> bool {
    let text = std::str::from_utf8(script).ok();
    text.zip(ours(script)).is_some_and(|(text, (expected, _))| differs(mutant, text, &expected))
}

/// What the proved readers answer to calls; none where the script is refused.
fn our_answers(text: &str, calls: &[Call]) -> Option<Vec<Answer>> {
    let (_, tokens) = ours(text.as_bytes())?;
    Some(calls::ours(&tokens, calls).expect("the proved readers read the proved lexer's records"))
}

/// Whether a changed original answers calls otherwise.
fn differs_in_calls(mutant: &Mutant, text: &str, calls: &[Call], expected: &[Answer]) -> bool {
    asked(mutant, || calls::theirs(&mut *(mutant.start)(text), calls)).as_deref() != Some(expected)
}

fn differs_in_our_calls(mutant: &Mutant, text: &str, calls: &[Call]) -> bool {
    our_answers(text, calls).is_some_and(|expected| differs_in_calls(mutant, text, calls, &expected))
}

/// What the first run that found a changed original found it with.
#[derive(Clone)]
struct Found {
    run: &'static str,
    script: String,
}

/// The changed originals, as far as they are found.
struct Held {
    run: &'static str,
    found: Vec<Option<Found>>,
    scripts: u64,
}

impl Held {
    fn new() -> Self {
        Self { run: "", found: vec![None; MUTANTS.len()], scripts: 0 }
    }

    fn count(&self) -> usize {
        self.found.iter().flatten().count()
    }

    /// Asks all that are not found yet. `smallest` tells what one was found with. Answers whether one is left.
    fn ask(&mut self, differs: impl Fn(&Mutant) -> bool, smallest: impl Fn(&Mutant) -> String) -> bool {
        self.scripts += 1;
        for (mutant, found) in MUTANTS.iter().zip(&mut self.found) {
            if found.is_none() && differs(mutant) {
                *found = Some(Found { run: self.run, script: smallest(mutant) });
            }
        }
        self.found.iter().any(Option::is_none)
    }

    /// A script whose answer is known.
    fn answer(&mut self, script: &[u8], expected: &Lexed) -> bool {
        let Ok(text) = std::str::from_utf8(script) else { return true };
        let smallest = |mutant: &Mutant| {
            let least = shrink(script, SHRINKING, |less| differs_from_ours(mutant, less));
            format!("{:?}", String::from_utf8_lossy(&least))
        };
        self.ask(|mutant| differs(mutant, text, expected), smallest)
    }

    /// A script that the proved lexer answers; one that it refuses is passed over.
    fn script(&mut self, script: &[u8]) -> bool {
        ours(script).is_none_or(|(expected, _)| self.answer(script, &expected))
    }

    /// Calls of the readers.
    fn calls(&mut self, text: &str, calls: &[Call]) -> bool {
        let Some(expected) = our_answers(text, calls) else { return true };
        let smallest = |mutant: &Mutant| {
            let fewer = shrink(calls, SHRINKING, |fewer| differs_in_our_calls(mutant, text, fewer));
            let is_found = |less: &[u8]| std::str::from_utf8(less).is_ok_and(|less| differs_in_our_calls(mutant, less, &fewer));
            let least = shrink(text.as_bytes(), SHRINKING, is_found);
            let names: Vec<String> = fewer.iter().map(Call::to_string).collect();
            format!("{:?}: {}", String::from_utf8_lossy(&least), names.join(", "))
        };
        self.ask(|mutant| differs_in_calls(mutant, text, calls, &expected), smallest)
    }

    /// Takes in the scripts of a run.
    fn hold(&mut self, name: &'static str, scripts: Scripts) {
        let start = Instant::now();
        let before = self.count();
        (self.run, self.scripts) = (name, 0);
        scripts(self);
        let found = self.count() - before;
        let left = MUTANTS.len() - self.count();
        say!("{name}: {} scripts, {found} more found, {left} left, {} seconds", self.scripts, start.elapsed().as_secs());
    }

    /// Prints how each was found, and whether all are that can be.
    fn report(&self) -> bool {
        let width = MUTANTS.iter().map(|mutant| mutant.name.len()).max().unwrap_or(0);
        let (mut unshowable, mut wrong) = (0, 0);
        for (mutant, found) in MUTANTS.iter().zip(&self.found) {
            let name = mutant.name;
            match (found, mutant.unshowable) {
                (Some(Found { run, script }), None) => say!("{name:width$}  {run:10}  {script}"),
                (None, Some(reason)) => {
                    unshowable += 1;
                    say!("{name:width$}  {:10}  no script can show it: {reason}", "-");
                }
                (None, None) => {
                    wrong += 1;
                    say!("{name:width$}  NOT FOUND   {}", mutant.words);
                }
                (Some(Found { run, script }), Some(reason)) => {
                    wrong += 1;
                    say!("{name:width$}  {run:10}  {script}  SHOWN, although its file says: {reason}");
                }
            }
        }
        say!("mutants: {} changed originals, {} found, {unshowable} that no script can show", MUTANTS.len(), self.count());
        wrong == 0
    }
}

/// The scripts of the examples, as far as they are accepted.
fn archive(held: &mut Held) -> bool {
    let data = Path::new(concat!(env!("CARGO_MANIFEST_DIR"), "/../examples/data"));
    files::scripts(&[data]).expect("the examples are there").iter().all(|script| held.script(&script.bytes))
}

/// The runs of these names, in the gate's order; none where a name is unknown.
fn named(names: &OsStr) -> Option<Vec<(&'static str, Scripts)>> {
    let names: Vec<&str> = names.to_str()?.split(',').collect();
    let known = names.iter().all(|name| RUNS.iter().any(|run| run.0 == *name));
    known.then(|| RUNS.iter().copied().filter(|run| names.contains(&run.0)).collect())
}

pub fn run(names: Option<&OsStr>) -> Status {
    let Some(runs) = names.map_or(Some(RUNS.to_vec()), named) else {
        let known: Vec<&str> = RUNS.iter().map(|run| run.0).collect();
        message!("mutants: a run is not known; the runs are {}", known.join(", "));
        return Status::NotDone;
    };
    watch();
    let mut held = Held::new();
    for (name, scripts) in runs {
        held.hold(name, scripts);
    }
    held.report().into()
}
