//! Every mistake of every script of an archive, for the clerk.
use crate::excerpt;
use crate::mistakes::{mistakes, Mistake, Place, Places, OPEN};
use crate::words::{Asked, Options};
use crate::{cannot_read, say, Failure, Status};
use aura_lexer::{lex, mark_length, measure, ErrorKind, Lexed, Refusal, RefusalKind, LIMIT};
use aura_tools::files::{find, fits, Script};
use aura_tools::progress::Progress;
use aura_tools::visible;
use std::ffi::OsString;
use std::io::{self, BufWriter, StdoutLock, Write};

pub const HELP: &str = include_str!("../help/check.txt");

/// What was found in all scripts.
#[derive(Default)]
struct Tally {
    files: u64,
    bytes: u64,
    tokens: usize,
    faulty: u64,
    refused: u64,
    open: u64,
    mistakes: [u64; ErrorKind::ALL.len()],
    refusals: Vec<(RefusalKind, u64)>,
    passed_over: usize,
    unreadable: usize,
}

impl Tally {
    /// Counts a refusal; they stand in the order of their numbers.
    fn refuse(&mut self, kind: RefusalKind) {
        self.refused += 1;
        match self.refusals.binary_search_by_key(&kind.number(), |(known, _)| known.number()) {
            Ok(at) => self.refusals[at].1 += 1,
            Err(at) => self.refusals.insert(at, (kind, 1)),
        }
    }

    fn write(&self, out: &mut impl Write) -> io::Result<()> {
        let Tally { files, bytes, tokens, faulty, refused, open, .. } = self;
        let good = files - faulty - refused;
        writeln!(out, "files: {files}, without mistakes: {good}, with mistakes: {faulty}, refused: {refused}, open at their end: {open}")?;
        writeln!(out, "bytes: {bytes}, tokens: {tokens}, mistakes: {}", self.mistakes.iter().sum::<u64>())?;
        for (kind, count) in ErrorKind::ALL.iter().zip(self.mistakes).filter(|(_, count)| *count > 0) {
            writeln!(out, "  error {}: {count} ({})", kind.number(), kind.meaning())?;
        }
        for (kind, count) in &self.refusals {
            writeln!(out, "  refusal {}: {count} ({})", kind.number(), kind.meaning())?;
        }
        if self.passed_over + self.unreadable > 0 {
            writeln!(out, "not checked: {} that are no regular files, {} that cannot be read", self.passed_over, self.unreadable)?;
        }
        Ok(())
    }

    fn status(&self) -> Status {
        match self {
            Tally { faulty: 0, refused: 0, unreadable: 0, .. } => Status::Good,
            Tally { faulty: 0, refused: 0, .. } => Status::Unreadable,
            _ => Status::Refused,
        }
    }
}

struct Check {
    tally: Tally,
    out: BufWriter<StdoutLock<'static>>,
    progress: Progress,
    quiet: bool,
}

impl Check {
    fn start(quiet: bool) -> Self {
        Check { tally: Tally::default(), out: BufWriter::new(io::stdout().lock()), progress: Progress::start(), quiet }
    }

    /// What was told so far is written before the line that moves, so that the two do not mix.
    fn progress(&mut self, done: usize, of: usize) {
        let out = &mut self.out;
        self.progress.tick(|| {
            // If this fails the next write does, too, and is told.
            let _ = out.flush();
            format!("{done} of {of} files checked")
        });
    }

    fn passed_over(&mut self, name: &str, what: &str) {
        self.progress.clear();
        self.tally.passed_over += 1;
        if !self.quiet {
            say(&format!("passed over {name}: {what}"));
        }
    }

    fn unreadable(&mut self, name: &str, error: &io::Error) {
        self.progress.clear();
        self.tally.unreadable += 1;
        say(&cannot_read(name, error));
    }

    fn read(&mut self, name: &str, script: io::Result<Script>) -> io::Result<()> {
        match script {
            Ok(script) => self.script(name, &script),
            Err(error) => {
                self.unreadable(name, &error);
                Ok(())
            }
        }
    }

    /// The summary, and the status that it comes to. Nothing at all to check is no good end.
    fn end(mut self) -> Result<Status, Failure> {
        self.progress.clear();
        if self.tally.files == 0 {
            self.out.flush()?;
            return Err(Failure::Words("nothing was checked; name files, or folders that hold scripts whose names fit --only".to_string()));
        }
        self.tally.write(&mut self.out)?;
        self.out.flush()?;
        Ok(self.tally.status())
    }

    fn script(&mut self, name: &str, script: &Script) -> io::Result<()> {
        self.tally.files += 1;
        self.tally.bytes += script.length.unwrap_or(script.bytes.len() as u64);
        let used = match measure(&script.bytes) {
            Ok(used) => used,
            Err(refusal) => return self.refused(name, script, refusal),
        };
        self.tally.tokens += used.count;
        self.tally.faulty += u64::from(used.errors > 0);
        self.tally.open += u64::from(!used.closed);
        if used.errors == 0 && used.closed {
            return Ok(());
        }
        self.told(name, &lex(&script.bytes).expect("it was measured"))
    }

    fn refused(&mut self, name: &str, script: &Script, refusal: Refusal) -> io::Result<()> {
        self.tally.refuse(refusal.kind);
        if self.quiet {
            return Ok(());
        }
        self.progress.clear();
        let (at, line, offset) = refused_at(&script.bytes, refusal);
        writeln!(self.out, "{name}:{}:{}: {}", at.line, at.column, script.refusal(refusal))?;
        if refusal.kind != RefusalKind::Length {
            excerpt::write(&mut self.out, at.line, &line, offset, "")?;
        }
        Ok(())
    }

    /// The mistakes of an accepted script, and that it is open where no mistake says so.
    fn told(&mut self, name: &str, lexed: &Lexed) -> io::Result<()> {
        lexed.errors().for_each(|error| self.tally.mistakes[usize::from(error.kind.number()) - 1] += 1);
        if self.quiet {
            return Ok(());
        }
        self.progress.clear();
        let places = Places::new(lexed.source());
        let mut said_open = lexed.is_closed();
        for mistake in mistakes(lexed, &places) {
            said_open |= mistake.begun.is_some();
            self.mistake(name, &mistake, &places)?;
        }
        if !said_open {
            let end = places.at(lexed.source().trim_end().len());
            writeln!(self.out, "{name}:{}:{}: open: {OPEN}", end.line, end.column)?;
        }
        Ok(())
    }

    fn mistake(&mut self, name: &str, mistake: &Mistake, places: &Places) -> io::Result<()> {
        let at = mistake.at;
        writeln!(self.out, "{name}:{}:{}: {}", at.line, at.column, mistake.sentence())?;
        let mut line = |place: Place, note| excerpt::write(&mut self.out, place.line, places.line(place.line), places.in_line(place), note);
        line(at, "")?;
        match mistake.begun.filter(|begun| begun.line != at.line) {
            Some(begun) => line(begun, "begun here"),
            None => Ok(()),
        }
    }
}

/// Where a script is refused: the first bad sequence, or the first byte over the limit; with the line there as text, and the offset of
/// the place in it.
pub fn refused_at(bytes: &[u8], refusal: Refusal) -> (Place, String, usize) {
    let byte = match refusal.kind {
        RefusalKind::Length => LIMIT,
        _ => refusal.figure as usize,
    };
    let start = bytes[..byte].iter().rposition(|&b| b == b'\n').map_or(mark_length(bytes).min(byte), |feed| feed + 1);
    let end = bytes[byte..].iter().position(|&b| b == b'\n').map_or(bytes.len(), |feed| byte + feed);
    let before = String::from_utf8_lossy(&bytes[start..byte]).into_owned();
    let line = bytes[..byte].iter().filter(|&&b| b == b'\n').count() + 1;
    let place = Place { byte, line, column: before.chars().count() as u32 + 1 };
    (place, format!("{before}{}", String::from_utf8_lossy(&bytes[byte..end])), before.len())
}

/// `lex check FILE|FOLDER ..`
pub fn run(words: &[OsString]) -> Result<Status, Failure> {
    let asked = Asked::sort(words, Options { flags: &["--quiet"], values: &["--only"] })?;
    if asked.help() {
        return crate::print(HELP);
    }
    if asked.files.is_empty() {
        return Err(Failure::Words("check asks for the names of files or folders".to_string()));
    }
    let only = asked.value("--only");
    let (inputs, places): (Vec<_>, Vec<_>) = asked.files.iter().partition(|name| *name == "-");
    let found = find(&places, &|name| only.is_none_or(|pattern| fits(pattern, name)));
    let mut check = Check::start(asked.has("--quiet"));
    if !inputs.is_empty() {
        check.read("standard input", Script::read(io::stdin(), None))?;
    }
    for (done, file) in found.files.iter().enumerate() {
        check.progress(done, found.files.len());
        check.read(&visible::name(file), Script::open(file))?;
    }
    for (path, what) in &found.passed_over {
        check.passed_over(&visible::name(path), what);
    }
    for (path, error) in &found.unreadable {
        check.unreadable(&visible::name(path), error);
    }
    check.end()
}
