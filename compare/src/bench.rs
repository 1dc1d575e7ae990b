//! The speed of the original and of the proved lexer, in one run on the same inputs. Speed is told, never tested.
mod prints;

use crate::check::{self, largest};
use crate::files;
use crate::host;
use crate::imports;
use crate::lexer::Lexer;
use crate::mixed;
use crate::say::{message, say, Status};
use crate::scripts::{self, Make};
use std::hint::black_box;
use std::path::Path;
use std::time::{Duration, Instant};

const SEED: u64 = 1;
const REALISTIC: [(&str, usize); 3] = [("1 kB", 1_000), ("32 kB", 32_000), ("1 MB", 1_000_000)];
const TIMINGS: u32 = 15;
const LEAST_TIMINGS: u32 = 3;
/// One timing repeats the work until it takes about so long.
const TIMING: f64 = 0.005;
/// A row ends after so long, once it has the least number of timings.
const ROW: Duration = Duration::from_secs(2);

/// A kind of scripts: what makes one from a seed and a size, and how many different ones of each size are timed together, one after
/// the other, so that a processor does not learn them by heart.
struct Kind {
    name: &'static str,
    script: Make,
    different: [u64; 3],
}

const KINDS: [Kind; 2] = [
    Kind { name: "import", script: imports::script, different: [1, 1, 1] },
    Kind { name: "mixed", script: mixed::script, different: [64, 16, 4] },
];

impl Kind {
    /// The scripts of each size, and the name of their row.
    fn rows(&self) -> impl Iterator<Item = (String, Vec<String>)> + '_ {
        REALISTIC.iter().zip(self.different).map(|((size_name, size), different)| {
            let scripts = (SEED..SEED + different).map(|seed| (self.script)(seed, *size)).collect();
            (format!("{} scripts, {different} of {size_name}", self.name), scripts)
        })
    }
}

/// The bytes of all scripts.
fn total(scripts: &[String]) -> usize {
    scripts.iter().map(String::len).sum()
}

/// Does the work so many times and answers the seconds of all.
type Work<'a> = &'a mut dyn FnMut(u32) -> f64;

fn repetitions(work: Work) -> u32 {
    let mut runs = 1;
    work(runs);
    for _ in 0..3 {
        let one = work(runs) / f64::from(runs);
        runs = (TIMING / one.max(1e-9)).ceil().clamp(1.0, 1e6) as u32;
    }
    runs
}

/// The least seconds of one run of each work; the works take turns.
fn best<const N: usize>(mut works: [Work; N]) -> [f64; N] {
    let runs = works.each_mut().map(|work| repetitions(work));
    let mut least = [f64::MAX; N];
    let start = Instant::now();
    for timing in 0..TIMINGS {
        if timing >= LEAST_TIMINGS && start.elapsed() > ROW {
            break;
        }
        for i in 0..N {
            least[i] = least[i].min(works[i](runs[i]) / f64::from(runs[i]));
        }
    }
    least
}

/// The seconds of a work without anything to be dropped.
fn timed<T>(runs: u32, mut work: impl FnMut() -> T) -> f64 {
    let start = Instant::now();
    for _ in 0..runs {
        black_box(work());
    }
    start.elapsed().as_secs_f64()
}

/// The original over scripts; its answers are dropped outside the timing.
fn original(scripts: &[String], runs: u32) -> f64 {
    let mut spent = Duration::ZERO;
    for source in (0..runs).flat_map(|_| scripts) {
        let start = Instant::now();
        let mut lexer = Lexer::new(black_box(source));
        let tokens = black_box(lexer.tokenize());
        spent += start.elapsed();
        drop((lexer, tokens));
    }
    spent.as_secs_f64()
}

/// The buffers, allocated once and never cleared.
struct Buffers([Vec<u8>; 3]);

/// The bytes that a script uses of each buffer.
fn fitting(script: &[u8]) -> [usize; 3] {
    let used = host::measure(script).expect("the script is accepted");
    [used.tokens, used.texts, used.errors]
}

impl Buffers {
    fn new(n: usize) -> Self {
        Self(largest(n).map(|size| vec![0; size]))
    }

    fn tokenize(&mut self, script: &[u8], sizes: [usize; 3]) -> host::Used {
        let [tokens, texts, errors] = &mut self.0;
        let [a, b, c] = sizes;
        host::tokenize(black_box(script), &mut tokens[..a], &mut texts[..b], &mut errors[..c]).expect("the buffers are large enough")
    }

    /// The seconds over scripts, each with its sizes of the buffers.
    fn time(&mut self, scripts: &[String], sizes: &[[usize; 3]], runs: u32) -> f64 {
        timed(runs, || {
            for (script, sizes) in scripts.iter().zip(sizes) {
                black_box(self.tokenize(script.as_bytes(), *sizes));
            }
        })
    }
}

/// The seconds of one run over an input: a script, or several one after the other.
struct Row {
    name: String,
    bytes: usize,
    original: f64,
    largest: f64,
    fitting: f64,
}

fn speed(bytes: usize, seconds: f64) -> f64 {
    bytes as f64 / seconds / 1e6
}

fn nanoseconds(bytes: usize, seconds: f64) -> f64 {
    seconds * 1e9 / bytes as f64
}

fn heading(title: &str) {
    say!("\n{title:<38} {:>8}  {:<8} {:>13} {:>10} {:>7} {:>8}", "bytes", "buffers", "original MB/s", "ours MB/s", "ratio", "ns/byte");
}

impl Row {
    fn ratios(&self) -> [(&'static str, f64); 2] {
        [("largest", self.original / self.largest), ("exact", self.original / self.fitting)]
    }

    fn print(&self) {
        for ((buffers, ratio), ours) in self.ratios().into_iter().zip([self.largest, self.fitting]) {
            say!(
                "{:<38} {:>8}  {buffers:<8} {:>13.1} {:>10.1} {ratio:>7.2} {:>8.2}",
                self.name,
                self.bytes,
                speed(self.bytes, self.original),
                speed(self.bytes, ours),
                nanoseconds(self.bytes, ours)
            );
        }
    }
}

/// Times scripts, one after the other, as one row.
fn row(name: String, scripts: &[String], buffers: &mut Buffers) -> Row {
    let exact: Vec<[usize; 3]> = scripts.iter().map(|script| fitting(script.as_bytes())).collect();
    let most: Vec<[usize; 3]> = scripts.iter().map(|script| largest(script.len())).collect();
    for (script, sizes) in scripts.iter().zip(&most) {
        let count = buffers.tokenize(script.as_bytes(), *sizes).count;
        assert_eq!(count, Lexer::new(script).tokenize().len(), "both find as many tokens");
    }
    let cell = std::cell::RefCell::new(buffers);
    let [original, largest, fitting] =
        best([&mut |runs| original(scripts, runs), &mut |runs| cell.borrow_mut().time(scripts, &most, runs), &mut |runs| {
            cell.borrow_mut().time(scripts, &exact, runs)
        }]);
    let row = Row { name, bytes: total(scripts), original, largest, fitting };
    row.print();
    row
}

fn realistic(kind: &Kind, buffers: &mut Buffers) -> Vec<Row> {
    heading(&format!("{} scripts", kind.name));
    kind.rows().map(|(name, scripts)| row(name, &scripts, buffers)).collect()
}

/// A part that is repeated up to a size.
const REPEATED: [(&str, &str); 34] = [
    ("marks, mixed", "{}[](),;:.?@#^+-*%<>=!|& "),
    ("marks, one byte each", ","),
    ("marks, two and three bytes", ">>>...->=>==!=&&||??::<<+="),
    ("strings with escapes", "\"\\n\\t\\\\\\\"\\u00e9\\r\\0\"\n"),
    ("strings with bad escapes", "\"\\q\\x\\u12\"\n"),
    ("strings, empty", "\"\" "),
    ("strings, left open", "\"\n"),
    ("raw strings", "\"\"\"a \\n $b \"c\" \"\" d\n\"\"\"\n"),
    ("characters", "'a' '\\n' '\\u0041' "),
    ("comments, line", "// the stone is broken\n"),
    ("comments, line, empty", "//\n"),
    ("comments, block", "/* the stone * is / broken */\n"),
    ("comments, block, empty", "/**/"),
    ("doc comments, line", "/// the stone is broken\n"),
    ("doc comments, line, empty", "///\n"),
    ("doc comments, block", "/**\n * the stone\n * is broken\n */\n"),
    ("doc comments, block, short", "/***/"),
    ("names, one character", "a b c d e f "),
    ("names", "burial register sexton churchyard "),
    ("keywords", "val interface protected typealias in continue "),
    ("numbers", "1 42 1900 0xFF 0b101 1.5f 2e10 1_000L "),
    ("digits, one each", "1 2 3 4 5 "),
    ("interpolation, names", "\"$a-$b-$c-$d-$e-$f-$g-$h-$a-$b-$c-$d\"\n"),
    ("interpolation, mixed", "\"$a${b}$c ${d.e(f)}${g + 1} and ${h}\"\n"),
    ("interpolation, braces", "\"${a}${b}${c}${d}${e}${f}${g}${h}\"\n"),
    ("interpolation, nested", "\"${${${${${${a}}}}}}\"\n"),
    ("interpolation, not closed", "\"${ a + \n"),
    ("dollars outside strings", "$a ${b} $ $c "),
    ("non-ASCII alone", "éöü€🪦"),
    ("non-ASCII in strings", "\"Lefèvre Øster żółw €🪦\"\n"),
    ("non-ASCII in comments", "// Lefèvre Øster żółw €🪦\n"),
    ("white space, ASCII", "  \t \r\n    \n"),
    ("white space, non-ASCII", "\u{A0}\u{2028}\u{3000}\u{85}"),
    ("characters that begin nothing", "~`\\\u{7F}"),
];

/// One token or comment as long as the script: what begins it, what is repeated, what ends it.
const LONG: [(&str, &str, &str, &str); 15] = [
    ("one string", "\"", "a stone ", "\""),
    ("one string of non-ASCII", "\"", "é€🪦", "\""),
    ("one string of escapes", "\"", "\\n", "\""),
    ("one raw string", "\"\"\"", "a stone\n", "\"\"\""),
    ("one raw string of quotes", "\"\"\"", "\"\"a", "\"\"\""),
    ("one interpolation", "\"${", "a + ", "}\""),
    ("one name", "n", "ame", "\n"),
    ("one number", "1", "0", "\n"),
    ("one line comment", "//", "a stone ", "\n"),
    ("one block comment", "/*", "a stone *\n", "*/"),
    ("one doc line", "///", "a stone ", "\n"),
    ("one doc line of spaces", "/// a", " ", "b\n"),
    ("one doc block", "/**", " * a stone\n", "*/"),
    ("one doc block of line feeds", "/** a", "\n", "*/"),
    ("one doc block of stars", "/** a\n", "*", " */"),
];

fn repeated(part: &str, size: usize) -> String {
    part.repeat((size / part.len()).max(1))
}

fn worst_cases(size: usize) -> Vec<(String, String)> {
    let all = REPEATED.iter().map(|(name, part)| (name.to_string(), repeated(part, size)));
    let long = LONG.iter().map(|(name, start, part, end)| {
        let middle = repeated(part, size - start.len() - end.len());
        (name.to_string(), format!("{start}{middle}{end}"))
    });
    all.chain(long).collect()
}

fn one_string_of_interpolations(size: usize) -> [String; 1] {
    [format!("\"{}\"", repeated("${a}", size - 2))]
}

/// The original takes from the front of a list for every token of a string, so that its time grows with the square of the size
/// there: it is timed on small sizes only.
fn quadratic(buffers: &mut Buffers) -> Vec<Row> {
    heading("one string of interpolations");
    let sizes = [("1 kB", 1_000), ("4 kB", 4_000), ("16 kB", 16_000)];
    let rows = sizes.map(|(name, size)| row(format!("one string of interpolations {name}"), &one_string_of_interpolations(size), buffers));
    let script = one_string_of_interpolations(1_000_000);
    let n = total(&script);
    let [seconds] = best([&mut |runs| buffers.time(&script, &[largest(n)], runs)]);
    say!("ours alone on 1 MB of it, largest: {:.1} MB/s, {:.2} ns/byte", speed(n, seconds), nanoseconds(n, seconds));
    rows.into()
}

fn worst(buffers: &mut Buffers) -> Vec<Row> {
    let mut rows = Vec::new();
    for (size_name, size) in &REALISTIC[1..] {
        heading(&format!("worst cases, {size_name}"));
        for (name, script) in worst_cases(*size) {
            rows.push(row(format!("{name} {size_name}"), &[scripts::cut(script, *size)], buffers));
        }
    }
    rows.extend(quadratic(buffers));
    rows
}

/// The scripts at places that both lexers take. An error says why there is none to time.
fn accepted(places: &[&Path]) -> Result<Vec<String>, String> {
    let all = files::scripts(places)?;
    let count = all.len();
    let accepted = all.into_iter().filter(|script| host::measure(&script.bytes).is_ok());
    let scripts: Vec<String> = accepted.map(|script| String::from_utf8(script.bytes).expect("it was accepted")).collect();
    if total(&scripts) == 0 {
        return Err("all files are refused or empty; name files or folders that hold scripts".to_string());
    }
    say!("archive: {count} files, {} left out because they are refused", count - scripts.len());
    Ok(scripts)
}

/// Every file as one script, the seconds summed.
fn archive(scripts: &[String], buffers: &mut Buffers) -> Option<Row> {
    if scripts.is_empty() {
        say!("\narchive: no file or folder was named");
        return None;
    }
    heading("archive");
    Some(row("archive".to_string(), scripts, buffers))
}

fn measure_alone() {
    say!("\n{:<38} {:>8} {:>10} {:>8}", "aura_measure alone", "bytes", "MB/s", "ns/byte");
    for (name, scripts) in KINDS.iter().flat_map(Kind::rows) {
        let measured = |script: &String| black_box(host::measure(black_box(script.as_bytes()))).is_ok();
        let [seconds] = best([&mut |runs| timed(runs, || scripts.iter().all(measured))]);
        let n = total(&scripts);
        say!("{name:<38} {n:>8} {:>10.1} {:>8.2}", speed(n, seconds), nanoseconds(n, seconds));
    }
}

fn check_row(name: &str, bytes: &[u8]) {
    let [rust, ours] = best([&mut |runs| timed(runs, || std::str::from_utf8(black_box(bytes)).is_ok()), &mut |runs| {
        timed(runs, || host::first_bad(black_box(bytes)))
    }]);
    let n = bytes.len();
    say!("{name:<38} {n:>8} {:>15.1} {:>10.1} {:>7.2} {:>8.3}", speed(n, rust), speed(n, ours), rust / ours, nanoseconds(n, ours));
}

/// The UTF-8 check alone, against the standard library's.
fn check_alone() {
    say!("\n{:<38} {:>8} {:>15} {:>10} {:>7} {:>8}", "the UTF-8 check alone", "bytes", "from_utf8 MB/s", "ours MB/s", "ratio", "ns/byte");
    for (name, size) in REALISTIC {
        check_row(&format!("import script {name}"), imports::script(SEED, size).as_bytes());
        check_row(&format!("mixed script {name}"), mixed::script(SEED, size).as_bytes());
    }
    for (name, size) in REALISTIC {
        check_row(&format!("ASCII {name}"), "a".repeat(size).as_bytes());
        check_row(&format!("two bytes each {name}"), "é".repeat(size / 2).as_bytes());
        check_row(&format!("two bytes each, cut short {name}"), &"é".repeat(size / 2).as_bytes()[..size - 1]);
        check_row(&format!("four bytes each {name}"), "🪦".repeat(size / 4).as_bytes());
    }
}

fn mean(ratios: impl Iterator<Item = f64>) -> f64 {
    let logs: Vec<f64> = ratios.map(f64::ln).collect();
    (logs.iter().sum::<f64>() / logs.len() as f64).exp()
}

/// Whether the time a byte stays level from 1 kB to 1 MB.
fn growth(kind: &Kind, rows: &[Row]) {
    say!("\nnanoseconds a byte at 1 kB, 32 kB and 1 MB of {} scripts:", kind.name);
    for (buffers, of) in [("largest", (|r| r.largest) as fn(&Row) -> f64), ("exact", |r| r.fitting)] {
        let each: Vec<f64> = rows.iter().map(|r| nanoseconds(r.bytes, of(r))).collect();
        let text: Vec<String> = each.iter().map(|n| format!("{n:.2}")).collect();
        say!("  {buffers:<8} {} (the last is {:.2} times the first)", text.join("  "), each[each.len() - 1] / each[0]);
    }
}

/// Which of a row's buffers make it slower than the original.
fn slower_by(row: &Row) -> Option<String> {
    let slow: Vec<&str> = row.ratios().into_iter().filter(|(_, ratio)| *ratio < 1.0).map(|(buffers, _)| buffers).collect();
    (!slow.is_empty()).then(|| format!("{} ({})", row.name, slow.join(", ")))
}

fn slower(rows: &[Row]) {
    let all = rows.iter().flat_map(|row| row.ratios().map(|(buffers, ratio)| (ratio, format!("{} ({buffers})", row.name))));
    if let Some((ratio, name)) = all.min_by(|a, b| a.0.total_cmp(&b.0)) {
        say!("worst ratio: {ratio:.2}, {name}");
    }
    let names: Vec<String> = rows.iter().filter_map(slower_by).collect();
    say!("slower than the original: {}", if names.is_empty() { "none".to_string() } else { names.join("; ") });
}

/// The rows behind the realistic ones.
fn others(scripts: &[String], buffers: &mut Buffers) -> Vec<Row> {
    let mut rows: Vec<Row> = archive(scripts, buffers).into_iter().collect();
    rows.extend(worst(buffers));
    measure_alone();
    check_alone();
    rows
}

/// How many times as fast as the original, over the sizes of a kind.
fn ratios(kind: &Kind, rows: &[Row]) {
    let most = mean(rows.iter().map(|r| r.original / r.largest));
    let exact = mean(rows.iter().map(|r| r.original / r.fitting));
    say!("ratio, {} scripts: {most:.2} largest, {exact:.2} exactly fitting", kind.name);
}

/// The print, beside tokenising. `short` times it on import scripts only.
fn prints(short: bool, buffers: &mut Buffers) {
    let mut both = prints::Both::new(buffers);
    KINDS.iter().filter(|kind| !short || kind.name == "import").for_each(|kind| both.realistic(kind));
    if !short {
        both.worst();
    }
}

/// What is timed, and how.
fn preface() {
    say!("best of up to {TIMINGS} timings of about {} ms or more, both sides in turn; MB/s are 1,000,000 bytes a second", TIMING * 1e3);
    say!("original: Lexer::new and tokenize with what they allocate; dropping the answer is left out");
    say!("ours: aura_tokenize over buffers allocated before; the buffers were not cleared first");
    say!("largest: buffers of 33 (n + 1), 2n + 2 and 29n bytes, for the print of 6n; exact: buffers of the bytes used");
    say!("import scripts: made from templates; mixed scripts: tokens drawn at random, different scripts one after the other");
}

/// `short` times the realistic scripts only, and the print of import scripts. Where places are named, the scripts there are timed, too.
pub fn run(short: bool, places: &[&Path]) -> Status {
    let named = match places {
        [] => Ok(Vec::new()),
        _ => accepted(places),
    };
    let scripts = match named {
        Ok(scripts) => scripts,
        Err(why) => {
            message!("bench: nothing was timed: {why}");
            return Status::NotDone;
        }
    };
    preface();
    let mut buffers = Buffers::new(check::LIMIT);
    let mut rows: Vec<Row> = KINDS.iter().flat_map(|kind| realistic(kind, &mut buffers)).collect();
    if !short {
        rows.extend(others(&scripts, &mut buffers));
    }
    prints(short, &mut buffers);
    let kinds = || KINDS.iter().zip(rows.chunks(REALISTIC.len()));
    kinds().for_each(|(kind, rows)| growth(kind, rows));
    slower(&rows);
    kinds().for_each(|(kind, rows)| ratios(kind, rows));
    Status::Passed
}
