//! The speed of the print, beside tokenising the same scripts with the largest buffers in the same run.
use super::{best, mean, nanoseconds, one_string_of_interpolations, speed, timed, total, worst_cases, Buffers, Kind, REALISTIC};
use crate::check::{largest, LIMIT};
use crate::host;
use crate::prints::room;
use crate::say::say;
use crate::scripts::cut;
use std::cell::RefCell;
use std::hint::black_box;

/// Prints scripts one after the other, each into so many bytes of the buffer.
fn print(scripts: &[String], sizes: &[usize], buffer: &mut [u8]) {
    for (script, size) in scripts.iter().zip(sizes) {
        black_box(host::print(black_box(script.as_bytes()), &mut buffer[..*size]).expect("the script is printed"));
    }
}

/// The seconds of one run over scripts, by what is done: printing into the largest buffer and into one that fits, and tokenising.
struct Row {
    name: String,
    bytes: usize,
    largest: f64,
    fitting: f64,
    tokenize: f64,
}

impl Row {
    fn ratios(&self) -> [f64; 2] {
        [self.tokenize / self.largest, self.tokenize / self.fitting]
    }

    fn tell(&self) {
        let print = [self.largest, self.fitting];
        for ((buffer, ratio), print) in ["largest", "exact"].iter().zip(self.ratios()).zip(print) {
            say!(
                "{:<38} {:>8}  {buffer:<8} {:>13.1} {:>10.1} {ratio:>7.2} {:>8.2}",
                self.name,
                self.bytes,
                speed(self.bytes, self.tokenize),
                speed(self.bytes, print),
                nanoseconds(self.bytes, print)
            );
        }
    }
}

/// The buffers of both calls, allocated once and never cleared.
pub struct Both<'a> {
    tokenize: &'a mut Buffers,
    print: RefCell<Vec<u8>>,
}

impl<'a> Both<'a> {
    pub fn new(tokenize: &'a mut Buffers) -> Self {
        Self { tokenize, print: RefCell::new(vec![0; room(LIMIT)]) }
    }

    /// Times scripts without errors, one after the other, as one row.
    fn row(&mut self, name: String, scripts: &[String]) -> Row {
        let most: Vec<usize> = scripts.iter().map(|script| room(script.len())).collect();
        let needed = |script: &String| host::print(script.as_bytes(), &mut self.print.borrow_mut()).expect("the script is printed");
        let exact: Vec<usize> = scripts.iter().map(needed).collect();
        let all: Vec<[usize; 3]> = scripts.iter().map(|script| largest(script.len())).collect();
        let into = |sizes: &[usize], runs| timed(runs, || print(scripts, sizes, &mut self.print.borrow_mut()));
        let [largest, fitting, tokenize] =
            best([&mut |runs| into(&most, runs), &mut |runs| into(&exact, runs), &mut |runs| self.tokenize.time(scripts, &all, runs)]);
        Row { name, bytes: total(scripts), largest, fitting, tokenize }
    }

    /// The scripts of a kind, which have no errors, and the ratios over its sizes.
    pub fn realistic(&mut self, kind: &Kind) {
        let title = format!("the print of {} scripts", kind.name);
        say!("\n{title:<38} {:>8}  {:<8} {:>13} {:>10} {:>7} {:>8}", "bytes", "buffer", "tokenise MB/s", "print MB/s", "ratio", "ns/byte");
        let rows: Vec<Row> = kind.rows().map(|(name, scripts)| self.row(name, &scripts)).collect();
        rows.iter().for_each(Row::tell);
        let [most, exact] = [0, 1].map(|i| mean(rows.iter().map(|row| row.ratios()[i])));
        say!("ratio to tokenising with the largest buffers: {most:.2} largest, {exact:.2} exactly fitting");
    }

    /// Each worst case without errors at two sizes: where the time a byte stays, the time grows with the size and no faster.
    pub fn worst(&mut self) {
        let [(small_name, small), (large_name, large)] = [REALISTIC[1], REALISTIC[2]];
        say!(
            "\n{:<38} {:>14} {:>14} {:>7} {:>7}",
            "the print of worst cases",
            format!("{small_name} ns/byte"),
            format!("{large_name} ns/byte"),
            "growth",
            "ratio"
        );
        let mut left_out = Vec::new();
        for ((name, short), (_, long)) in cases(small).into_iter().zip(cases(large)) {
            if [&short, &long].iter().any(|script| has_errors(script)) {
                left_out.push(name);
                continue;
            }
            let [short, long] = [short, long].map(|script| self.row(name.clone(), &[script]));
            let each = [&short, &long].map(|row| nanoseconds(row.bytes, row.largest));
            say!("{name:<38} {:>14.2} {:>14.2} {:>7.2} {:>7.2}", each[0], each[1], each[1] / each[0], long.ratios()[0]);
        }
        say!("left out because a script with an error is not printed: {}", left_out.join("; "));
    }
}

/// The worst cases of a size.
fn cases(size: usize) -> Vec<(String, String)> {
    let all = worst_cases(size).into_iter().map(|(name, script)| (name, cut(script, size)));
    let [interpolations] = one_string_of_interpolations(size);
    all.chain([("one string of interpolations".to_string(), interpolations)]).collect()
}

fn has_errors(script: &str) -> bool {
    host::measure(script.as_bytes()).expect("the script is accepted").errors > 0
}
