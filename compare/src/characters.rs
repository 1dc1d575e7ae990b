//! Characters against Rust's standard library: the first bad sequence and its class, the byte-order mark, white space, encoding.
use crate::host::{self, Refusal, Used};
use crate::question2;
use crate::say::say;

fn hex(bytes: &[u8]) -> String {
    bytes.iter().map(|b| format!("{b:02X}")).collect::<Vec<_>>().join(" ")
}

/// Counts comparisons and keeps the first difference.
#[derive(Default)]
struct Tally {
    done: u64,
    cut: u64,
    barred: u64,
    other: u64,
    difference: Option<String>,
}

/// The number and the figure of a refusal.
fn refused(answer: Result<Used, Refusal>) -> Option<(u64, u64)> {
    answer.err().map(|refusal| (refusal.number(), refusal.figure))
}

/// Tokenising into empty buffers, which a text that is not UTF-8 does not come to.
fn tokenize(text: &[u8]) -> Result<Used, Refusal> {
    host::tokenize(text, &mut [], &mut [], &mut [])
}

impl Tally {
    fn check(&mut self, same: bool, what: impl FnOnce() -> String) -> bool {
        self.done += 1;
        if !same && self.difference.is_none() {
            self.difference = Some(what());
        }
        self.difference.is_none()
    }

    /// Question 2, by each call that asks it.
    fn text(&mut self, text: &[u8]) -> bool {
        let theirs = question2::refusal(text);
        let ours = [Some(host::first_bad(text)), Some(refused(host::measure(text))), theirs.map(|_| refused(tokenize(text)))];
        self.count(theirs);
        self.check(ours.into_iter().flatten().all(|answer| answer == theirs), || {
            let text = hex(&text[..text.len().min(64)]);
            format!("first bad sequence of {text}: proved {ours:?} (check, measure, tokenise), Rust and order 1 {theirs:?}")
        })
    }

    fn count(&mut self, theirs: Option<(u64, u64)>) {
        match theirs {
            Some((9, _)) => self.cut += 1,
            Some((10, _)) => self.barred += 1,
            Some(_) => self.other += 1,
            None => {}
        }
    }

    /// How many texts were of each class.
    fn classes(&self) -> String {
        match (self.cut, self.barred, self.other) {
            (0, 0, 0) => String::new(),
            (cut, barred, other) => format!(" ({cut} cut, {barred} barred, {other} bad otherwise)"),
        }
    }

    fn report(self, name: &str) -> bool {
        match self.difference {
            None => {
                say!("{name}: {} compared, equal{}", self.done, self.classes());
                true
            }
            Some(text) => {
                say!("{name}: DIFFERENT: {text}");
                false
            }
        }
    }
}

/// Every byte string of up to three bytes.
fn short_texts() -> Tally {
    let mut tally = Tally::default();
    tally.text(&[]);
    for length in 1..=3u32 {
        for n in 0..1u32 << (8 * length) {
            let b = n.to_be_bytes();
            if !tally.text(&b[4 - length as usize..]) {
                return tally;
            }
        }
    }
    tally
}

/// The bytes on both sides of each bound in RFC 3629's grammar.
const BOUNDS: [u8; 38] = [
    0x00, 0x01, 0x41, 0x7E, 0x7F, 0x80, 0x81, 0x8E, 0x8F, 0x90, 0x91, 0x9E, 0x9F, 0xA0, 0xA1, 0xBE, 0xBF, 0xC0, 0xC1, 0xC2, 0xC3, 0xDE,
    0xDF, 0xE0, 0xE1, 0xEC, 0xED, 0xEE, 0xEF, 0xF0, 0xF1, 0xF3, 0xF4, 0xF5, 0xF7, 0xF8, 0xFE, 0xFF,
];

/// All four-byte strings over the boundary values.
fn four_byte_texts() -> Tally {
    let mut tally = Tally::default();
    for a in BOUNDS {
        for b in BOUNDS {
            for c in BOUNDS {
                for d in BOUNDS {
                    if !tally.text(&[a, b, c, d]) {
                        return tally;
                    }
                }
            }
        }
    }
    tally
}

/// Long texts with each byte damaged in turn.
fn damaged_texts() -> Tally {
    let mut tally = Tally::default();
    let mut text = Vec::new();
    for (i, c) in "aé\u{7FF}\u{800}€\u{FFFD}\u{FEFF}\u{10000}🪦\u{10FFFF}\n\"$".chars().cycle().take(700).enumerate() {
        let mut room = [0; 4];
        text.extend_from_slice(c.encode_utf8(&mut room).as_bytes());
        if i % 50 == 0 {
            text.extend_from_slice(b"plain ASCII text of a length that is no multiple of eight");
        }
    }
    if !tally.text(&text) {
        return tally;
    }
    for place in 0..text.len() {
        for damage in BOUNDS {
            let kept = std::mem::replace(&mut text[place], damage);
            if !tally.text(&text) {
                return tally;
            }
            text[place] = kept;
        }
        if !tally.text(&text[..place]) || !tally.text(&text[place..]) {
            return tally;
        }
    }
    tally
}

fn marks() -> Tally {
    let mut tally = Tally::default();
    let near = [0x00, 0xBA, 0xBB, 0xBC, 0xBE, 0xBF, 0xC0, 0xEE, 0xEF, 0xF0];
    for a in near {
        for b in near {
            for c in near {
                for length in 0..=4 {
                    let text = &[a, b, c, 0xEF][..length];
                    let ours = host::mark_length(text);
                    let theirs = if text.starts_with("\u{FEFF}".as_bytes()) { 3 } else { 0 };
                    tally.check(ours == theirs, || format!("mark of {}: proved {ours}, Rust {theirs}", hex(text)));
                }
            }
        }
    }
    tally
}

fn white_space() -> Tally {
    let mut tally = Tally::default();
    for code in (0..=0x11_0100).chain([0x8000_0009, u32::MAX]) {
        let ours = host::is_white(code);
        let theirs = char::from_u32(code).is_some_and(char::is_whitespace);
        tally.check(ours == theirs, || format!("white space U+{code:04X}: proved {ours}, Rust {theirs}"));
    }
    tally
}

/// Each code point is written between guard bytes, at the end of a buffer, and where it does not fit.
fn encodings() -> Tally {
    let mut tally = Tally::default();
    for code in (0..=0x11_0100).chain([0x8000_0041, u32::MAX]) {
        let mut room = [0; 4];
        let theirs: &[u8] = match char::from_u32(code) {
            Some(c) => c.encode_utf8(&mut room).as_bytes(),
            None => &[],
        };
        for (size, at) in [(9, 2), (2 + theirs.len(), 2), (1 + theirs.len(), 2), (0, 0), (9, 9), (9, u64::MAX)] {
            let fits = !theirs.is_empty() && at as usize <= size && theirs.len() <= size - at as usize;
            let mut buffer = vec![0xEE; size];
            let mut expected = buffer.clone();
            if fits {
                expected[at as usize..at as usize + theirs.len()].copy_from_slice(theirs);
            }
            let written = host::encode_char(code, &mut buffer, at);
            let same = written == if fits { theirs.len() as u64 } else { 0 } && buffer == expected;
            if !tally.check(same, || format!("encoding U+{code:04X} at {at} of {size}: {written}, {}", hex(&buffer))) {
                return tally;
            }
        }
    }
    tally
}

pub fn run() -> bool {
    let results = [
        short_texts().report("texts of up to three bytes"),
        four_byte_texts().report("texts of four boundary bytes"),
        damaged_texts().report("long texts, damaged at every place"),
        marks().report("byte-order marks"),
        white_space().report("white space"),
        encodings().report("encodings"),
    ];
    results.iter().all(|&passed| passed)
}
