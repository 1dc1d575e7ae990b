//! Scripts to compare on: small, exhaustive, random, damaged and large ones. Every generator is seeded; it calls `each` with script after
//! script until that answers false, and answers whether all were taken.
#![cfg_attr(not(oracle), allow(dead_code))]

use crate::check::LIMIT;
use crate::imports;
use crate::list;

/// A small generator of numbers (xorshift), so that a seed names its scripts for ever.
pub struct Numbers(u64);

impl Numbers {
    pub fn new(seed: u64) -> Self {
        Self(seed.wrapping_mul(0x9E37_79B9_7F4A_7C15) | 1)
    }

    pub fn next(&mut self) -> u64 {
        self.0 ^= self.0 << 13;
        self.0 ^= self.0 >> 7;
        self.0 ^= self.0 << 17;
        self.0.wrapping_mul(0x2545_F491_4F6C_DD1D) >> 16
    }

    pub fn below(&mut self, n: usize) -> usize {
        (self.next() % n as u64) as usize
    }

    pub fn pick<'a>(&mut self, from: &[&'a str]) -> &'a str {
        from[self.below(from.len())]
    }
}

/// The symbols of the exhaustive runs.
pub const SYMBOLS: [&str; 22] =
    ["\"", "'", "\\", "$", "{", "}", "/", "*", "\n", "u", "0", "a", "x", ".", "é", "\u{FEFF}", "\u{2028}", "<", "=", " ", "D", "_"];

/// All scripts of exactly `depth` symbols.
pub fn all(depth: u32) -> impl Iterator<Item = String> {
    (0..(SYMBOLS.len() as u64).pow(depth)).map(move |mut n| {
        let mut script = String::new();
        for _ in 0..depth {
            script += SYMBOLS[(n % SYMBOLS.len() as u64) as usize];
            n /= SYMBOLS.len() as u64;
        }
        script
    })
}

/// What random scripts are made of: pieces in which the rules meet, and then the tables in which no row may be missing.
#[rustfmt::skip]
const PARTS: [&str; 76] = [
    "\"", "\"", "\"\"\"", "'", "\\", "\\u", "\\uD800", "\\u0041", "\\u00e", "\\n", "\\q", "\\\"", "\\\\", "$", "$$", "$a", "${", "}", "{",
    "$_x", "${a\nb}", "/", "//", "///", "/*", "*/", "/**", "/**/", "/***/", "*", " * ", "\n", "\n", "\r\n", " ", "\t", "\u{85}", "\u{A0}",
    "\u{2028}", "\u{3000}", "\u{FEFF}", "é", "€", "🪦", "a", "ab", "val", "interface", "Unit", "true", "x1_$", "0", "0x", "0xFf", "0b",
    "0b10", "1_0", "1.5", "1.", "1..2", "1e", "1e+5", "2f", "3L", "0X1G", "<", "<<", "<<<", ">>>", "...", ":=", "::", "->", "?", "\0",
    "\u{7F}",
];
const ESCAPES: [&str; 22] = [
    "\\t", "\\r", "\\b", "\\f", "\\v", "\\0", "\\/", "\\'", "\\\n", "\\é", "\\u0000", "\\u007F", "\\u0080", "\\u07ff", "\\u0800",
    "\\uD7FF", "\\uDBFF", "\\udc00", "\\uDFFF", "\\ue000", "\\uFEFF", "\\uFFFF",
];
const NUMBERS: [&str; 22] = [
    "9", "00", "1_", "1E5", "1E", "1e-", "1E+", "1.5E-2", "2.5e3", "0Xab", "0B01", "0b2", "L", "l", "f", "F", "d", "D", "u", "U", "e", "E",
];
/// The White_Space characters.
pub const WHITE: [&str; 25] = [
    "\t", "\n", "\u{B}", "\u{C}", "\r", " ", "\u{85}", "\u{A0}", "\u{1680}", "\u{2000}", "\u{2001}", "\u{2002}", "\u{2003}", "\u{2004}",
    "\u{2005}", "\u{2006}", "\u{2007}", "\u{2008}", "\u{2009}", "\u{200A}", "\u{2028}", "\u{2029}", "\u{202F}", "\u{205F}", "\u{3000}",
];
/// The marks, alone and in the tokens that they make.
const MARKS: [&str; 52] = [
    "(", ")", "{", "}", "[", "]", ",", ";", ":", ".", "?", "@", "#", "|", "&", "^", "+", "-", "*", "/", "=", "!", "<", ">", "%", "`", "~",
    "++", "--", "+=", "-=", "*=", "/=", "%=", "==", "!=", "<=", ">=", "&&", "||", "<<", ">>", ">>>", "!!", "->", "=>", "::", ":=", "..",
    "...", "??", "*/",
];

/// One part: more than half of them from the pieces, the others from the tables.
fn part(numbers: &mut Numbers) -> &'static str {
    match numbers.below(9) {
        0 => numbers.pick(&ESCAPES),
        1 => numbers.pick(&NUMBERS),
        2 => numbers.pick(&WHITE),
        3 => numbers.pick(&MARKS),
        _ => numbers.pick(&PARTS),
    }
}

/// One random script.
pub fn drawn(numbers: &mut Numbers) -> String {
    let length = 1 + numbers.below(24);
    (0..length).map(|_| part(numbers)).collect()
}

/// A script of bytes damaged in one of several ways: cut, changed, or with a mark in front.
pub fn damaged(numbers: &mut Numbers, script: &[u8]) -> Vec<u8> {
    let mut bytes = script.to_vec();
    match numbers.below(4) {
        0 => bytes.truncate(numbers.below(bytes.len() + 1)),
        1 if !bytes.is_empty() => {
            let at = numbers.below(bytes.len());
            bytes[at] = numbers.next() as u8;
        }
        2 => {
            let at = numbers.below(bytes.len() + 1);
            let part = part(numbers);
            bytes.splice(at..at, part.bytes());
        }
        _ => {
            bytes.splice(0..0, "\u{FEFF}".bytes());
        }
    }
    bytes
}

/// Cuts a text to at most so many bytes, at a character.
pub fn cut(mut script: String, size: usize) -> String {
    let mut at = size.min(script.len());
    while !script.is_char_boundary(at) {
        at -= 1;
    }
    script.truncate(at);
    script
}

/// Document 01's rows that are no M rows, and corner cases, each without and with a byte-order mark.
pub fn table(each: &mut dyn FnMut(&[u8]) -> bool) -> bool {
    list::SMALL.iter().all(|script| ["", "\u{FEFF}"].iter().all(|mark| each(format!("{mark}{script}").as_bytes())))
}

/// Every script of up to `depth` symbols.
pub fn exhaustive(depth: u32, each: &mut dyn FnMut(&[u8]) -> bool) -> bool {
    (0..=depth).all(|d| all(d).all(|script| each(script.as_bytes())))
}

pub fn random(seed: u64, count: u64, each: &mut dyn FnMut(&[u8]) -> bool) -> bool {
    let mut numbers = Numbers::new(seed);
    (0..count).all(|_| each(drawn(&mut numbers).as_bytes()))
}

/// The beginnings and `count` damaged copies of each text, once and twice damaged; of a made script where there is no text.
pub fn mutate(seed: u64, count: u64, texts: &[Vec<u8>], each: &mut dyn FnMut(&[u8]) -> bool) -> bool {
    const BEGINNINGS: usize = 4_000;
    const MADE: usize = 2_000;
    let mut numbers = Numbers::new(seed);
    let made = [imports::script(seed, MADE).into_bytes()];
    let texts = if texts.is_empty() { &made } else { texts };
    texts.iter().all(|text| {
        (0..=text.len().min(BEGINNINGS)).all(|at| each(&text[..at]))
            && (0..count).all(|_| {
                let once = damaged(&mut numbers, text);
                let twice = damaged(&mut numbers, &once);
                each(&once) && each(&twice)
            })
    })
}

/// Scripts up to the limit and one byte more.
pub fn large(seed: u64, each: &mut dyn FnMut(&[u8]) -> bool) -> bool {
    let mut texts = vec![" ".repeat(LIMIT), " ".repeat(LIMIT + 1), "\u{FEFF}".to_string() + &" ".repeat(LIMIT - 3)];
    for part in ["\n", "a ", "\"$a\"", "'", "${", "\\", "/*", "é", "\"\\q\"", "+", "\"\"\"", "///\n", "/**\n*", "\0", "\"\\u\n"] {
        texts.push(cut(part.repeat(LIMIT / part.len() + 1), LIMIT));
        texts.push(cut("\"".to_string() + &part.repeat(LIMIT / part.len()), LIMIT));
    }
    for size in [1_000, 32_000, LIMIT] {
        texts.push(cut(imports::script(seed, size + 4_000), size));
    }
    texts.iter().all(|text| each(text.as_bytes()))
}

/// Endings for scripts up to the limit: every way to be open first, then closed ones.
#[rustfmt::skip]
pub const ENDINGS: [&str; 46] = [
    "/*", "/* a", "/* *", "/**", "/** a", "/** *", "\"\"\"", "\"\"\"a", "\"\"\"a\"\"", "\"", "\"a", "\"\\", "\"\\u00", "\"$", "\"$a",
    "\"${", "\"${a", "${", "${a", "'", "'\\", "", "a", "1", "1e", "0x", "<", "..", "/", "$", "\\", "é", "\n", "\"\"", "\"a\"",
    "\"\"\"a\"\"\"", "${a}", "'a'", "'a", "'\\n", "'\\u00", "// a", "///", "/* */", "/**/", "/** a */",
];
/// What fills a script before its ending: a beginning, a character that is repeated, an end. Spaces, a comment's text, and spaces
/// behind a byte-order mark.
pub const PADDINGS: [[&str; 3]; 3] = [["", " ", ""], ["//", "a", "\n"], ["\u{FEFF}", " ", ""]];

/// A script of exactly so many bytes with a padding and an ending.
pub fn padded([begin, fill, end]: [&str; 3], ending: &str, size: usize) -> String {
    let count = size - begin.len() - end.len() - ending.len();
    [begin, &fill.repeat(count), end, ending].concat()
}

/// What makes a script from a seed and a size.
pub type Make = fn(u64, usize) -> String;

/// A script of at most so many bytes: parts are added while they fit. `next` makes a part from what stands before it.
pub fn filled(mut script: String, size: usize, mut next: impl FnMut(&str) -> String) -> String {
    let mut left_out = 0;
    while left_out < 40 {
        let part = next(&script);
        if script.len() + part.len() <= size {
            script += &part;
        } else {
            left_out += 1;
        }
    }
    script
}

#[cfg(test)]
mod tests {
    use super::*;

    #[test]
    fn white_space_is_rusts() {
        let white: String = (0..=u32::from(char::MAX)).filter_map(char::from_u32).filter(|c| c.is_whitespace()).collect();
        assert_eq!(WHITE.concat(), white);
    }

    #[test]
    fn padded_scripts_have_their_size() {
        for padding in PADDINGS {
            for ending in ENDINGS {
                let script = padded(padding, ending, 20);
                assert!(script.len() == 20 && script.starts_with(padding[0]) && script.ends_with(ending), "{script:?}");
            }
        }
    }

    #[test]
    fn a_generator_ends_at_the_first_no() {
        let mut left = 10;
        let each = &mut |_: &[u8]| {
            left -= 1;
            left > 0
        };
        assert!(!exhaustive(2, each));
        assert_eq!(left, 0);
    }

    #[test]
    fn exhaustive_scripts_are_all_and_differ() {
        let mut scripts = Vec::new();
        assert!(exhaustive(2, &mut |script| {
            scripts.push(script.to_vec());
            true
        }));
        let count = scripts.len();
        scripts.sort();
        scripts.dedup();
        assert_eq!((count, scripts.len()), (1 + 22 + 22 * 22, 1 + 22 + 22 * 22));
    }
}
