//! Mixed scripts: tokens drawn at random, so that no token tells the next one. Seeded, closed at their end, and without mistakes.
use crate::scripts::{self, Numbers};

#[rustfmt::skip]
const KEYWORDS: [&str; 71] = [
    "val", "var", "fun", "struct", "class", "interface", "enum", "actor", "sealed", "return", "if", "else", "when", "for", "in", "while",
    "do", "break", "continue", "try", "catch", "finally", "throw", "is", "as", "public", "private", "protected", "internal", "null", "this",
    "super", "object", "unit", "typealias", "override", "suspend", "inline", "const", "comptime", "defer", "extern", "import", "package",
    "lazy", "lateinit", "data", "value", "await", "to", "async", "select", "box", "weak", "native", "Int", "Long", "Short", "Byte", "Float",
    "Double", "Boolean", "Char", "String", "Any", "Nothing", "Unit", "true", "false", "it", "by",
];
const ONE: [&str; 25] =
    ["+", "-", "*", "/", "%", "=", "<", ">", "!", "&", "|", "^", "@", "#", "(", ")", "{", "}", "[", "]", ",", ";", ":", ".", "?"];
const TWO: [&str; 22] =
    ["++", "--", "+=", "-=", "*=", "/=", "%=", "==", "!=", "<=", ">=", "&&", "||", "<<", ">>", "!!", "->", "=>", "::", ":=", "..", "??"];
const THREE: [&str; 2] = [">>>", "..."];
const ESCAPES: [&str; 11] = ["\\n", "\\t", "\\r", "\\\\", "\\'", "\\\"", "\\0", "\\b", "\\f", "\\v", "\\/"];
const BEYOND: [&str; 12] = ["é", "ö", "ü", "ø", "ł", "ż", "–", "€", "“", "中", "🪦", "🌳"];

const LETTERS: &str = "abcdefghijklmnopqrstuvwxyzABCDEFGHIJKLMNOPQRSTUVWXYZ_";
const INSIDE: &str = "abcdefghijklmnopqrstuvwxyzabcdefghijklmnopqrstuvwxyzABCDEFGHIJKLMNOPQRSTUVWXYZ0123456789_$";
/// Marks that no other mark begins or ends with, and the line feed: they may touch everything.
const ALONE: &str = "()[]{},;@#^\n";
const MARKS: &str = "+-*/%=<>!&|:.?";

/// So many characters out of a text.
fn drawn(n: &mut Numbers, from: &str, count: usize) -> String {
    (0..count).map(|_| char::from(from.as_bytes()[n.below(from.len())])).collect()
}

/// One to twenty characters, short ones more often.
fn name(n: &mut Numbers) -> String {
    let more = n.below(20);
    let more = n.below(1 + more);
    drawn(n, LETTERS, 1) + &drawn(n, INSIDE, more)
}

fn digits(n: &mut Numbers, from: &str, most: usize) -> String {
    let count = 1 + n.below(most);
    drawn(n, from, count)
}

fn decimal(n: &mut Numbers) -> String {
    const TEN: &str = "0123456789";
    let mut text = digits(n, TEN, 5);
    if n.below(4) == 0 {
        text += &format!("_{}", drawn(n, TEN, 3));
    }
    if n.below(3) == 0 {
        text += &format!(".{}", digits(n, TEN, 4));
    }
    if n.below(5) == 0 {
        text += &format!("{}{}{}", n.pick(&["e", "E"]), n.pick(&["", "+", "-"]), digits(n, TEN, 2));
    }
    text
}

fn number(n: &mut Numbers) -> String {
    let text = match n.below(6) {
        0 => format!("0{}{}", n.pick(&["x", "X"]), digits(n, "0123456789abcdefABCDEF", 8)),
        1 => format!("0{}{}", n.pick(&["b", "B"]), digits(n, "01", 8)),
        _ => decimal(n),
    };
    text + n.pick(&["", "", "", "", "", "", "L", "l", "f", "F", "d", "u"])
}

fn mark(n: &mut Numbers) -> &'static str {
    match n.below(16) {
        0..=9 => n.pick(&ONE),
        10..=14 => n.pick(&TWO),
        _ => n.pick(&THREE),
    }
}

fn escape(n: &mut Numbers) -> String {
    if n.below(4) == 0 {
        format!("\\u{:04X}", n.below(0xD800))
    } else {
        n.pick(&ESCAPES).to_string()
    }
}

/// What stands between the braces of an interpolation.
fn expression(n: &mut Numbers) -> String {
    match n.below(4) {
        0 => name(n),
        1 => format!("{}.{}", name(n), name(n)),
        2 => format!("{} {} {}", name(n), n.pick(&["+", "-", "*", "?"]), number(n)),
        _ => format!("{}({})", name(n), name(n)),
    }
}

fn piece(n: &mut Numbers) -> String {
    match n.below(16) {
        0..=5 => name(n),
        6..=8 => n.pick(&[" ", ", ", "-", ". ", "/", "'"]).to_string(),
        9 | 10 => escape(n),
        11 | 12 => n.pick(&BEYOND).to_string(),
        13 | 14 => format!("${}", name(n)),
        _ => format!("${{{}}}", expression(n)),
    }
}

fn string(n: &mut Numbers) -> String {
    let pieces: String = (0..n.below(6)).map(|_| piece(n)).collect();
    format!("\"{pieces}\"")
}

fn character(n: &mut Numbers) -> String {
    let one = match n.below(4) {
        0 => escape(n),
        1 => n.pick(&BEYOND).to_string(),
        _ => drawn(n, INSIDE, 1),
    };
    format!("'{one}'")
}

/// The words of a comment.
fn words(n: &mut Numbers) -> String {
    let words: Vec<String> = (0..1 + n.below(4)).map(|_| if n.below(8) == 0 { n.pick(&BEYOND).to_string() } else { name(n) }).collect();
    words.join(" ")
}

fn comment(n: &mut Numbers) -> String {
    match n.below(8) {
        0..=2 => format!("// {}\n", words(n)),
        3 | 4 => format!("/* {} */", words(n)),
        5 => format!("/// {}\n", words(n)),
        6 => format!("/** {} */", words(n)),
        _ => format!("/**\n * {}\n * {}\n */", words(n), words(n)),
    }
}

fn token(n: &mut Numbers) -> String {
    match n.below(64) {
        0..=15 => name(n),
        16..=21 => n.pick(&KEYWORDS).to_string(),
        22..=50 => mark(n).to_string(),
        51..=55 => number(n),
        56..=60 => string(n),
        61 => character(n),
        _ => comment(n),
    }
}

fn white(n: &mut Numbers) -> String {
    match n.below(16) {
        0..=11 => " ".to_string(),
        12..=14 => format!("\n{}", "    ".repeat(n.below(4))),
        _ => n.pick(&["  ", "\t", "\r\n"]).to_string(),
    }
}

/// Whether a token may follow without white space: not a word behind a word, nor a mark behind a mark that it could be read with.
fn touches(before: &str, token: &str) -> bool {
    match (before.chars().next_back(), token.chars().next()) {
        (Some(last), Some(first)) => ALONE.contains(last) || ALONE.contains(first) || MARKS.contains(last) != MARKS.contains(first),
        _ => true,
    }
}

fn next(n: &mut Numbers, before: &str) -> String {
    let token = token(n);
    if touches(before, &token) && n.below(2) == 0 {
        token
    } else {
        white(n) + &token
    }
}

/// A script of at most so many bytes.
pub fn script(seed: u64, size: usize) -> String {
    let mut numbers = Numbers::new(seed);
    scripts::filled(String::new(), size, |before| next(&mut numbers, before))
}

#[cfg(test)]
mod tests {
    use super::script;
    use crate::host;

    #[test]
    fn scripts_are_closed_and_without_errors() {
        for (size, seeds) in [(10, 2_000), (1_000, 500), (32_000, 50), (1_000_000, 4)] {
            for seed in 1..=seeds {
                let script = script(seed, size);
                let used = host::measure(script.as_bytes()).expect("the script is accepted");
                assert!(used.closed && used.errors == 0, "seed {seed}, {size} bytes: {used:?}");
                assert!(script.len() <= size && script.len() + 10 > size, "seed {seed}, {size} bytes: {} bytes", script.len());
            }
        }
    }

    #[test]
    fn a_token_takes_about_six_bytes() {
        for seed in 1..=4 {
            let script = script(seed, 1_000_000);
            let tokens = host::measure(script.as_bytes()).expect("the script is accepted").count;
            let each = script.len() as f64 / tokens as f64;
            assert!((6.0..6.6).contains(&each), "seed {seed}: {each} bytes a token");
        }
    }
}
