//! Scripts that go through the rules row by row: every row of every table of the original in every place where it looks at it, and every
//! code point in many places. They are products of short tables of parts. A place is a text in which a piece stands for every `□`.
//! As in `scripts`, a generator calls `each` with script after script until that answers false, and answers whether all were taken.
use crate::decode::SPELLINGS;
use crate::list;
use crate::scripts::WHITE;
use std::collections::BTreeSet;

pub const HOLE: char = '□';
/// What stands before and behind a script that is also tried between others: strings, so that offsets and columns differ.
const FRAME: [&str; 2] = ["\"é\"\n\"€\" ", " z"];

/// The script alone, and between a line before it and a token behind it.
pub fn framed(script: &str, each: &mut dyn FnMut(&[u8]) -> bool) -> bool {
    let [before, behind] = FRAME;
    each(script.as_bytes()) && each([before, script, behind].concat().as_bytes())
}

/// Every piece at every place.
fn placed(places: &[&str], pieces: &[String], each: &mut dyn FnMut(&[u8]) -> bool) -> bool {
    places.iter().all(|place| pieces.iter().all(|piece| framed(&place.replace(HOLE, piece), each)))
}

/// Every script that begins with the text and goes on with one part of each table.
fn grown(text: &mut String, tables: &[&[&str]], each: &mut dyn FnMut(&[u8]) -> bool) -> bool {
    let Some((first, rest)) = tables.split_first() else { return framed(text, each) };
    first.iter().all(|part| {
        let length = text.len();
        *text += part;
        let all = grown(text, rest, each);
        text.truncate(length);
        all
    })
}

/// Every sequence of one part of each table.
pub fn sequences(tables: &[&[&str]], each: &mut dyn FnMut(&[u8]) -> bool) -> bool {
    grown(&mut String::new(), tables, each)
}

fn strings(parts: &[&str]) -> Vec<String> {
    parts.iter().map(|part| part.to_string()).collect()
}

/// Characters beyond ASCII: the first and last of each length, white space, and digits and letters that are not of ASCII.
#[rustfmt::skip]
const BEYOND: [&str; 18] = [
    "\u{80}", "\u{85}", "é", "\u{661}", "\u{7FF}", "\u{800}", "\u{2028}", "€", "\u{212A}", "\u{D7FF}", "\u{E000}", "\u{FEFF}", "\u{FF11}",
    "\u{FF21}", "\u{FFFF}", "\u{10000}", "🪦", "\u{10FFFF}",
];

/// Every ASCII character, and some others.
fn characters() -> Vec<String> {
    (0..=u8::MAX).filter(u8::is_ascii).map(|c| char::from(c).to_string()).chain(strings(&BEYOND)).collect()
}

/// Names with a row in the keyword table that are no keywords, names that are keywords under two spellings, and ones that once were.
const NAMES: [&str; 23] = [
    "Int", "Long", "Short", "Byte", "Float", "Double", "Boolean", "Char", "String", "Any", "Nothing", "unit", "Unit", "true", "false",
    "it", "by", "malloc", "free", "retain", "release", "spawn", "send",
];
#[rustfmt::skip]
const WORD_PLACES: [&str; 30] = [
    "□", "_□", "□_", "□$", "$□", "$$□", "□1", "1□", "1□1", "0x□", "0b1□", "1.5□", "1e□", "a□", "□a", "é□", "□é", "\"$□\"", "\"$□ \"",
    "\"$□", "\"$□$□\"", "\"${□}\"", "\"□\"", "${□}", "□.□", "□/**/□", "□\n□", "'□'", "// □\n□", "/// □\n□",
];

/// A word with a letter less, in the other case, or changed to the next one, for each of its letters.
fn near(word: &str) -> Vec<String> {
    let with = |i: usize, new: &str| [&word[..i], new, &word[i + 1..]].concat();
    let changed = |i: usize| {
        let letter = word.as_bytes()[i];
        let other = if letter.is_ascii_lowercase() { letter.to_ascii_uppercase() } else { letter.to_ascii_lowercase() };
        [with(i, ""), with(i, &char::from(other).to_string()), with(i, &char::from(letter + 1).to_string())]
    };
    (0..word.len()).flat_map(changed).chain([word.to_uppercase(), word.to_lowercase()]).collect()
}

fn words(each: &mut dyn FnMut(&[u8]) -> bool) -> bool {
    let is_word = |text: &&&str| text.starts_with(|c: char| c.is_ascii_alphabetic());
    let words: Vec<&str> = SPELLINGS.iter().filter(is_word).chain(&NAMES).copied().collect();
    let changed: Vec<String> = words.iter().flat_map(|word| near(word)).collect();
    let characters = characters();
    let touching = |word: &&str| [format!("□{word}"), format!("{word}□")];
    placed(&WORD_PLACES, &strings(&words), each)
        && placed(&["□", "\"$□\""], &changed, each)
        && words.iter().flat_map(touching).all(|place| placed(&[&place], &characters, each))
}

const MARKS: [&str; 31] = [
    "(", ")", "{", "}", "[", "]", ",", ";", ":", ".", "?", "@", "#", "|", "&", "^", "+", "-", "*", "/", "=", "!", "<", ">", "%", "$", "\"",
    "'", "\\", "`", "~",
];
/// The marks that tokens of three marks are made of, and that comments and raw strings begin and end with.
const LONG: [&str; 8] = ["<", ">", ".", ":", "=", "/", "*", "\""];
const BEHIND: [&str; 6] = ["a", "_", "1", " ", "\n", "é"];

fn marks(each: &mut dyn FnMut(&[u8]) -> bool) -> bool {
    sequences(&[&MARKS], each)
        && sequences(&[&MARKS, &BEHIND], each)
        && sequences(&[&MARKS, &MARKS], each)
        && sequences(&[&MARKS, &MARKS, &BEHIND], each)
        && sequences(&[&MARKS, &MARKS, &MARKS], each)
        && sequences(&[&LONG, &LONG, &LONG, &LONG], each)
        && sequences(&[&LONG, &LONG, &LONG, &BEHIND], each)
}

#[rustfmt::skip]
const ESCAPE_PLACES: [&str; 16] = [
    "\"\\□\"", "\"a\\□b\"", "\"\\□", "\"\\□\nb\"", "\"$x\\□\"", "\"$x\\□$y\"", "\"${x}\\□\"", "\"${\\□}\"", "'\\□'", "'\\□", "'\\□a'",
    "'\\□\n'", "\"\"\"\\□\"\"\"", "\\□", "a\\□b", "\"\\\\□\"",
];

fn escapes(each: &mut dyn FnMut(&[u8]) -> bool) -> bool {
    placed(&ESCAPE_PLACES, &characters(), each)
}

const NUMBERS: [&str; 32] = [
    "0", "1", "9", "00", "10", "1_0", "1_", "0_", "1.5", "0.5", "1.5_0", "01.5", "1.", "1..", "1e", "1E", "1e+", "1E-", "1e5", "1E5",
    "1e+5", "1E-5", "1.5e5", "1.5E+5", "0x", "0X", "0x1F", "0XaB", "0b", "0B", "0b10", "0B01",
];
const SUFFIXES: [&str; 9] = ["", "L", "l", "f", "F", "d", "D", "u", "U"];
const GLUE: [&str; 11] = [".", "..", "...", "e", "E", "e+", "E-", "_", "+", "-", " "];
const DIGIT_PLACES: [&str; 34] = [
    "□", "□1", "1□", "1□1", "0□", "0□1", "1.□", "1.□5", "1.5□", "1.5□5", "1.5_□", "1e□", "1E□", "1e□5", "1E□5", "1e+□", "1E-□5", "1e5□",
    "1E5□5", "1e-5□5", "1.5e□", "1.5E5□", "0x□", "0X□", "0x1□", "0xA□F", "0b□", "0B□", "0b1□", "0b1□0", "1_□", "1_□0", "0x□L", "0b□u",
];

fn numbers(each: &mut dyn FnMut(&[u8]) -> bool) -> bool {
    let characters = characters();
    let pieces: Vec<&str> = characters.iter().map(String::as_str).collect();
    sequences(&[&NUMBERS, &SUFFIXES], each)
        && sequences(&[&NUMBERS, &SUFFIXES, &pieces], each)
        && sequences(&[&NUMBERS, &NUMBERS], each)
        && sequences(&[&NUMBERS, &GLUE, &["", "5", "_", "a", "L", "f5", ".", ".5", "e5", "E5", "x"]], each)
        && placed(&DIGIT_PLACES, &characters, each)
}

/// Codes at the boundaries: of the lengths in UTF-8, of the surrogates, and at both ends.
const CODES: [u32; 20] = [
    0, 1, 0x22, 0x24, 0x27, 0x5C, 0x7F, 0x80, 0x7FF, 0x800, 0xD7FF, 0xD800, 0xD801, 0xDBFF, 0xDC00, 0xDFFF, 0xE000, 0xFEFF, 0xFFFE, 0xFFFF,
];
const CODE_PLACES: [&str; 9] =
    ["\"\\u□\"", "\"a\\u□b\"", "\"$x\\u□\"", "\"${x}\\u□$y\"", "\"\\u□", "'\\u□'", "'\\u□", "'\\u□a'", "\"\"\"\\u□\"\"\""];

/// Four digits with each of them changed to each character.
fn changed_digits(digits: &str) -> Vec<String> {
    let at = |i: usize| characters().into_iter().map(move |c| [&digits[..i], &c, &digits[i + 1..]].concat());
    (0..digits.len()).flat_map(at).collect()
}

fn codes(each: &mut dyn FnMut(&[u8]) -> bool) -> bool {
    let values: Vec<String> = CODES.iter().flat_map(|code| [format!("{code:04x}"), format!("{code:04X}")]).collect();
    placed(&CODE_PLACES, &values, each)
        && placed(&CODE_PLACES, &strings(&["D7fF", "d8Ff", "00e9", "00E9"]), each)
        && placed(&["\"\\u□\"", "\"$x\\u□\"", "'\\u□'"], &changed_digits("0041"), each)
        && placed(&["\"\\u□\"", "'\\u□'"], &changed_digits("dFfF"), each)
        && sequences(
            &[
                &["\"\\u", "\"$x\\u", "'\\u"],
                &["", "0", "00", "004", "0041", "00411", "+041", "004g", "g"],
                &["", "\"", "'", "\n", "\\u", "\\u0041", "$x", "é", " "],
            ],
            each,
        )
}

/// Characters that look like white space or once were.
const NO_WHITE: [&str; 6] = ["\0", "\u{7F}", "\u{180E}", "\u{2060}", "\u{2800}", "\u{FEFF}"];
#[rustfmt::skip]
const WHITE_PLACES: [&str; 56] = [
    "□", "□a", "a□", "a□b", "a□□b", "□\na", "a□\n□b", "a\n□b", "\r□\n□a", "é□a", "a/**/□b", "1□2", "1□.5", "1.□5", "1e□5", "1e+□5", "0□x1",
    "0x□F", "0b□1", "+□+", "/□/ a", "/□* a */", "//□\nb", "//a□b\nc", "//a□", "///□a□\nb", "///□\nb", "/// a□", "/// a□b\n", "////□a",
    "/*□*/b", "/*a□\n□*/b", "/*□", "/**□a□*/b", "/**□*/", "/** a□\n□* b□\n□c */d", "/**□*□a*/", "/** a\n*□b\n**□c□\n□ */", "/**□a",
    "\"□\"", "\"a□b", "\"$□\"", "\"$a□b\"", "\"${□}\"", "\"${a□", "\"\\□\"", "${□}b", "$□{a}", "${□", "'□'", "'□", "'a□'", "'\\□'",
    "\"\"\"□\"\"\"", "\"\"\"a□\n□b\"\"\"c", "\"\"□\"",
];

/// The White_Space characters and their neighbours, and some others.
fn white() -> Vec<String> {
    let codes: BTreeSet<u32> = WHITE.concat().chars().map(u32::from).flat_map(|code| code - 1..=code + 1).collect();
    codes.into_iter().filter_map(char::from_u32).map(String::from).chain(strings(&NO_WHITE)).collect()
}

fn white_space(each: &mut dyn FnMut(&[u8]) -> bool) -> bool {
    let white = white();
    let two: Vec<String> = white.iter().flat_map(|first| white.iter().map(move |second| [first.as_str(), second].concat())).collect();
    placed(&WHITE_PLACES, &white, each) && placed(&["a□b", "/// a□\n"], &two, each)
}

#[rustfmt::skip]
const COMMENTS: [&str; 40] = [
    "//", "//a", "// a", "//*", "///", "///a", "/// a ", "////", "////a", "/////", "/**/", "/***/", "/****/", "/* */", "/*a*/", "/** */",
    "/** a */", "/**a**/", "/***a***/", "/*/", "/*/*/", "/**//**/", "/* /* */", "/* /* */ */", "/** /* */", "/* // */", "/* /// */",
    "/* /** */", "/*\n*/", "/*a\n\nb*/", "/**\n*/", "/**\n * a\n */", "/* \r\n */", "*/", "/*", "/* a", "/**", "/** a", "/* *", "/** *",
];
const BEFORE: [&str; 9] = ["", " ", "a", "a ", "\n", "a\n ", "é", "/", "/**/"];
const AFTER: [&str; 12] = ["", " b", "b", "\nb", "\n b", "\n\nb", "\r\nb", "/", "*/b", "*", "\"b\"", "é"];

fn comments(each: &mut dyn FnMut(&[u8]) -> bool) -> bool {
    sequences(&[&BEFORE, &COMMENTS, &AFTER], each) && sequences(&[&COMMENTS, &["", " ", "\n"], &COMMENTS], each)
}

const LEADS: [&str; 4] = ["", " ", "\t", "\u{A0}\u{3000}"];
const STARS: [&str; 4] = ["", "*", "**", "* *"];
const TEXTS: [&str; 4] = ["", "a", " a b* ", "é\u{2003}"];
const ENDS: [&str; 5] = ["\n", "\n\n", "\r\n", "\r", "\u{2028}"];
const LINES: [&str; 10] = ["", " ", "a", " a ", "*", " * ", " * a", " **a ", "\t*\t* a\t", "/"];

fn docs(each: &mut dyn FnMut(&[u8]) -> bool) -> bool {
    sequences(&[&["///", "////"], &LEADS, &STARS, &TEXTS, &["", "\n", "\r\n", "\r", "\n/// b"]], each)
        && sequences(&[&["/**"], &LEADS, &STARS, &TEXTS, &ENDS, &LEADS, &STARS, &TEXTS, &["*/"]], each)
        && sequences(&[&["/**"], &LINES, &["\n", "\r\n"], &LINES, &["\n", "\r\n"], &LINES, &["", "*/", "\n*/"]], each)
}

/// What a string is made of.
const CONTENTS: [&str; 19] =
    ["", "a", "é", "🪦", "\\n", "\\q", "\\u0041", "\\u00", "\\uD800", "\\", "$", "$$", "$1", "$a", "$_", "${", "${a}", "${\n}", "'"];
#[rustfmt::skip]
const DOLLAR_PLACES: [&str; 20] = [
    "\"$□\"", "\"$□", "\"a$□b\"", "\"$$□\"", "\"$a□b\"", "\"$a$□\"", "\"${a}$□\"", "\"${□}\"", "\"${□", "\"${a□b}c\"", "\"\\$□\"", "$□",
    "$$□", "a$□", "1$□", "${□}", "${□", "${a□b}c", "$□{a}", "${a}□",
];
const INSIDE: [&str; 18] = ["", "a", " ", "\"", "\"\"", "{", "{a", "$", "${", "$a", "\n", "\r\n", "\\", "é", "//", "/*", "'", "\"\"\""];

fn texts(each: &mut dyn FnMut(&[u8]) -> bool) -> bool {
    sequences(&[&["\""], &CONTENTS, &CONTENTS, &CONTENTS, &["\"", "", "\n", "\r\n", "\nb\""]], each)
        && placed(&DOLLAR_PLACES, &characters(), each)
        && sequences(
            &[
                &["\"${", "\"a${", "\"$a${", "\"${a}${", "${", "a${", "$${"],
                &INSIDE,
                &["", "}", "}}", "}\"", "} \"", "}$a\"", "}${b}\""],
                &["", "b", "\"", "\nb"],
            ],
            each,
        )
}

const QUOTES: [&str; 7] = ["", "\"", "\"\"", "\"\"\"", "\"\"\"\"", "\"\"\"\"\"", "\"\"\"\"\"\""];
const RAW: [&str; 19] =
    ["", "a", " ", "\n", "a\nb", "\r\n", "\n\n", "$a", "${a}", "${", "\\", "\\\"", "\\u0041", "é", "🪦", "'", "// a", "a\"b", "a\"\"b"];
/// What a character literal is made of.
const LITERALS: [&str; 18] =
    ["", "a", "é", "€", "🪦", "\\n", "\\q", "\\u0041", "\\u00", "\\uD800", "\\", "\\'", "\"", "\n", "\r", "$", "${", " "];
const LITERAL_PLACES: [&str; 9] = ["'□'", "'□", "'□□'", "'a□'", "'a□", "'□\n'", "a'□'b", "''□", "'\\n□"];

fn literals(each: &mut dyn FnMut(&[u8]) -> bool) -> bool {
    sequences(&[&QUOTES, &RAW, &QUOTES, &["", "b", "\n"]], each)
        && placed(&LITERAL_PLACES, &characters(), each)
        && sequences(&[&["'"], &LITERALS, &LITERALS, &["", "'", "''", "\n", "\n'"]], each)
}

/// A token or a mistake of each form.
#[rustfmt::skip]
const FORMS: [&str; 40] = [
    "a", "_", "$", "$a", "val", "0", "1", "1.5", "1e", "1E5", "0x", "0xF", "0b1", "2L", "\"\"", "\"a\"", "\"$a\"", "\"${a}\"", "\"a",
    "\"\"\"a\"\"\"", "\"\"\"", "'a'", "''", "'", "'a", "'\\", "${a}", "${", ".", "<", ">", "=", ":", "+", "/", "*", "\\", "é", "\u{FEFF}",
    "\0",
];

/// Each form next to each, and byte-order marks in front, twice, inside and behind.
fn neighbours(each: &mut dyn FnMut(&[u8]) -> bool) -> bool {
    const MARK_PLACES: [&str; 6] = ["\u{FEFF}□", "\u{FEFF}\u{FEFF}□", " \u{FEFF}□", "a\u{FEFF}□", "\n\u{FEFF}□", "□\u{FEFF}"];
    sequences(&[&FORMS, &["", " ", "\n", "/**/"], &FORMS], each)
        && placed(&MARK_PLACES, &strings(&FORMS), each)
        && placed(&MARK_PLACES, &strings(&list::SMALL), each)
        && placed(&POINT_PLACES, &strings(&["é", "€", "🪦", "é€🪦", "🪦a", "a🪦", "é\u{2003}"]), each)
}

/// Every row of every table in every place where the original looks at it.
pub fn rows(each: &mut dyn FnMut(&[u8]) -> bool) -> bool {
    [words, marks, escapes, numbers, codes, white_space, comments, docs, texts, literals, neighbours].iter().all(|part| part(each))
}

/// Where every code point is put. No place is left open by a character beyond ASCII and a line feed.
#[rustfmt::skip]
const POINT_PLACES: [&str; 26] = [
    "a □ b", "a□b", "□b", "1□2", "1.□5", "1e□5", "0x□F", "0b□1", "+□=", "\"a□b\"", "\"\\□\"", "\"$□\"", "\"$a□\"", "\"${□}\"",
    "\"\\u□041\"", "\"\\u004□\"", "'□'", "'\\□'", "'\\u004□'", "\"\"\"□\"\"\"", "// □", "///□a□", "/*□*/ a", "/**□a□\n□*□b*/", "${□}",
    "$□",
];
/// The first code point that is packed with others: those before it have scripts of their own.
const PACKED_FROM: u32 = 0x800;
/// The code points to a packed script.
const PACK: u32 = 64;

/// Where every code of `\u` is put.
const CODE_LINES: [&str; 3] = ["\"\\u□\"", "\"$a\\u□b\"", "'\\u□'"];
const LAST_CODE: u32 = 0xFFFF;

/// The piece at every place, a place to a line.
pub fn lines(places: &[&str], piece: &str) -> String {
    places.iter().map(|place| place.replace(HOLE, piece) + "\n").collect()
}

/// Packed scripts of the codes from the first to the last, with what `line` makes of each code.
pub fn packed(first: u32, last: u32, line: impl Fn(u32) -> String, each: &mut dyn FnMut(&[u8]) -> bool) -> bool {
    (first..=last).step_by(PACK as usize).all(|code| {
        let script: String = (code..code + PACK).map(&line).collect();
        each(script.as_bytes())
    })
}

/// Every code point in each of the places: those of one and two bytes in scripts of their own, the others packed, a place to a line.
/// Then every code of `\u` in both cases, packed.
pub fn points(each: &mut dyn FnMut(&[u8]) -> bool) -> bool {
    let pointed = |code: u32| char::from_u32(code).map_or(String::new(), |c| lines(&POINT_PLACES, &c.to_string()));
    let coded = |code: u32| lines(&CODE_LINES, &format!("{code:04x}")) + &lines(&CODE_LINES, &format!("{code:04X}"));
    let first: Vec<String> = (0..PACKED_FROM).filter_map(char::from_u32).map(String::from).collect();
    first.iter().all(|piece| POINT_PLACES.iter().all(|place| each(place.replace(HOLE, piece).as_bytes())))
        && packed(PACKED_FROM, char::MAX.into(), pointed, each)
        && packed(0, LAST_CODE, coded, each)
}

#[cfg(test)]
mod tests {
    use super::*;
    use crate::oracle;

    fn all(generator: impl Fn(&mut dyn FnMut(&[u8]) -> bool) -> bool) -> Vec<String> {
        let mut scripts = Vec::new();
        assert!(generator(&mut |script| {
            scripts.push(String::from_utf8(script.to_vec()).expect("UTF-8"));
            true
        }));
        scripts
    }

    #[test]
    fn sequences_are_the_product_alone_and_framed() {
        let scripts = all(|each| sequences(&[&["a", "b"], &["", "1"]], each));
        assert_eq!(scripts.iter().step_by(2).collect::<Vec<_>>(), ["a", "a1", "b", "b1"]);
        assert_eq!(scripts[3], "\"é\"\n\"€\" a1 z");
    }

    #[test]
    fn pieces_stand_at_every_hole() {
        let scripts = all(|each| placed(&["<□>", "□□"], &strings(&["x", "□"]), each));
        assert_eq!(scripts.iter().step_by(2).collect::<Vec<_>>(), ["<x>", "<□>", "xx", "□□"]);
    }

    #[test]
    fn near_misses_of_a_word() {
        assert_eq!(near("if"), ["f", "If", "jf", "i", "iF", "ig", "IF", "if"]);
    }

    #[test]
    fn every_code_point_stands_at_every_place() {
        let mut seen = vec![0; char::MAX as usize + 1];
        points(&mut |script| {
            let text = std::str::from_utf8(script).expect("UTF-8");
            text.chars().for_each(|c| seen[c as usize] += 1);
            true
        });
        let holes = POINT_PLACES.concat().matches(HOLE).count();
        let missing = (0..=char::MAX as usize).filter(|&code| char::from_u32(code as u32).is_some() && seen[code] < holes);
        assert_eq!(missing.collect::<Vec<_>>(), []);
    }

    #[test]
    fn a_line_of_a_pack_leaves_the_next_one_alone() {
        for place in POINT_PLACES.iter().chain(&CODE_LINES) {
            let tokens = oracle::lex(&(place.replace(HOLE, "€") + "\nq")).tokens;
            assert_eq!(tokens[tokens.len() - 2].text, b"q", "{place}");
        }
    }
}
