//! Scripts made of what printing turns on: strings, raw strings, character literals, doc comments, and the tokens that a print writes
//! otherwise than the script. As in `scripts`, a generator calls `each` with script after script until that answers false, and answers
//! whether all were taken.
use crate::check::LIMIT;
use crate::scripts::{self, Numbers};
use crate::tables::{framed, lines, packed, sequences, HOLE};

/// What a string is made of. Behind a `$name` stand a letter, a digit, an underscore and the like, as they are and escaped, and a code that
/// gives no character.
#[rustfmt::skip]
const IN_STRING: [&str; 40] = [
    "", "$a", "$_", "$b\\uD800", "$Z9\\udfff", "$a$b", "${}", "${a}", "${\"\n\"}", "${$b}", "}", "{", "a", "Z", "0", "9", "_", "é", " ", "-",
    "\\u0062", "\\u005A", "\\u0039", "\\u005f", "\\u0024", "\\uD800", "\\u0022", "\\u005c", "\\u000A", "$", "$$", "$1", "\\\"", "\\\\",
    "\\n", "\\t", "'", "\\'", "\r", "\u{2028}",
];
const IN_RAW: [&str; 17] =
    ["", "a", "\"", "\"\"", "\n", "\r\n", "\\", "\\n", "\\\"", "\\u0041", "$", "$a", "${b}", "'", "é", "\u{85}", "\u{FEFF}"];
/// What a character literal is made of: every escape, and letters that are none.
#[rustfmt::skip]
const IN_CHAR: [&str; 36] = [
    "a", "Z", "9", "_", "$", "\"", "'", "é", "€", "🪦", "\n", "\r", "\t", " ", "\u{FEFF}", "\\n", "\\t", "\\r", "\\\\", "\\'", "\\\"", "\\0",
    "\\b", "\\f", "\\v", "\\/", "\\q", "\\$", "\\\n", "\\u0041", "\\u0027", "\\u005C", "\\u000a", "\\u0024", "\\uD800", "\\uDFFF",
];
/// What a doc comment is made of.
const IN_DOC: [&str; 15] = ["", " ", "a", "b c", "*", "**", "/", "* /", "\n", "\n * ", "\r", "\r\n", "\u{3000}", "\u{2028}", "${\"'\\"];
/// Everything else: what a print writes otherwise than the script, and tokens that would be read together without a space.
#[rustfmt::skip]
const OTHERS: [&str; 34] = [
    ":=", "::=", "::", ":", "=", "<<<", "<<", "<", "$", "$a", "${}", "${a b}", "${\"\n", "}", "{", "a", "val", "Unit", "true", "1", "1.5", "1e",
    "0x", ".", "..", "...", "/", "*", "-", ">", "?", "&", "/**/", "// a\n",
];
/// Mistakes. In some the error that is recorded first is not the one that starts first.
const BROKEN: [&str; 12] =
    ["\"\\q\n", "\"$a\\u\n", "\"\\q$b\\x\"", "\"a\n", "\"${a", "''", "'ab'", "'\\u00'", "/* a", "/** a", "\"\"\"a", "é"];
const GAPS: [&str; 5] = ["", " ", "\n", "\r\n\t\u{A0}", "/* */"];
const BYTE_ORDER_MARKS: [&str; 3] = ["", "\u{FEFF}", "\u{FEFF}\u{FEFF}"];
/// A script that is left open without an error, and others.
const ENDINGS: [&str; 5] = ["", "\n", "${", "${a\n\"", "// a"];

/// A token of each form that is not printed as it stands.
const FORMS: [&str; 11] =
    ["\"\"", "\"a$b\"", "\"$b\\uD800a\"", "\"\"\"\n\"\"\"", "'\\uD800'", "'''", "/// a\n", "///\n", "/** a\nb */", "/***/", "${a}"];

/// Every string and raw string of three parts, every character literal, every doc comment of three or four parts; then every form and
/// every mistake next to others.
fn tables(each: &mut dyn FnMut(&[u8]) -> bool) -> bool {
    let quoted = ["\""].as_slice();
    let raw = ["\"\"\""].as_slice();
    sequences(&[quoted, &IN_STRING, &IN_STRING, &IN_STRING, quoted], each)
        && sequences(&[raw, &IN_RAW, &IN_RAW, &IN_RAW, raw], each)
        && sequences(&[&["'"], &IN_CHAR, &["'"]], each)
        && sequences(&[&["///"], &IN_DOC, &IN_DOC, &IN_DOC, &["", "\n"]], each)
        && sequences(&[&["/**"], &IN_DOC, &IN_DOC, &IN_DOC, &IN_DOC, &["*/"]], each)
        && sequences(&[&BYTE_ORDER_MARKS, &FORMS, &GAPS, &FORMS, &ENDINGS], each)
        && sequences(&[&OTHERS, &GAPS, &OTHERS, &ENDINGS], each)
        && sequences(&[&FORMS, &GAPS, &OTHERS, &ENDINGS], each)
        && sequences(&[&BYTE_ORDER_MARKS, &FORMS, &BROKEN, &GAPS, &BROKEN], each)
}

/// Where every code point is put.
const POINT_PLACES: [&str; 5] = ["\"$a□\"", "\"\"\"□\"\"\"", "'□'", "/**□a□\n□b□*/", "\"${□}\""];
/// The first code point that is packed with others. No character from here on is a mistake at one of the places.
const PACKED_FROM: u32 = 0x800;

/// Every code point at each of the places.
fn points(each: &mut dyn FnMut(&[u8]) -> bool) -> bool {
    let pointed = |code: u32| char::from_u32(code).map_or(String::new(), |c| lines(&POINT_PLACES, &c.to_string()));
    let first: Vec<String> = (0..PACKED_FROM).filter_map(char::from_u32).map(String::from).collect();
    first.iter().all(|piece| POINT_PLACES.iter().all(|place| framed(&place.replace(HOLE, piece), each)))
        && packed(PACKED_FROM, char::MAX.into(), pointed, each)
}

/// Scripts whose prints have a byte less than the limit, exactly the limit, a byte more, and nearly six times the script's bytes.
fn long(each: &mut dyn FnMut(&[u8]) -> bool) -> bool {
    const ADDED: usize = "a + ".len();
    let near = [LIMIT - 1, LIMIT, LIMIT + 1].map(|size| "a+".to_string() + &"b".repeat(size - ADDED));
    let dollars = ["\"\"\"", &"$".repeat(LIMIT - 6), "\"\"\""].concat();
    near.iter().all(|script| each(script.as_bytes())) && each(dollars.as_bytes())
}

/// Up to so many parts of a table.
fn some(numbers: &mut Numbers, table: &[&str], most: usize) -> String {
    (0..numbers.below(most + 1)).map(|_| numbers.pick(table)).collect()
}

fn token(numbers: &mut Numbers) -> String {
    match numbers.below(12) {
        0..=3 => format!("\"{}\"", some(numbers, &IN_STRING, 8)),
        4 => format!("\"\"\"{}\"\"\"", some(numbers, &IN_RAW, 6)),
        5 => format!("'{}'", numbers.pick(&IN_CHAR)),
        6 => format!("///{}\n", some(numbers, &IN_DOC, 4)),
        7 => format!("/**{}*/", some(numbers, &IN_DOC, 10)),
        _ => numbers.pick(&OTHERS).to_string(),
    }
}

/// One script: one in sixteen begins with a byte-order mark, one in sixteen with a mistake, and one in eight is damaged.
fn drawn(numbers: &mut Numbers) -> Vec<u8> {
    let mut script = match numbers.below(16) {
        0 => "\u{FEFF}".to_string(),
        1 => numbers.pick(&BROKEN).to_string(),
        _ => String::new(),
    };
    for _ in 0..=numbers.below(6) {
        script += &token(numbers);
        script += numbers.pick(&GAPS);
    }
    script += numbers.pick(&ENDINGS);
    match numbers.below(8) {
        0 => scripts::damaged(numbers, script.as_bytes()),
        _ => script.into_bytes(),
    }
}

pub fn random(seed: u64, count: u64, each: &mut dyn FnMut(&[u8]) -> bool) -> bool {
    let mut numbers = Numbers::new(seed);
    (0..count).all(|_| each(&drawn(&mut numbers)))
}

/// The tables, every code point, long scripts, and so many random ones.
pub fn all(seed: u64, count: u64, each: &mut dyn FnMut(&[u8]) -> bool) -> bool {
    tables(each) && points(each) && long(each) && random(seed, count, each)
}

#[cfg(test)]
mod tests {
    use super::*;
    use crate::oracle;
    use crate::print_model::ORDER_2;

    #[test]
    fn long_prints_are_around_the_limit() {
        let mut sizes = Vec::new();
        assert!(long(&mut |script| {
            let lexed = oracle::lex_bytes(script).expect("UTF-8");
            sizes.push((script.len(), ORDER_2.print(script, &lexed.tokens).len()));
            true
        }));
        let most = (LIMIT, 6 * (LIMIT - 6) + 2);
        assert_eq!(sizes, [(LIMIT - 3, LIMIT - 1), (LIMIT - 2, LIMIT), (LIMIT - 1, LIMIT + 1), most]);
    }

    #[test]
    fn most_random_scripts_have_no_error() {
        let (mut printed, mut count) = (0, 0);
        random(1, 2_000, &mut |script| {
            printed += u64::from(oracle::lex_bytes(script).is_ok_and(|lexed| lexed.errors.is_empty()));
            count += 1;
            true
        });
        assert!(count == 2_000 && printed > count / 2, "{printed} of {count}");
    }
}
