//! Records read by a decoder of its own, written from document 01 and not from the proved code.
use crate::lexed::{Lexed, Mistake, Span, Token, EOF};

/// The fixed spelling of a kind; none for the kinds that are never made, for EOF and for the kinds that carry their text.
#[rustfmt::skip]
pub const SPELLINGS: [&str; 126] = [
    "", "", "", "", "", "", "val", "var", "fun", "struct", "class", "interface", "enum", "actor", "sealed", "return", "if",
    "else", "when", "for", "in", "while", "do", "break", "continue", "try", "catch", "finally", "throw", "is", "as", "public",
    "private", "protected", "internal", "null", "this", "super", "object", "", "typealias", "override", "suspend", "inline",
    "const", "comptime", "defer", "extern", "import", "package", "lazy", "lateinit", "data", "value", "to", "await", "async",
    "select", "", "", "", "", "box", "weak", "", "", "", "", "native", "+", "-", "*", "/", "%", "++", "--", "=", "+=", "-=", "*=",
    "/=", "%=", "==", "!=", "<", ">", "<=", ">=", "&&", "||", "!", "&", "|", "^", "<<", ">>", ">>>", "!!", "->", "=>", "", "", "@",
    "#", "::", "(", ")", "{", "}", "[", "]", ",", ";", ":", "::=", ".", "..", "...", "?", "??", "", "", "", "", "", "",
];

pub fn carries_text(kind: u8) -> bool {
    matches!(kind, 0..=5 | 39 | 121 | 123 | 125)
}

pub fn is_made(kind: u8) -> bool {
    matches!(kind, 2 | 3 | 121 | 123)
}

pub fn record_length(kind: u8) -> usize {
    if carries_text(kind) {
        33
    } else {
        25
    }
}

pub fn error_length(kind: u8) -> usize {
    if matches!(kind, 1 | 7) {
        29
    } else {
        25
    }
}

fn number(bytes: &[u8], at: usize) -> u64 {
    u64::from(u32::from_le_bytes(bytes[at..at + 4].try_into().expect("four bytes")))
}

pub fn span(bytes: &[u8], at: usize) -> Span {
    [0, 4, 8, 12, 16, 20].map(|i| number(bytes, at + i))
}

/// A token's record at a place: its kind, its span, and its text's offset and length where it has one.
pub struct Record {
    pub kind: u8,
    pub span: Span,
    pub text: Option<(u64, u64)>,
    pub next: usize,
}

pub fn record(bytes: &[u8], at: usize) -> Option<Record> {
    let kind = *bytes.get(at)?;
    if kind > 125 || bytes.len() - at < record_length(kind) {
        return None;
    }
    let text = carries_text(kind).then(|| (number(bytes, at + 25), number(bytes, at + 29)));
    Some(Record { kind, span: span(bytes, at + 1), text, next: at + record_length(kind) })
}

pub fn error(bytes: &[u8], at: usize) -> Option<(Mistake, usize)> {
    let kind = *bytes.get(at)?;
    if !(1..=10).contains(&kind) || bytes.len() - at < error_length(kind) {
        return None;
    }
    let code = (error_length(kind) == 29).then(|| number(bytes, at + 25) as u32);
    Some((Mistake { kind, span: span(bytes, at + 1), code }, at + error_length(kind)))
}

/// The text of a record, and whether it is where document 01 says: a made one in the text buffer, another one at the token's start.
fn text<'a>(r: &Record, script: &'a [u8], texts: &'a [u8]) -> Result<&'a [u8], String> {
    let Some((offset, length)) = r.text else {
        return Ok(SPELLINGS[r.kind as usize].as_bytes());
    };
    if !is_made(r.kind) && offset != r.span[0] {
        return Err(format!("a script text at {offset} of a token at {}", r.span[0]));
    }
    let source = if is_made(r.kind) { texts } else { script };
    source.get(offset as usize..(offset + length) as usize).ok_or_else(|| format!("text {offset} {length} outside its buffer"))
}

/// Whether made texts, by their offsets and lengths, fill so many bytes without gap or overlap, with the offsets of empty ones at a
/// text's beginning or at the end.
fn fill(places: &[(u64, u64)], size: u64) -> Result<(), String> {
    let mut filled: Vec<(u64, u64)> = places.iter().copied().filter(|p| p.1 > 0).collect();
    filled.sort_unstable();
    let mut end = 0;
    for (offset, length) in filled.iter().copied() {
        if offset != end {
            return Err(format!("a gap or an overlap at {offset} of the text buffer"));
        }
        end = offset + length;
    }
    if end != size {
        return Err(format!("texts end at {end} of {size}"));
    }
    let begins = |offset: u64| offset == end || filled.binary_search_by_key(&offset, |p| p.0).is_ok();
    match places.iter().find(|(offset, length)| *length == 0 && !begins(*offset)) {
        None => Ok(()),
        Some((offset, _)) => Err(format!("an empty text at {offset}")),
    }
}

/// The end of a made text, by its offset and length. Order 3 of document 02: it begins where the texts before it end, an empty one too.
fn end_behind(end: u64, (offset, length): (u64, u64)) -> Result<u64, String> {
    if offset != end {
        return Err(format!("a text at {offset} of the text buffer; those before it end at {end}"));
    }
    Ok(offset + length)
}

/// Both lists; and the made texts fill the text buffer's used part in the order of their tokens.
pub fn lists(script: &[u8], tokens: &[u8], texts: &[u8], errors: &[u8]) -> Result<Lexed, String> {
    let script = script.strip_prefix("\u{FEFF}".as_bytes()).unwrap_or(script);
    let mut lexed = Lexed { tokens: Vec::new(), errors: Vec::new() };
    let mut places: Vec<(u64, u64)> = Vec::new();
    let mut end = 0;
    let mut at = 0;
    while at < tokens.len() {
        let r = record(tokens, at).ok_or_else(|| format!("no whole record at {at}"))?;
        if r.kind == EOF && r.next != tokens.len() {
            return Err(format!("EOF at {at}, before the end of the records"));
        }
        lexed.tokens.push(Token { kind: r.kind, text: text(&r, script, texts)?.to_vec(), span: r.span });
        if let Some(place) = r.text.filter(|_| is_made(r.kind)) {
            end = end_behind(end, place)?;
            places.push(place);
        }
        at = r.next;
    }
    if lexed.tokens.last().map(|t| t.kind) != Some(EOF) {
        return Err("the records do not end with EOF".to_string());
    }
    if end != texts.len() as u64 {
        return Err(format!("the texts end at {end} of {} bytes used", texts.len()));
    }
    fill(&places, texts.len() as u64)?;
    at = 0;
    while at < errors.len() {
        let (mistake, next) = error(errors, at).ok_or_else(|| format!("no whole error at {at}"))?;
        lexed.errors.push(mistake);
        at = next;
    }
    Ok(lexed)
}

#[cfg(test)]
mod tests {
    use super::*;

    #[test]
    fn made_texts_fill_their_buffer() {
        assert_eq!(fill(&[(3, 2), (0, 3), (3, 0), (5, 0), (0, 0)], 5), Ok(()));
        assert_eq!(fill(&[], 0), Ok(()));
        for (places, size) in [(vec![(0, 2), (3, 2)], 5), (vec![(0, 3), (2, 2)], 4), (vec![(0, 3)], 4), (vec![(0, 3), (1, 0)], 3)] {
            assert!(fill(&places, size).is_err(), "{places:?} {size}");
        }
    }

    /// The records of strings with texts at these places, ended by EOF.
    fn records(places: &[(u32, u32)]) -> Vec<u8> {
        let mut bytes = Vec::new();
        for (offset, length) in places {
            bytes.push(2);
            bytes.extend([0; 24]);
            bytes.extend(offset.to_le_bytes());
            bytes.extend(length.to_le_bytes());
        }
        bytes.push(EOF);
        bytes.extend([0; 24]);
        bytes
    }

    fn texts(places: &[(u32, u32)], bytes: &str) -> Result<Vec<String>, String> {
        let lexed = lists(b"", &records(places), bytes.as_bytes(), b"")?;
        Ok(lexed.tokens.into_iter().filter(|t| is_made(t.kind)).map(|t| String::from_utf8(t.text).expect("UTF-8")).collect())
    }

    /// Each of these places, over bytes that they lie inside of, is refused for this reason.
    fn refused(reason: &str, rows: &[(&[(u32, u32)], &str)]) {
        for (places, bytes) in rows {
            let told = texts(places, bytes).expect_err("refused");
            assert!(told.contains(reason), "{places:?} {bytes}: {told}");
        }
    }

    #[test]
    fn texts_lie_one_behind_another() {
        assert_eq!(texts(&[], ""), Ok(vec![]));
        assert_eq!(texts(&[(0, 1), (1, 0), (1, 2), (3, 0)], "abc"), Ok(["a", "", "bc", ""].map(String::from).to_vec()));
        refused("those before it end at", &[(&[(1, 1)], "ab"), (&[(0, 1), (2, 1)], "abc"), (&[(0, 2), (1, 1)], "ab")]);
        refused("the texts end at", &[(&[], "a"), (&[(0, 1)], "ab")]);
    }

    /// No gap and no overlap, an empty text where a text begins or at the end: all that document 01 asked before order 3.
    #[test]
    fn no_other_order_is_taken() {
        refused("those before it end at", &[(&[(2, 1), (0, 2)], "bca"), (&[(0, 1), (2, 1), (1, 1)], "acb")]);
        refused("those before it end at", &[(&[(0, 1), (0, 0)], "a"), (&[(0, 1), (2, 0), (1, 1)], "ab"), (&[(1, 0), (0, 1)], "a")]);
    }
}
