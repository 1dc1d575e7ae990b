//! Question 2 by Rust's standard library and by order 1's own words.
use std::ops::RangeInclusive;
use std::str::Utf8Error;

/// The second bytes from 80 to BF that lie outside the range of order 1's leads (RFC 3629, section 4).
const BARRED: [(u8, RangeInclusive<u8>); 4] = [(0xE0, 0x80..=0x9F), (0xED, 0xA0..=0xBF), (0xF0, 0x80..=0x8F), (0xF4, 0x90..=0xBF)];

fn is_barred(bad: &[u8]) -> bool {
    matches!(bad, [lead, second, ..] if BARRED.iter().any(|(of, range)| of == lead && range.contains(second)))
}

/// Cut is 9: the standard library says that the text ends before its last sequence does. Barred is 10, and the rest is 2.
fn number(text: &[u8], error: Utf8Error) -> u64 {
    match error.error_len() {
        None => 9,
        Some(_) if is_barred(&text[error.valid_up_to()..]) => 10,
        Some(_) => 2,
    }
}

/// The number and the figure of the refusal; none where the text is UTF-8.
pub fn refusal(text: &[u8]) -> Option<(u64, u64)> {
    std::str::from_utf8(text).err().map(|error| (number(text, error), error.valid_up_to() as u64))
}

#[cfg(test)]
mod tests {
    use super::refusal;

    fn numbers(texts: &[&[u8]]) -> Vec<u64> {
        texts.iter().map(|text| refusal(text).map_or(0, |(number, _)| number)).collect()
    }

    #[test]
    fn the_rows_of_document_01_are_as_order_1_has_them() {
        assert_eq!(refusal(b"\xC3"), Some((9, 0)));
        assert_eq!(refusal(b"\xED\xA0\x80"), Some((10, 0)));
        assert_eq!(refusal(b"\xEF\xBB"), Some((9, 0)));
    }

    #[test]
    fn a_barred_second_byte_at_the_very_end_is_not_cut() {
        assert_eq!(numbers(&[b"\xE0\x80", b"\xED\xA0", b"\xF0\x8F", b"\xF4\x90"]), [10; 4]);
        assert_eq!(numbers(&[b"\xE0\xA0", b"\xED\x9F", b"\xF0\x90", b"\xF4\x8F"]), [9; 4]);
    }

    #[test]
    fn the_rest_is_2() {
        assert_eq!(numbers(&[b"\xC0", b"\xC1", b"\xF5", b"\xFF", b"\x80", b"\xBF"]), [2; 6]);
        assert_eq!(numbers(&[b"\xC3(", b"\xE0(", b"\xF4(", b"\xE0\xA0(", b"\xF0\x90\x80(", b"\xC0\x80"]), [2; 6]);
    }

    #[test]
    fn utf8_is_not_refused() {
        assert_eq!(numbers(&[b"", b"a", "é€🪦".as_bytes()]), [0; 3]);
    }
}
