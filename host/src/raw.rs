//! The exported calls on numbers and slices, without `unsafe` for the caller. Each returns 0 for a yes, else the number of the
//! refusal; the answer is lent, so that a caller sees which slots were set (`include/aura_lexer.h` says what each one means).

/// The slot of the figure, the first of each answer: a refusal sets it alone, a yes keeps it and sets the others.
pub const FIGURE: usize = 0;

/// The slots of measuring and tokenising.
pub const USED_SLOTS: usize = 6;

/// Of printing: the bytes written.
pub const PRINT_BYTES: usize = 1;
/// The slots of printing.
pub const PRINT_SLOTS: usize = 2;

/// In the answers of all readers: the place of the next record.
pub const NEXT_PLACE: usize = 1;
/// In the answers of the readers of tokens and errors: the record's kind.
pub const KIND: usize = 2;
/// The first of the six slots of the record's span.
pub const START: usize = 3;

/// Of a token: the offset of its text.
pub const TEXT_OFFSET: usize = 9;
/// Of a token: the length of its text.
pub const TEXT_LENGTH: usize = 10;
/// The slots of the next token.
pub const TOKEN_SLOTS: usize = 11;

/// Of consuming: 1 where the token is of the kind asked for, else 0.
pub const CONSUME_FITS: usize = 11;
/// The slots of consuming.
pub const CONSUME_SLOTS: usize = 12;

/// Of an error: the code point that it names.
pub const CODE_POINT: usize = 9;
/// The slots of the next error.
pub const ERROR_SLOTS: usize = 10;

/// Of matching, which has no span: 1 where the token is of the kind asked for, else 0.
pub const MATCH_FITS: usize = 2;
/// The slots of matching.
pub const MATCH_SLOTS: usize = 3;

/// The slots of the text check: the figure only.
pub const CHECK_SLOTS: usize = 1;

mod calls {
    use super::{CHECK_SLOTS, CONSUME_SLOTS, ERROR_SLOTS, MATCH_SLOTS, PRINT_SLOTS, TOKEN_SLOTS, USED_SLOTS};

    extern "C" {
        pub fn aura_first_bad(text: *const u8, length: usize, figure: *mut u64) -> u64;
        pub fn aura_mark_length(text: *const u8, length: usize) -> u64;
        pub fn aura_is_white(code: u32) -> u64;
        pub fn aura_encode_char(code: u32, buffer: *mut u8, length: usize, at: usize) -> u64;
        pub fn aura_measure(script: *const u8, length: usize, answer: *mut [u64; USED_SLOTS]) -> u64;
        pub fn aura_tokenize(
            script: *const u8,
            script_length: usize,
            tokens: *mut u8,
            tokens_length: usize,
            texts: *mut u8,
            texts_length: usize,
            errors: *mut u8,
            errors_length: usize,
            answer: *mut [u64; USED_SLOTS],
        ) -> u64;
        pub fn aura_print(
            script: *const u8,
            script_length: usize,
            print: *mut u8,
            print_length: usize,
            answer: *mut [u64; PRINT_SLOTS],
        ) -> u64;
        pub fn aura_next_token(tokens: *const u8, length: usize, place: usize, answer: *mut [u64; TOKEN_SLOTS]) -> u64;
        pub fn aura_consume(tokens: *const u8, length: usize, place: usize, kind: u64, answer: *mut [u64; CONSUME_SLOTS]) -> u64;
        pub fn aura_match_kind(tokens: *const u8, length: usize, place: usize, kind: u64, answer: *mut [u64; MATCH_SLOTS]) -> u64;
        pub fn aura_next_error(errors: *const u8, length: usize, place: usize, answer: *mut [u64; ERROR_SLOTS]) -> u64;
        pub fn aura_text_check(
            script: *const u8,
            script_length: usize,
            texts: *const u8,
            texts_length: usize,
            tokens: *const u8,
            tokens_length: usize,
            place: usize,
            answer: *mut [u64; CHECK_SLOTS],
        ) -> u64;
    }
}

// In every call below the pointers come from references: they are not null, lead to as many bytes as told, and what is written
// overlaps nothing.

/// `aura_measure`: what tokenising would answer.
pub fn measure(script: &[u8], answer: &mut [u64; USED_SLOTS]) -> u64 {
    unsafe { calls::aura_measure(script.as_ptr(), script.len(), answer) }
}

/// `aura_tokenize`: tokenises a script into three lent buffers.
pub fn tokenize(script: &[u8], tokens: &mut [u8], texts: &mut [u8], errors: &mut [u8], answer: &mut [u64; USED_SLOTS]) -> u64 {
    unsafe {
        calls::aura_tokenize(
            script.as_ptr(),
            script.len(),
            tokens.as_mut_ptr(),
            tokens.len(),
            texts.as_mut_ptr(),
            texts.len(),
            errors.as_mut_ptr(),
            errors.len(),
            answer,
        )
    }
}

/// `aura_print`: writes the office print of a script into a lent buffer.
pub fn print(script: &[u8], print: &mut [u8], answer: &mut [u64; PRINT_SLOTS]) -> u64 {
    unsafe { calls::aura_print(script.as_ptr(), script.len(), print.as_mut_ptr(), print.len(), answer) }
}

/// `aura_next_token`: the token record at a place.
pub fn next_token(tokens: &[u8], place: usize, answer: &mut [u64; TOKEN_SLOTS]) -> u64 {
    unsafe { calls::aura_next_token(tokens.as_ptr(), tokens.len(), place, answer) }
}

/// `aura_consume`: the same, and whether it is of a kind; moves on either way.
pub fn consume(tokens: &[u8], place: usize, kind: u64, answer: &mut [u64; CONSUME_SLOTS]) -> u64 {
    unsafe { calls::aura_consume(tokens.as_ptr(), tokens.len(), place, kind, answer) }
}

/// `aura_match_kind`: whether the token at a place is of a kind; moves on only then.
pub fn match_kind(tokens: &[u8], place: usize, kind: u64, answer: &mut [u64; MATCH_SLOTS]) -> u64 {
    unsafe { calls::aura_match_kind(tokens.as_ptr(), tokens.len(), place, kind, answer) }
}

/// `aura_next_error`: the error record at a place.
pub fn next_error(errors: &[u8], place: usize, answer: &mut [u64; ERROR_SLOTS]) -> u64 {
    unsafe { calls::aura_next_error(errors.as_ptr(), errors.len(), place, answer) }
}

/// `aura_text_check`: whether the text of the token record at a place lies inside its buffer.
pub fn text_check(script: &[u8], texts: &[u8], tokens: &[u8], place: usize, answer: &mut [u64; CHECK_SLOTS]) -> u64 {
    unsafe {
        calls::aura_text_check(script.as_ptr(), script.len(), texts.as_ptr(), texts.len(), tokens.as_ptr(), tokens.len(), place, answer)
    }
}

/// `aura_first_bad`: whether a text is UTF-8.
pub fn first_bad(text: &[u8], figure: &mut u64) -> u64 {
    unsafe { calls::aura_first_bad(text.as_ptr(), text.len(), figure) }
}

/// `aura_mark_length`: the bytes of the byte-order mark that a text begins with.
pub fn mark_length(text: &[u8]) -> u64 {
    unsafe { calls::aura_mark_length(text.as_ptr(), text.len()) }
}

/// `aura_is_white`: 1 where the code point is white space, else 0.
pub fn is_white(code: u32) -> u64 {
    unsafe { calls::aura_is_white(code) }
}

/// `aura_encode_char`: writes a character as UTF-8; the bytes written, or 0.
pub fn encode_char(code: u32, buffer: &mut [u8], at: usize) -> u64 {
    unsafe { calls::aura_encode_char(code, buffer.as_mut_ptr(), buffer.len(), at) }
}
