/* The refusals and the errors, in words. The crate for Rust and the documents have the same words: the tests hold them against
 * these.
 *
 *   AURA_REFUSALS(X)   X(number, name, meaning, what the figure is, advice); the constant is AURA_REFUSED_name
 *   AURA_ERRORS(X)     X(number, name, meaning, advice); the constant is AURA_ERROR_name
 */
#ifndef AURA_WORDS_H
#define AURA_WORDS_H

#include <stddef.h>
#include <stdint.h>

/* What a call answers where it says no. A script that is not UTF-8 is refused with 9, 10 or 2, by its first bad sequence; the figures of
 * these three count the byte-order mark. */
#define AURA_REFUSALS(X) \
    X(1, LENGTH, "the script is over 1,048,576 bytes", "its length", "split the script into parts of at most 1,048,576 bytes") \
    X(2, UTF8, "the script is not UTF-8", "the first byte of the first bad sequence", "save the script as UTF-8") \
    X(3, TOKENS, "the token buffer is too small", "the bytes needed", "lend a token buffer of at least that size") \
    X(4, TEXTS, "the text buffer is too small", "the bytes needed", "lend a text buffer of at least that size") \
    X(5, ERRORS, "the error buffer is too small", "the bytes needed", "lend an error buffer of at least that size") \
    X(6, KIND, "a kind over 125 was asked for", "the kind", "ask for a kind from 0 to 125") \
    X(7, PLACE, "no whole record of a known kind starts at the place", "the place", "go on from a place that a reader answered, in the part of the buffer that tokenising used") \
    X(8, TEXT, "a record's text lies outside its buffer", "its offset", "lend the script and the text buffer that belong to the records") \
    X(9, CUT, "the script ends in the middle of a character", "the first byte of the first bad sequence", "it was cut short on its way; send it again") \
    X(10, BARRED, "the script holds bytes that no program may write as UTF-8", "the first byte of the first bad sequence", "the program that saved it is at fault; save the script as UTF-8 with another one") \
    X(11, MISTAKE, "the script has a mistake", "where the first one recorded starts, in bytes after the byte-order mark", "list its mistakes, mend them, and print it again") \
    X(12, PRINT, "the print buffer is too small", "the bytes needed", "lend a print buffer of at least that size")

/* The mistakes that a script has. The records of 1 and 7 have the character's code point. */
#define AURA_ERRORS(X) \
    X(1, CHARACTER, "a character that begins no token", "take it out, or put it into a string or a comment") \
    X(2, COMMENT, "a block comment without its end", "close it with */") \
    X(3, RAW_STRING, "a raw string without its end", "close it with \"\"\"") \
    X(4, STRING_END, "a string without its closing quote at the end of the script", "close it with \"") \
    X(5, STRING_LINE, "a string without its closing quote at the end of the line", "close it with \" on its line, or use \"\"\" for several lines") \
    X(6, UNICODE, "\\u without four hexadecimal digits", "write four digits, as in \\u0041") \
    X(7, ESCAPE, "a backslash before a character that it does not escape", "write \\\\ for a backslash, or one of \\n \\t \\r \\\\ \\' \\\" \\0 \\b \\f \\v \\/ \\u") \
    X(8, INTERPOLATION, "an interpolation ${ without its }", "close it with }") \
    X(9, CHAR_LITERAL, "a character literal without its closing quote", "close it with ' after one character, or use \" for a string") \
    X(10, DOC_COMMENT, "a doc comment without its end", "close it with */")

/* The numbers that calls answer: AURA_YES, AURA_REFUSED_LENGTH, .. , AURA_REFUSED_PRINT. */
#define AURA_ROW(number, name, meaning, figure, advice) AURA_REFUSED_##name = number,
enum { AURA_YES = 0, AURA_REFUSALS(AURA_ROW) };
#undef AURA_ROW

/* The kinds of errors: AURA_ERROR_CHARACTER, .. , AURA_ERROR_DOC_COMMENT. */
#define AURA_ROW(number, name, meaning, advice) AURA_ERROR_##name = number,
enum { AURA_ERRORS(AURA_ROW) };
#undef AURA_ROW

/* What was wrong with a refused call; NULL for a number not in use. */
#define AURA_ROW(number, name, meaning, figure, advice) case number: return meaning;
static inline const char *aura_refusal_meaning(uint64_t number) {
    switch (number) {
    AURA_REFUSALS(AURA_ROW)
    default: return NULL;
    }
}
#undef AURA_ROW

/* What the figure of a refusal is; NULL for a number not in use. */
#define AURA_ROW(number, name, meaning, figure, advice) case number: return figure;
static inline const char *aura_refusal_figure(uint64_t number) {
    switch (number) {
    AURA_REFUSALS(AURA_ROW)
    default: return NULL;
    }
}
#undef AURA_ROW

/* What to do about a refusal; NULL for a number not in use. */
#define AURA_ROW(number, name, meaning, figure, advice) case number: return advice;
static inline const char *aura_refusal_advice(uint64_t number) {
    switch (number) {
    AURA_REFUSALS(AURA_ROW)
    default: return NULL;
    }
}
#undef AURA_ROW

/* What is wrong in a script; NULL for a kind not in use. */
#define AURA_ROW(number, name, meaning, advice) case number: return meaning;
static inline const char *aura_error_meaning(uint64_t kind) {
    switch (kind) {
    AURA_ERRORS(AURA_ROW)
    default: return NULL;
    }
}
#undef AURA_ROW

/* What to do about an error; NULL for a kind not in use. */
#define AURA_ROW(number, name, meaning, advice) case number: return advice;
static inline const char *aura_error_advice(uint64_t kind) {
    switch (kind) {
    AURA_ERRORS(AURA_ROW)
    default: return NULL;
    }
}
#undef AURA_ROW

#endif
