/* The proved Aura lexer: the calls of the static library libaura_host.a, for C99 and C++11.
 *
 * The library is for x86-64 Linux alone, whatever machine it was built on: ELF, position-independent code, 64-bit sizes. From the
 * host it takes memcpy and memset only, and this header takes stddef.h and stdint.h only.
 *
 * Every call
 *   - keeps no memory of its own, takes no heap and starts nothing, so calls may run on several threads at a time;
 *   - takes a slice as a pointer and a length in bytes.
 *
 * The caller has to see to this, as for any C function:
 *   - no pointer is NULL, also where the length is 0;
 *   - each pointer leads to as many bytes (or slots) as the call is told;
 *   - the buffers that a call writes and its answer overlap neither each other nor the slices that it reads.
 *
 * Except for aura_mark_length, aura_is_white and aura_encode_char, a call returns 0 for a yes, else the number of the refusal
 * (AURA_REFUSED_..). The first slot of its answer is for the figure, and a yes keeps it. A refusal sets it and changes nothing
 * else: the other slots and every lent buffer keep, so a reader that takes its place from the answer stays where it was.
 */
#ifndef AURA_LEXER_H
#define AURA_LEXER_H

#include "aura_kinds.h"
#include "aura_words.h"

#include <stddef.h>
#include <stdint.h>

#ifdef __cplusplus
extern "C" {
#endif

/* The version of the calls, the headers and the crate for Rust. */
#define AURA_VERSION "0.5.0"
#define AURA_VERSION_MAJOR 0
#define AURA_VERSION_MINOR 5
#define AURA_VERSION_PATCH 0

/* The commit of onlynight/AuraLang whose lexer this one is a translation of. */
#define AURA_ORIGINAL "c401ce55f2"

/* A compiler for 32-bit sizes stops here. */
typedef char aura_size_has_64_bits[sizeof(size_t) == 8 ? 1 : -1];

/* The longest script, in bytes, its byte-order mark counted. */
#define AURA_LIMIT ((size_t)1048576)

/* Buffers of these sizes are never too small for a script of n bytes, and are filled in one pass. */
#define AURA_TOKENS_ROOM(n) (33 * ((size_t)(n) + 1))
#define AURA_TEXTS_ROOM(n) (2 * (size_t)(n) + 2)
#define AURA_ERRORS_ROOM(n) (29 * (size_t)(n))

/* A print buffer of this size is never too small for a script of n bytes. */
#define AURA_PRINT_ROOM(n) (6 * (size_t)(n))

/* Records. The kind is one byte, all other numbers are 32-bit little-endian. Offsets count bytes after the script's byte-order mark.
 * Lines and columns count from 1, columns in characters; behind a line feed skipped as white space the record's column is one more
 * than an editor's (document 01, until it is changed).
 *
 *   token record   0 kind, 1 start, 5 end, 9 start line, 13 start column, 17 end line, 21 end column: 25 bytes; the kinds
 *                  0 to 5, 39, 121, 123 and 125 go on with 25 text offset, 29 text length: 33 bytes
 *   error record   the same 25 bytes with the error's kind; 1 and 7 go on with 25 code point: 29 bytes
 *
 * The text of the kinds 2, 3, 121 and 123 is a part of the text buffer, that of 0, 1, 4, 5, 39 and 125 a part of the script after
 * its mark. Other kinds have a fixed spelling or none (aura_kinds.h). aura_token_text gives the text of any kind.
 *
 * In the text buffer texts lie in the order of their tokens, from byte 0, without gaps; an empty one's offset is the end of the text
 * before it, or 0 (document 02, order 3). So the bytes used can be read straight through, by the lengths in the records alone.
 *
 * end is the offset of the last character for names and keywords (kinds 4 to 68), equals start for a lone mark, and is one past
 * the last character for all others. Pieces of one string share its start. */

/* The slots of each answer. The first is set by a refusal only, the others by a yes only. */
enum { AURA_FIGURE = 0 };

/* aura_measure, aura_tokenize. */
enum {
    AURA_USED_TOKENS = 1, /* bytes used in the token buffer */
    AURA_USED_TEXTS = 2,  /* bytes used in the text buffer */
    AURA_USED_ERRORS = 3, /* bytes used in the error buffer */
    AURA_USED_COUNT = 4,  /* the number of tokens, EOF counted */
    AURA_USED_CLOSED = 5, /* 1: nothing is open at the script's end; 0: something is */
    AURA_USED_SLOTS = 6
};

/* aura_print. */
enum {
    AURA_PRINT_BYTES = 1, /* bytes written into the print buffer */
    AURA_PRINT_SLOTS = 2
};

/* aura_next_token; aura_consume with one slot more; aura_match_kind with the place and one slot; aura_next_error. */
enum {
    AURA_NEXT_PLACE = 1, /* the place of the next record */
    AURA_KIND = 2,
    AURA_START = 3,
    AURA_END = 4,
    AURA_START_LINE = 5,
    AURA_START_COLUMN = 6,
    AURA_END_LINE = 7,
    AURA_END_COLUMN = 8,
    AURA_TEXT_OFFSET = 9,  /* 0 for a kind without a text */
    AURA_TEXT_LENGTH = 10, /* 0 for a kind without a text */
    AURA_TOKEN_SLOTS = 11,
    AURA_CONSUME_FITS = 11, /* 1: the token is of the kind asked for; 0: it is not */
    AURA_CONSUME_SLOTS = 12,
    AURA_MATCH_FITS = 2, /* 1: the token is of the kind asked for; 0: it is not */
    AURA_MATCH_SLOTS = 3,
    AURA_CODE_POINT = 9, /* 0 for an error that names no character */
    AURA_ERROR_SLOTS = 10
};

/* aura_text_check, aura_token_text: the figure alone. */
enum { AURA_CHECK_SLOTS = 1 };

/* Tokenises a script into three lent buffers. Bytes beyond those used keep. The answer and every byte that is left in the buffers
 * are fixed by the script and by what was lent. Refusals 1 to 5, 9 and 10. */
uint64_t aura_tokenize(const uint8_t *script, size_t script_length,
                       uint8_t *tokens, size_t tokens_length,
                       uint8_t *texts, size_t texts_length,
                       uint8_t *errors, size_t errors_length,
                       uint64_t answer[AURA_USED_SLOTS]);

/* What tokenising would answer. It writes the answer only. Refusals 1, 2, 9 and 10. */
uint64_t aura_measure(const uint8_t *script, size_t script_length, uint64_t answer[AURA_USED_SLOTS]);

/* Writes the office print of a script (document 02, order 2) into a lent buffer: the same tokens in one layout, UTF-8 without a
 * byte-order mark. Bytes beyond those written keep. An empty script, or one of comments alone, is printed as no bytes. Refusals, the
 * first that holds: 1; 2, 9 or 10; 11 where the script has an error; 12 where the buffer is too small. So a call with an empty buffer
 * tells the bytes needed. A print may be over AURA_LIMIT; only one that is not can be lexed again. */
uint64_t aura_print(const uint8_t *script, size_t script_length,
                    uint8_t *print, size_t print_length,
                    uint64_t answer[AURA_PRINT_SLOTS]);

/* The token record at a place. At EOF the next place is the same place. Refusal 7. */
uint64_t aura_next_token(const uint8_t *tokens, size_t tokens_length, size_t place, uint64_t answer[AURA_TOKEN_SLOTS]);

/* The same, and whether the token is of a kind. The next place is behind the record either way; EOF is not left. Refusals 6 and 7. */
uint64_t aura_consume(const uint8_t *tokens, size_t tokens_length, size_t place, uint64_t kind,
                      uint64_t answer[AURA_CONSUME_SLOTS]);

/* Whether the token at a place is of a kind. The next place is behind the record only then; EOF is not left. Refusals 6 and 7. */
uint64_t aura_match_kind(const uint8_t *tokens, size_t tokens_length, size_t place, uint64_t kind,
                         uint64_t answer[AURA_MATCH_SLOTS]);

/* The error record at a place. There is no EOF among the errors: behind the last one it answers 7. Refusal 7. */
uint64_t aura_next_error(const uint8_t *errors, size_t errors_length, size_t place, uint64_t answer[AURA_ERROR_SLOTS]);

/* Whether the text of the token record at a place lies inside its buffer; yes for a kind without a text. The script is lent as it
 * was to tokenising, its mark included. Refusals 7 and 8. */
uint64_t aura_text_check(const uint8_t *script, size_t script_length,
                         const uint8_t *texts, size_t texts_length,
                         const uint8_t *tokens, size_t tokens_length,
                         size_t place, uint64_t answer[AURA_CHECK_SLOTS]);

/* Whether a text of any length is UTF-8. Its answer is the figure alone: the first byte of the first bad sequence. Refusals 2, 9
 * and 10. */
uint64_t aura_first_bad(const uint8_t *text, size_t length, uint64_t *figure);

/* The bytes of the byte-order mark that the text begins with: 3 or 0. */
uint64_t aura_mark_length(const uint8_t *text, size_t length);

/* 1 where the code point is white space, else 0. */
uint64_t aura_is_white(uint32_t code);

/* Writes a character as UTF-8 at a place of the buffer: the bytes written, 1 to 4; or 0 where the code point is no character or
 * does not fit, and then the buffer keeps. */
uint64_t aura_encode_char(uint32_t code, uint8_t *buffer, size_t length, size_t at);

/* A text: so many bytes. A zero byte behind them is not promised. */
typedef struct aura_text {
    const uint8_t *bytes;
    size_t length;
} aura_text;

/* The fixed spelling of a kind as a text; empty for a kind without one and for a number over 125. */
#define AURA_ROW(number, name, spelling) \
    case number: \
        text.bytes = (const uint8_t *)spelling; \
        text.length = sizeof spelling - 1; \
        break;
static inline aura_text aura_spelling_text(uint64_t kind) {
    aura_text text = {(const uint8_t *)"", 0};
    switch (kind) {
    AURA_KINDS(AURA_ROW)
    default: break;
    }
    return text;
}
#undef AURA_ROW

/* 1 where the text of a kind is a part of the text buffer: 2, 3, 121 and 123; else 0. */
static inline int aura_has_made_text(uint64_t kind) {
    return kind == AURA_KIND_StringLiteral || kind == AURA_KIND_CharLiteral || kind == AURA_KIND_StringInterpStart
        || kind == AURA_KIND_DocComment;
}

/* The text of the token record at a place. The arguments are those of aura_text_check and the text to set; the script is lent with
 * its mark. A yes sets the text and keeps the figure:
 *   kinds 2, 3, 121, 123             a part of the text buffer
 *   kinds 0, 1, 4, 5, 39, 125        a part of the script
 *   other kinds                      the fixed spelling; no bytes for EOF and for a kind that is never made
 * Its pointer is never NULL, and it is good as long as the script and the text buffer are. A refusal sets the figure and keeps the
 * text: 7, the place; 8, the offset of the record's text. */
static inline uint64_t aura_token_text(const uint8_t *script, size_t script_length,
                                       const uint8_t *texts, size_t texts_length,
                                       const uint8_t *tokens, size_t tokens_length,
                                       size_t place, aura_text *text, uint64_t answer[AURA_CHECK_SLOTS]) {
    uint64_t token[AURA_TOKEN_SLOTS];
    uint64_t number = aura_next_token(tokens, tokens_length, place, token);
    if (number != AURA_YES) {
        answer[AURA_FIGURE] = token[AURA_FIGURE];
        return number;
    }
    number = aura_text_check(script, script_length, texts, texts_length, tokens, tokens_length, place, answer);
    if (number != AURA_YES) return number;
    if (aura_has_made_text(token[AURA_KIND])) {
        text->bytes = texts + token[AURA_TEXT_OFFSET];
        text->length = token[AURA_TEXT_LENGTH];
        return AURA_YES;
    }
    switch (token[AURA_KIND]) {
    case AURA_KIND_IntLiteral: case AURA_KIND_FloatLiteral: case AURA_KIND_BoolLiteral: case AURA_KIND_Ident:
    case AURA_KIND_Unit: case AURA_KIND_Error:
        text->bytes = script + aura_mark_length(script, script_length) + token[AURA_TEXT_OFFSET];
        text->length = token[AURA_TEXT_LENGTH];
        break;
    default: *text = aura_spelling_text(token[AURA_KIND]); break;
    }
    return AURA_YES;
}

#ifdef __cplusplus
}
#endif

#endif
