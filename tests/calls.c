/* Every exported call from C or C++, with the slots that it sets and those that it has to keep; and what the headers have beside
 * them: the kinds, the words, the texts of tokens, the version. */
#include "aura_lexer.h"

#include <stdio.h>
#include <string.h>

#define KEPT UINT64_C(0xEEEEEEEEEEEEEEEE)
#define GUARD 0xA5
#define N 64
#define SLOTS 16
#ifdef __cplusplus
#define LANGUAGE "C++"
#else
#define LANGUAGE "C"
#endif

static int done, failed;
static uint64_t slots[SLOTS];
static uint8_t tokens[33 * (N + 1)], texts[2 * N + 2], errors[29 * N], printed[N];
static const uint8_t zeros[AURA_LIMIT + 1] = {0};

#define CHECK(held) check((held), #held, __LINE__)
static void check(int held, const char *what, int line) {
    done++;
    if (held) return;
    failed++;
    printf("calls: line %d: this does not hold: %s\n", line, what);
}

static uint64_t *fresh(void) {
    for (int i = 0; i < SLOTS; i++) slots[i] = KEPT;
    return slots;
}

/* Whether the slots from one on keep. */
static int keep_from(int first) {
    for (int i = first; i < SLOTS; i++)
        if (slots[i] != KEPT) return 0;
    return 1;
}

/* Whether a call said yes, and its answer of so many slots keeps the figure and what follows it. */
static int yes(uint64_t number, int answer_slots) {
    return number == AURA_YES && slots[AURA_FIGURE] == KEPT && keep_from(answer_slots);
}

/* Whether a call was refused with this number and figure, and all other slots keep. */
static int refused(uint64_t number, uint64_t expected, uint64_t figure) {
    return number == expected && slots[AURA_FIGURE] == figure && keep_from(AURA_FIGURE + 1);
}

static int all_guard(const uint8_t *bytes, size_t from, size_t size) {
    for (size_t i = from; i < size; i++)
        if (bytes[i] != GUARD) return 0;
    return 1;
}

static void fill(void) {
    memset(tokens, GUARD, sizeof tokens);
    memset(texts, GUARD, sizeof texts);
    memset(errors, GUARD, sizeof errors);
}

static uint64_t tokenize(const char *script, size_t length, size_t tokens_size, size_t texts_size, size_t errors_size) {
    fill();
    return aura_tokenize((const uint8_t *)script, length, tokens, tokens_size, texts, texts_size, errors, errors_size, fresh());
}

static void refused_scripts(void) {
    CHECK(refused(tokenize("\xC3", 1, N, N, N), AURA_REFUSED_CUT, 0));
    CHECK(refused(tokenize("\xED\xA0\x80", 3, N, N, N), AURA_REFUSED_BARRED, 0));
    CHECK(refused(tokenize("a\xFF", 2, N, N, N), AURA_REFUSED_UTF8, 1));
    CHECK(refused(aura_measure((const uint8_t *)"\xEF\xBB", 2, fresh()), AURA_REFUSED_CUT, 0));
    CHECK(refused(aura_measure((const uint8_t *)"\xEF\xBB\xBF\xF4\x90", 5, fresh()), AURA_REFUSED_BARRED, 3));
    CHECK(refused(tokenize("", 0, 24, 0, 0), AURA_REFUSED_TOKENS, 25));
    CHECK(refused(tokenize("'a'", 3, N, 0, 0), AURA_REFUSED_TEXTS, 1));
    CHECK(refused(tokenize("''", 2, N, N, 24), AURA_REFUSED_ERRORS, 25));
    CHECK(all_guard(tokens, 0, sizeof tokens) && all_guard(texts, 0, sizeof texts) && all_guard(errors, 0, sizeof errors));
    CHECK(refused(aura_measure(zeros, AURA_LIMIT + 1, fresh()), AURA_REFUSED_LENGTH, AURA_LIMIT + 1));
    CHECK(aura_measure(zeros, AURA_LIMIT, fresh()) == AURA_YES && slots[AURA_USED_ERRORS] == AURA_ERRORS_ROOM(AURA_LIMIT));
}

static void accepted_script(void) {
    const char *script = "\xEF\xBB\xBFval 'a\a";
    size_t length = strlen(script);
    CHECK(yes(aura_measure((const uint8_t *)script, length, fresh()), AURA_USED_SLOTS));
    uint64_t measured[AURA_USED_SLOTS];
    memcpy(measured, slots, sizeof measured);
    uint64_t number = tokenize(script, length, AURA_TOKENS_ROOM(length), AURA_TEXTS_ROOM(length), AURA_ERRORS_ROOM(length));
    CHECK(yes(number, AURA_USED_SLOTS) && memcmp(measured, slots, sizeof measured) == 0);
    CHECK(slots[AURA_USED_TOKENS] == 25 + 33 + 33 + 25 && slots[AURA_USED_TEXTS] == 1 && slots[AURA_USED_ERRORS] == 25 + 29);
    CHECK(slots[AURA_USED_COUNT] == 4 && slots[AURA_USED_CLOSED] == 1);
    CHECK(all_guard(tokens, slots[AURA_USED_TOKENS], sizeof tokens) && all_guard(texts, 1, sizeof texts));
    CHECK(all_guard(errors, slots[AURA_USED_ERRORS], sizeof errors));
    CHECK(tokens[0] == AURA_KIND_Val && tokens[25] == AURA_KIND_CharLiteral && tokens[58] == AURA_KIND_Error);
    CHECK(texts[0] == 'a' && errors[0] == AURA_ERROR_CHAR_LITERAL && errors[25] == AURA_ERROR_CHARACTER && errors[50] == 7);
}

static void token_readers(void) {
    size_t size = 25 + 33 + 33 + 25;
    CHECK(yes(aura_next_token(tokens, size, 25, fresh()), AURA_TOKEN_SLOTS));
    CHECK(slots[AURA_NEXT_PLACE] == 58 && slots[AURA_KIND] == AURA_KIND_CharLiteral && slots[AURA_START] == 4 && slots[AURA_END] == 6);
    CHECK(slots[AURA_START_LINE] == 1 && slots[AURA_START_COLUMN] == 5 && slots[AURA_END_LINE] == 1 && slots[AURA_END_COLUMN] == 7);
    CHECK(slots[AURA_TEXT_OFFSET] == 0 && slots[AURA_TEXT_LENGTH] == 1);
    CHECK(aura_next_token(tokens, size, 91, fresh()) == AURA_YES && slots[AURA_NEXT_PLACE] == 91 && slots[AURA_KIND] == AURA_KIND_EOF);
    CHECK(refused(aura_next_token(tokens, size, size, fresh()), AURA_REFUSED_PLACE, size));
    CHECK(refused(aura_next_token(tokens, 0, 0, fresh()), AURA_REFUSED_PLACE, 0));
    CHECK(yes(aura_consume(tokens, size, 0, AURA_KIND_Var, fresh()), AURA_CONSUME_SLOTS));
    CHECK(slots[AURA_NEXT_PLACE] == 25 && slots[AURA_KIND] == AURA_KIND_Val && slots[AURA_CONSUME_FITS] == 0);
    CHECK(aura_consume(tokens, size, 0, AURA_KIND_Val, fresh()) == AURA_YES && slots[AURA_CONSUME_FITS] == 1);
    CHECK(refused(aura_consume(tokens, size, 0, 126, fresh()), AURA_REFUSED_KIND, 126));
    CHECK(refused(aura_consume(tokens, size, 0, 256, fresh()), AURA_REFUSED_KIND, 256));
    CHECK(yes(aura_match_kind(tokens, size, 0, AURA_KIND_Var, fresh()), AURA_MATCH_SLOTS));
    CHECK(slots[AURA_NEXT_PLACE] == 0 && slots[AURA_MATCH_FITS] == 0);
    CHECK(yes(aura_match_kind(tokens, size, 0, AURA_KIND_Val, fresh()), AURA_MATCH_SLOTS));
    CHECK(slots[AURA_NEXT_PLACE] == 25 && slots[AURA_MATCH_FITS] == 1);
    CHECK(refused(aura_match_kind(tokens, size, SIZE_MAX, 0, fresh()), AURA_REFUSED_PLACE, SIZE_MAX));
}

static void errors_and_texts(void) {
    const uint8_t *script = (const uint8_t *)"\xEF\xBB\xBFval 'a\a";
    CHECK(yes(aura_next_error(errors, 54, 25, fresh()), AURA_ERROR_SLOTS));
    CHECK(slots[AURA_NEXT_PLACE] == 54 && slots[AURA_KIND] == AURA_ERROR_CHARACTER);
    CHECK(slots[AURA_START] == 6 && slots[AURA_CODE_POINT] == 7);
    CHECK(aura_next_error(errors, 54, 0, fresh()) == AURA_YES && slots[AURA_CODE_POINT] == 0);
    CHECK(refused(aura_next_error(errors, 54, 54, fresh()), AURA_REFUSED_PLACE, 54));
    CHECK(yes(aura_text_check(script, 10, texts, 1, tokens, 116, 25, fresh()), AURA_CHECK_SLOTS));
    CHECK(refused(aura_text_check(script, 10, texts, 0, tokens, 116, 25, fresh()), AURA_REFUSED_TEXT, 0));
    CHECK(refused(aura_text_check(script, 9, texts, 1, tokens, 116, 58, fresh()), AURA_REFUSED_TEXT, 6));
    CHECK(refused(aura_text_check(script, 10, texts, 1, tokens, 57, 25, fresh()), AURA_REFUSED_PLACE, 25));
}

/* Tokens read as in the README, with the place taken from the answer: the refusals between them leave it there. */
static void refused_token_readers(void) {
    static const uint64_t kinds[] = {AURA_KIND_Val, AURA_KIND_CharLiteral, AURA_KIND_Error, AURA_KIND_EOF};
    size_t size = 25 + 33 + 33 + 25;
    uint64_t token[AURA_CONSUME_SLOTS] = {0};
    for (int i = 0; i < 4; i++) {
        uint64_t place = token[AURA_NEXT_PLACE];
        CHECK(aura_consume(tokens, size, token[AURA_NEXT_PLACE], 126, token) == AURA_REFUSED_KIND && token[AURA_FIGURE] == 126);
        CHECK(token[AURA_NEXT_PLACE] == place);
        CHECK(aura_match_kind(tokens, size, token[AURA_NEXT_PLACE], 127, token) == AURA_REFUSED_KIND && token[AURA_FIGURE] == 127);
        CHECK(token[AURA_NEXT_PLACE] == place);
        CHECK(aura_next_token(tokens, size, size, token) == AURA_REFUSED_PLACE && token[AURA_FIGURE] == size);
        CHECK(token[AURA_NEXT_PLACE] == place);
        CHECK(aura_next_token(tokens, size, token[AURA_NEXT_PLACE], token) == AURA_YES && token[AURA_KIND] == kinds[i]);
        CHECK(token[AURA_FIGURE] == size);
    }
    CHECK(token[AURA_NEXT_PLACE] == size - 25);
}

/* Errors read as in the README, of a part of the buffer first: at its end the place stays, and the reader goes on from there. */
static void refused_error_reader(void) {
    uint64_t error[AURA_ERROR_SLOTS] = {0};
    int read = 0;
    while (aura_next_error(errors, 25, error[AURA_NEXT_PLACE], error) == AURA_YES) read++;
    CHECK(read == 1 && error[AURA_NEXT_PLACE] == 25 && error[AURA_KIND] == AURA_ERROR_CHAR_LITERAL);
    CHECK(aura_next_error(errors, 54, 99, error) == AURA_REFUSED_PLACE && error[AURA_FIGURE] == 99 && error[AURA_NEXT_PLACE] == 25);
    while (aura_next_error(errors, 54, error[AURA_NEXT_PLACE], error) == AURA_YES) read++;
    CHECK(read == 2 && error[AURA_NEXT_PLACE] == 54 && error[AURA_KIND] == AURA_ERROR_CHARACTER && error[AURA_FIGURE] == 54);
}

static void characters(void) {
    const uint8_t *marked = (const uint8_t *)"\xEF\xBB\xBF\xC3";
    CHECK(yes(aura_first_bad(marked, 3, fresh()), AURA_FIGURE + 1));
    CHECK(refused(aura_first_bad(marked, 4, fresh()), AURA_REFUSED_CUT, 3));
    CHECK(refused(aura_first_bad((const uint8_t *)"\xE0\x80", 2, fresh()), AURA_REFUSED_BARRED, 0));
    CHECK(refused(aura_first_bad((const uint8_t *)"a\xC3(", 3, fresh()), AURA_REFUSED_UTF8, 1));
    CHECK(aura_mark_length(marked, 3) == 3 && aura_mark_length(marked, 2) == 0);
    CHECK(aura_is_white(0x2028) == 1 && aura_is_white(0x200B) == 0);
    uint8_t buffer[4] = {GUARD, GUARD, GUARD, GUARD};
    CHECK(aura_encode_char(0x20AC, buffer, 4, 2) == 0 && aura_encode_char(0xD800, buffer, 4, 0) == 0 && all_guard(buffer, 0, 4));
    CHECK(aura_encode_char(0x20AC, buffer, 4, 1) == 3 && memcmp(buffer, "\xA5\xE2\x82\xAC", 4) == 0);
}

/* The texts of a script with a token of each home: s the script, t the text buffer, f a fixed spelling. */
static const struct row { uint64_t kind; char home; const char *text; } rows[] = {
    {AURA_KIND_IntLiteral, 's', "1"}, {AURA_KIND_FloatLiteral, 's', "2.5"}, {AURA_KIND_StringLiteral, 't', "s\n"},
    {AURA_KIND_CharLiteral, 't', "c"}, {AURA_KIND_BoolLiteral, 's', "true"}, {AURA_KIND_Ident, 's', "x"},
    {AURA_KIND_Unit, 's', "Unit"}, {AURA_KIND_StringInterpStart, 't', "$i"}, {AURA_KIND_DoubleColonT, 'f', "::="},
    {AURA_KIND_Error, 's', "\a"}, {AURA_KIND_DocComment, 't', "d"}, {AURA_KIND_EOF, 'f', ""}
};
#define ROWS (sizeof rows / sizeof rows[0])
#define MARK "\xEF\xBB\xBF"
#define SCRIPT "1 2.5 \"s\\n\" 'c' true x Unit \"$i\" := \a /// d"

static int inside(const uint8_t *part, const uint8_t *whole, size_t length) {
    return (uintptr_t)part >= (uintptr_t)whole && (uintptr_t)part < (uintptr_t)whole + length;
}

static char home_of(aura_text text, const char *script, size_t length) {
    if (inside(text.bytes, (const uint8_t *)script, length)) return 's';
    return inside(text.bytes, texts, sizeof texts) ? 't' : 'f';
}

/* Each token has its text, in its home. In the text buffer texts lie one behind another. */
static void token_texts(const char *script) {
    size_t length = strlen(script), place = 0, end = 0;
    uint64_t used[AURA_USED_SLOTS] = {0}, token[AURA_TOKEN_SLOTS] = {0};
    CHECK(tokenize(script, length, sizeof tokens, sizeof texts, sizeof errors) == AURA_YES);
    memcpy(used, slots, sizeof used);
    CHECK(used[AURA_USED_COUNT] == ROWS);
    for (size_t i = 0; i < ROWS; i++, place = token[AURA_NEXT_PLACE]) {
        aura_text text = {NULL, 99};
        CHECK(yes(aura_token_text((const uint8_t *)script, length, texts, used[AURA_USED_TEXTS], tokens, used[AURA_USED_TOKENS],
                                  place, &text, fresh()), AURA_CHECK_SLOTS));
        CHECK(text.bytes != NULL && text.length == strlen(rows[i].text) && memcmp(text.bytes, rows[i].text, text.length) == 0);
        CHECK(home_of(text, script, length) == rows[i].home);
        CHECK(aura_next_token(tokens, used[AURA_USED_TOKENS], place, token) == AURA_YES && token[AURA_KIND] == rows[i].kind);
        if (!aura_has_made_text(token[AURA_KIND])) continue;
        CHECK(token[AURA_TEXT_OFFSET] == end);
        end += token[AURA_TEXT_LENGTH];
    }
    CHECK(end > 0 && end == used[AURA_USED_TEXTS]);
}

/* Whether the text at a place is refused with this number and figure, and the text keeps. */
static int text_refused(size_t script_length, size_t texts_length, size_t tokens_length, size_t place,
                        uint64_t number, uint64_t figure) {
    const uint8_t *script = (const uint8_t *)MARK SCRIPT;
    aura_text text = {script, 99};
    uint64_t got = aura_token_text(script, script_length, texts, texts_length, tokens, tokens_length, place, &text, fresh());
    return refused(got, number, figure) && text.bytes == script && text.length == 99;
}

/* Lengths that are too short, and damaged records. They leave the text as it is. */
static void refused_texts(void) {
    size_t length = strlen(MARK SCRIPT);
    CHECK(tokenize(MARK SCRIPT, length, sizeof tokens, sizeof texts, sizeof errors) == AURA_YES);
    size_t tokens_length = slots[AURA_USED_TOKENS], texts_length = slots[AURA_USED_TEXTS];
    CHECK(text_refused(length, texts_length, tokens_length, tokens_length, AURA_REFUSED_PLACE, tokens_length));
    CHECK(text_refused(length, texts_length, tokens_length, SIZE_MAX, AURA_REFUSED_PLACE, SIZE_MAX));
    CHECK(text_refused(length, texts_length, 32, 0, AURA_REFUSED_PLACE, 0));
    CHECK(text_refused(length, texts_length, 0, 0, AURA_REFUSED_PLACE, 0));
    CHECK(text_refused(3, texts_length, tokens_length, 0, AURA_REFUSED_TEXT, 0));
    CHECK(text_refused(7, texts_length, tokens_length, 33, AURA_REFUSED_TEXT, 2));
    CHECK(text_refused(length, 1, tokens_length, 66, AURA_REFUSED_TEXT, 0));
    CHECK(text_refused(length, 2, tokens_length, 99, AURA_REFUSED_TEXT, 2));
    memset(tokens + 25, 0xFF, 4);
    CHECK(text_refused(length, texts_length, tokens_length, 0, AURA_REFUSED_TEXT, 0xFFFFFFFF));
    tokens[0] = AURA_KIND_COUNT;
    CHECK(text_refused(length, texts_length, tokens_length, 0, AURA_REFUSED_PLACE, 0));
    tokens[0] = AURA_KIND_Channel;
    aura_text text = {NULL, 99};
    CHECK(yes(aura_token_text(tokens, 0, texts, 0, tokens, 25, 0, &text, fresh()), AURA_CHECK_SLOTS));
    CHECK(text.bytes != NULL && text.length == 0);
}

/* Scripts and their prints, by the words of order 2. */
static const struct sample { const char *script, *print; } samples[] = {
    {"val a=1", "val a = 1"}, {"\"a$b\"c", "\"a$b\" c"}, {"\"\"\"x\"y\"\"\"", "\"x\\\"y\""}, {"a:=b", "a := b"},
    {"\"$a\\uD800b\"", "\"$a\\u0062\""}, {"\"$a\\uD800$b\"", "\"$a\\uD800$b\""}, {"\"a$$b\"", "\"a\\u0024$b\""},
    {"${a b}", "${}"}, {"/***/", "/// \n"}, {"'\\uD800'", "'\\uD800'"}, {"'\\'''\\n'", "'\\'' '\\n'"},
    {"\"$a\\u005F\"", "\"$a\\u005f\""}, {"/** d\n * e */a", "/**\n* d\n* e\n*/\na"}, {"a/// d\n// c", "a /// d\n"},
    {"\xEF\xBB\xBF\xC2\xA0'\xC3\xA9'", "'\xC3\xA9'"}, {"", ""}, {"// c\n/* d */", ""}
};

/* Prints into the front of a buffer of guard bytes. */
static uint64_t print_into(const char *script, size_t length, size_t size) {
    memset(printed, GUARD, sizeof printed);
    return aura_print((const uint8_t *)script, length, printed, size, fresh());
}

/* Whether a script is refused with this number and figure, and every byte of the buffer keeps. */
static int print_refused(const char *script, size_t size, uint64_t number, uint64_t figure) {
    return refused(print_into(script, strlen(script), size), number, figure) && all_guard(printed, 0, sizeof printed);
}

/* Whether a script is printed with a buffer of this size, and the bytes beyond its print keep. */
static int is_printed(const char *script, size_t size, const char *print) {
    size_t need = strlen(print);
    return yes(print_into(script, strlen(script), size), AURA_PRINT_SLOTS) && slots[AURA_PRINT_BYTES] == need
        && memcmp(printed, print, need) == 0 && all_guard(printed, need, sizeof printed);
}

/* Each print in buffers of every size, and printed again. */
static void prints(void) {
    for (size_t i = 0; i < sizeof samples / sizeof samples[0]; i++) {
        const char *script = samples[i].script, *print = samples[i].print;
        size_t need = strlen(print);
        for (size_t size = 0; size < need; size++) CHECK(print_refused(script, size, AURA_REFUSED_PRINT, need));
        for (size_t size = need; size <= N; size++) CHECK(is_printed(script, size, print));
        CHECK(need <= AURA_PRINT_ROOM(strlen(script)) && is_printed(print, need, print));
    }
}

/* The questions in their order: most of these scripts could also be refused with what comes later. The figure of 11 is the start of
 * the first error recorded, without the mark, and not that of the first in the script. */
static void refused_prints(void) {
    CHECK(refused(aura_print(zeros, AURA_LIMIT + 1, printed, 0, fresh()), AURA_REFUSED_LENGTH, AURA_LIMIT + 1));
    CHECK(refused(aura_print(zeros, AURA_LIMIT, printed, 0, fresh()), AURA_REFUSED_MISTAKE, 0));
    CHECK(print_refused("\a\xC3", 0, AURA_REFUSED_CUT, 1) && print_refused("\xEF\xBB\xBF\a\xC3", N, AURA_REFUSED_CUT, 4));
    CHECK(print_refused("\a\xED\xA0\x80", 0, AURA_REFUSED_BARRED, 1) && print_refused("\a\xFF", N, AURA_REFUSED_UTF8, 1));
    CHECK(print_refused("''", 0, AURA_REFUSED_MISTAKE, 2) && print_refused("''", N, AURA_REFUSED_MISTAKE, 2));
    CHECK(print_refused("\xEF\xBB\xBF" "a \a \a", N, AURA_REFUSED_MISTAKE, 2));
    CHECK(print_refused("\"\\q\n", N, AURA_REFUSED_MISTAKE, 2));
    CHECK(print_refused("a", 0, AURA_REFUSED_PRINT, 1));
}

#define NUMBER(number, name, spelling) number,
#define CONSTANT(number, name, spelling) AURA_KIND_##name,

/* The rows are numbered from 0 on, and each spelling is the same as a text. */
static void kinds(void) {
    static const uint64_t numbers[] = {AURA_KINDS(NUMBER)}, constants[] = {AURA_KINDS(CONSTANT)};
    CHECK(AURA_KIND_COUNT == 126 && sizeof numbers / sizeof numbers[0] == AURA_KIND_COUNT);
    for (uint64_t i = 0; i < AURA_KIND_COUNT; i++) {
        CHECK(numbers[i] == i && constants[i] == i);
        const char *name = aura_kind_name(i), *spelling = aura_kind_spelling(i);
        CHECK(name != NULL && name[0] != '\0' && spelling != NULL);
        aura_text text = aura_spelling_text(i);
        CHECK(text.length == strlen(spelling) && memcmp(text.bytes, spelling, text.length) == 0);
        CHECK(aura_has_made_text(i) == (i == 2 || i == 3 || i == 121 || i == 123));
    }
    CHECK(!aura_has_made_text(126) && !aura_has_made_text(258));
    CHECK(strcmp(aura_kind_name(0), "IntLiteral") == 0 && strcmp(aura_kind_name(124), "EOF") == 0);
    CHECK(strcmp(aura_kind_spelling(AURA_KIND_Val), "val") == 0 && strcmp(aura_kind_spelling(AURA_KIND_DoubleQMark), "?" "?") == 0);
    CHECK(aura_kind_name(126) == NULL && aura_kind_spelling(126) == NULL && aura_kind_spelling(UINT64_MAX) == NULL);
    CHECK(aura_spelling_text(126).length == 0 && aura_spelling_text(126).bytes != NULL);
}

/* Whether there are words and they are not empty. */
static int said(const char *words) {
    return words != NULL && words[0] != '\0';
}

static void words(void) {
    static const uint64_t refusals[] = {AURA_REFUSED_LENGTH, AURA_REFUSED_UTF8, AURA_REFUSED_TOKENS, AURA_REFUSED_TEXTS,
                                        AURA_REFUSED_ERRORS, AURA_REFUSED_KIND, AURA_REFUSED_PLACE, AURA_REFUSED_TEXT,
                                        AURA_REFUSED_CUT, AURA_REFUSED_BARRED, AURA_REFUSED_MISTAKE, AURA_REFUSED_PRINT};
    static const uint64_t mistakes[] = {AURA_ERROR_CHARACTER, AURA_ERROR_COMMENT, AURA_ERROR_RAW_STRING, AURA_ERROR_STRING_END,
                                        AURA_ERROR_STRING_LINE, AURA_ERROR_UNICODE, AURA_ERROR_ESCAPE, AURA_ERROR_INTERPOLATION,
                                        AURA_ERROR_CHAR_LITERAL, AURA_ERROR_DOC_COMMENT};
    static const uint64_t unused[] = {0, 13, 257, UINT64_MAX};
    for (uint64_t i = 1; i <= 12; i++) {
        CHECK(refusals[i - 1] == i);
        CHECK(said(aura_refusal_meaning(i)) && said(aura_refusal_figure(i)) && said(aura_refusal_advice(i)));
    }
    for (uint64_t i = 1; i <= 10; i++) {
        CHECK(mistakes[i - 1] == i);
        CHECK(said(aura_error_meaning(i)) && said(aura_error_advice(i)));
    }
    for (int i = 0; i < 4; i++) {
        uint64_t number = unused[i];
        CHECK(aura_refusal_meaning(number) == NULL && aura_refusal_figure(number) == NULL && aura_refusal_advice(number) == NULL);
        CHECK(aura_error_meaning(number) == NULL && aura_error_advice(number) == NULL);
    }
    CHECK(aura_error_meaning(11) == NULL && aura_error_advice(11) == NULL);
    CHECK(strcmp(aura_refusal_figure(AURA_REFUSED_LENGTH), "its length") == 0);
    CHECK(strcmp(aura_error_meaning(AURA_ERROR_UNICODE), "\x5Cu without four hexadecimal digits") == 0);
    CHECK(strcmp(aura_error_advice(AURA_ERROR_DOC_COMMENT), "close it with *" "/") == 0);
}

#define TEXT_OF(number) #number
#define DOTTED(major, minor, patch) TEXT_OF(major) "." TEXT_OF(minor) "." TEXT_OF(patch)

static void version(void) {
    CHECK(strcmp(AURA_VERSION, DOTTED(AURA_VERSION_MAJOR, AURA_VERSION_MINOR, AURA_VERSION_PATCH)) == 0);
    CHECK(strlen(AURA_ORIGINAL) == 10 && strspn(AURA_ORIGINAL, "0123456789abcdef") == 10);
}

int main(void) {
    refused_scripts();
    accepted_script();
    token_readers();
    errors_and_texts();
    refused_token_readers();
    refused_error_reader();
    characters();
    token_texts(SCRIPT);
    token_texts(MARK SCRIPT);
    refused_texts();
    prints();
    refused_prints();
    kinds();
    words();
    version();
    if (failed > 0) {
        printf("calls: %d of %d checks failed\n", failed, done);
        return 1;
    }
    printf("calls: %d checks from " LANGUAGE ", all hold\n", done);
    return 0;
}
