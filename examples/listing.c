/* Lists the tokens and errors of an Aura script, in the form of document 01's program `tokens`: listing [FILE]
 * Without FILE it reads standard input. The exit status is 0, 1 for a refusal, 2 where the script can't be read or the listing
 * can't be written. Of a script over the limit it keeps one byte over the limit, and counts the others. */
#include "aura_lexer.h"

#include <inttypes.h>
#include <stdio.h>
#include <stdlib.h>

enum { LISTED = 0, REFUSED = 1, STOPPED = 2 };

struct lexed {
    uint8_t *script, *tokens, *texts, *errors;
    size_t length; /* the bytes of the script that are kept */
    uint64_t whole; /* the bytes of the whole script */
    uint64_t used[AURA_USED_SLOTS];
};

static int stopped(const char *what, const char *name) {
    fprintf(stderr, "listing: %s%s\n", what, name);
    return STOPPED;
}

/* NULL only where there is no memory, also for 0 bytes. */
static uint8_t *room(size_t size) {
    return malloc(size + 1);
}

static void release(struct lexed *l) {
    free(l->script);
    free(l->tokens);
    free(l->texts);
    free(l->errors);
}

static void read_script(FILE *file, struct lexed *l) {
    uint8_t rest[4096];
    size_t count;
    l->length = fread(l->script, 1, AURA_LIMIT + 1, file);
    l->whole = l->length;
    while ((count = fread(rest, 1, sizeof rest, file)) > 0) l->whole += count;
}

/* Whether there was memory for the buffers. A script over the limit is refused before any buffer is used. */
static int tokenize(struct lexed *l, uint64_t *number) {
    size_t n = l->length <= AURA_LIMIT ? l->length : 0;
    l->tokens = room(AURA_TOKENS_ROOM(n));
    l->texts = room(AURA_TEXTS_ROOM(n));
    l->errors = room(AURA_ERRORS_ROOM(n));
    if (l->tokens == NULL || l->texts == NULL || l->errors == NULL) return 0;
    *number = aura_tokenize(l->script, l->length, l->tokens, AURA_TOKENS_ROOM(n), l->texts, AURA_TEXTS_ROOM(n),
                            l->errors, AURA_ERRORS_ROOM(n), l->used);
    return 1;
}

static int print_refusal(const struct lexed *l, uint64_t number) {
    uint64_t figure = number == AURA_REFUSED_LENGTH ? l->whole : l->used[AURA_FIGURE];
    printf("refused %" PRIu64 " %" PRIu64 "\n", number, figure);
    return REFUSED;
}

static void print_fields(char letter, const uint64_t record[]) {
    printf("%c %" PRIu64, letter, record[AURA_KIND]);
    for (int i = AURA_START; i <= AURA_END_COLUMN; i++) printf(" %" PRIu64, record[i]);
}

static void print_text(aura_text text) {
    printf(text.length == 0 ? " -" : " ");
    for (size_t i = 0; i < text.length; i++) printf("%02x", text.bytes[i]);
    printf("\n");
}

/* Whether each record was whole and its text in its buffer. */
static int print_tokens(const struct lexed *l) {
    uint64_t token[AURA_TOKEN_SLOTS] = {0}, figure[AURA_CHECK_SLOTS];
    aura_text text;
    for (uint64_t i = 0; i < l->used[AURA_USED_COUNT]; i++) {
        size_t place = token[AURA_NEXT_PLACE], size = l->used[AURA_USED_TOKENS];
        if (aura_next_token(l->tokens, size, place, token) != AURA_YES) return 0;
        if (aura_token_text(l->script, l->length, l->texts, l->used[AURA_USED_TEXTS], l->tokens, size, place, &text, figure)
            != AURA_YES) return 0;
        print_fields('T', token);
        print_text(text);
    }
    return 1;
}

static void print_errors(const struct lexed *l) {
    uint64_t error[AURA_ERROR_SLOTS] = {0};
    while (aura_next_error(l->errors, l->used[AURA_USED_ERRORS], error[AURA_NEXT_PLACE], error) == AURA_YES) {
        print_fields('E', error);
        if (error[AURA_KIND] == AURA_ERROR_CHARACTER || error[AURA_KIND] == AURA_ERROR_ESCAPE)
            printf(" %" PRIu64, error[AURA_CODE_POINT]);
        printf("\n");
    }
}

/* The exit status. What it takes stands in l, also where it stops. */
static int list(FILE *file, const char *name, struct lexed *l) {
    uint64_t number;
    l->script = room(AURA_LIMIT + 1);
    if (l->script == NULL) return stopped("no memory", "");
    read_script(file, l);
    if (ferror(file)) return stopped("cannot read ", name);
    if (!tokenize(l, &number)) return stopped("no memory", "");
    if (number != AURA_YES) return print_refusal(l, number);
    if (!print_tokens(l)) return stopped("no whole token record", "");
    print_errors(l);
    printf(l->used[AURA_USED_CLOSED] ? "closed\n" : "open\n");
    return LISTED;
}

int main(int count, char **words) {
    const char *name = count > 1 ? words[1] : "standard input";
    FILE *file = count > 1 ? fopen(name, "rb") : stdin;
    struct lexed l = {0};
    if (file == NULL) return stopped("cannot open ", name);
    int status = list(file, name, &l);
    release(&l);
    fclose(file);
    int unwritten = ferror(stdout);
    if (fclose(stdout) != 0 || unwritten) return stopped("cannot write to standard output", "");
    return status;
}
