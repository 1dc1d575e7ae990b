/* The texts of a script, one on each line: texts < SCRIPT
 * They are those of strings, character literals, interpolations and doc comments, and stand in the text buffer in the order of their
 * tokens, from byte 0, without gaps (document 02, order 3). So the buffer is read straight through, by the lengths in the records alone.
 * A text with line feeds in it takes more than one line. The exit status is 0, 1 for a refusal, 2 where the script can't be read or the
 * texts can't be written. */
#include "aura_lexer.h"

#include <stdio.h>
#include <stdlib.h>

enum { WRITTEN = 0, REFUSED = 1, STOPPED = 2 };

static int stopped(const char *what) {
    fprintf(stderr, "texts: %s\n", what);
    return STOPPED;
}

static int refused(uint64_t number) {
    if (aura_refusal_meaning(number) == NULL) return stopped("the library does not belong to the headers");
    fprintf(stderr, "texts: %s; %s\n", aura_refusal_meaning(number), aura_refusal_advice(number));
    return REFUSED;
}

/* Writes each text as it lies behind the one before it. Whether every record was whole. */
static int write_texts(const uint8_t *tokens, const uint8_t *texts, const uint64_t used[AURA_USED_SLOTS]) {
    uint64_t token[AURA_TOKEN_SLOTS] = {0};
    for (uint64_t i = 0; i < used[AURA_USED_COUNT]; i++) {
        if (aura_next_token(tokens, used[AURA_USED_TOKENS], token[AURA_NEXT_PLACE], token) != AURA_YES) return 0;
        if (!aura_has_made_text(token[AURA_KIND])) continue;
        fwrite(texts, 1, token[AURA_TEXT_LENGTH], stdout);
        putchar('\n');
        texts += token[AURA_TEXT_LENGTH];
    }
    return 1;
}

/* Tokenises into three parts of a room that measuring has told, and writes the texts; the exit status. */
static int write_script(const uint8_t *script, size_t length, uint8_t *room, uint64_t used[AURA_USED_SLOTS]) {
    size_t tokens_size = used[AURA_USED_TOKENS], texts_size = used[AURA_USED_TEXTS];
    uint8_t *tokens = room, *texts = tokens + tokens_size, *errors = texts + texts_size;
    uint64_t number = aura_tokenize(script, length, tokens, tokens_size, texts, texts_size, errors, used[AURA_USED_ERRORS], used);
    if (number != AURA_YES) return refused(number);
    if (!write_texts(tokens, texts, used)) return stopped("no whole token record");
    if (fflush(stdout) != 0 || ferror(stdout)) return stopped("cannot write to standard output");
    return WRITTEN;
}

int main(void) {
    static uint8_t script[AURA_LIMIT + 1];
    uint64_t used[AURA_USED_SLOTS];
    size_t length = fread(script, 1, sizeof script, stdin);
    if (ferror(stdin)) return stopped("cannot read the script");
    uint64_t number = aura_measure(script, length, used);
    if (number != AURA_YES) return refused(number);
    uint8_t *room = malloc(used[AURA_USED_TOKENS] + used[AURA_USED_TEXTS] + used[AURA_USED_ERRORS]);
    if (room == NULL) return stopped("no memory");
    int status = write_script(script, length, room, used);
    free(room);
    return status;
}
