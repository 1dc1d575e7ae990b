/* Files a script as its office print: office_print < SCRIPT > PRINT
 * The exit status is 0, 1 for a refusal, 2 where the script can't be read or the print can't be written. It asks for the bytes needed
 * and lends as many; a host that has room for AURA_PRINT_ROOM(length) bytes lends these at once. */
#include "aura_lexer.h"

#include <inttypes.h>
#include <stdio.h>
#include <stdlib.h>

enum { FILED = 0, REFUSED = 1, STOPPED = 2 };

static int stopped(const char *what) {
    fprintf(stderr, "office_print: %s\n", what);
    return STOPPED;
}

static int refused(uint64_t number, uint64_t figure) {
    if (aura_refusal_meaning(number) == NULL) return stopped("the library does not belong to the headers");
    fprintf(stderr, "office_print: %s; %s\n", aura_refusal_meaning(number), aura_refusal_advice(number));
    if (number == AURA_REFUSED_MISTAKE) fprintf(stderr, "%s: %" PRIu64 "\n", aura_refusal_figure(number), figure);
    return REFUSED;
}

/* The bytes needed; 0 also for a script that is refused. */
static size_t print_size(const uint8_t *script, size_t length) {
    uint8_t none[1];
    uint64_t answer[AURA_PRINT_SLOTS];
    return aura_print(script, length, none, 0, answer) == AURA_REFUSED_PRINT ? answer[AURA_FIGURE] : 0;
}

/* Prints into a buffer and writes that; the exit status. */
static int file(const uint8_t *script, size_t length, uint8_t *print, size_t size) {
    uint64_t answer[AURA_PRINT_SLOTS];
    uint64_t number = aura_print(script, length, print, size, answer);
    if (number != AURA_YES) return refused(number, answer[AURA_FIGURE]);
    size_t written = fwrite(print, 1, answer[AURA_PRINT_BYTES], stdout);
    if (written != answer[AURA_PRINT_BYTES] || fflush(stdout) != 0) return stopped("cannot write to standard output");
    return FILED;
}

int main(void) {
    static uint8_t script[AURA_LIMIT + 1];
    size_t length = fread(script, 1, sizeof script, stdin);
    if (ferror(stdin)) return stopped("cannot read the script");
    size_t size = print_size(script, length);
    uint8_t *print = malloc(size + 1); /* not NULL, also for no bytes */
    if (print == NULL) return stopped("no memory");
    int status = file(script, length, print, size);
    free(print);
    return status;
}
