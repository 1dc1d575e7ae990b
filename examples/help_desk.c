/* What the help desk tells the sender of a script: help_desk < SCRIPT
 * The exit status is 0 for an accepted script, 1 for a refused one, 2 where it can't be read or the answer can't be written. */
#include "aura_lexer.h"

#include <stdio.h>

/* Where the fault is most likely to be. */
static const char *look_at(uint64_t number) {
    switch (number) {
    case AURA_REFUSED_CUT: return "the connection";
    case AURA_REFUSED_BARRED: return "the sender's program";
    default: return "the script";
    }
}

int main(void) {
    static uint8_t script[AURA_LIMIT + 1];
    uint64_t answer[AURA_USED_SLOTS];
    size_t length = fread(script, 1, sizeof script, stdin);
    if (ferror(stdin)) {
        fputs("help_desk: cannot read the script\n", stderr);
        return 2;
    }
    uint64_t number = aura_measure(script, length, answer);
    if (number == AURA_YES) {
        puts("the script is accepted");
    } else {
        printf("%s; %s\nlook at: %s\n", aura_refusal_meaning(number), aura_refusal_advice(number), look_at(number));
    }
    if (fflush(stdout) != 0) {
        fputs("help_desk: cannot write to standard output\n", stderr);
        return 2;
    }
    return number != AURA_YES;
}
