/* The kind, start and end of each token of a script, and the kind of each error. */
#include "aura_lexer.h"

#include <stdio.h>

int main(void) {
    static const uint8_t script[] = {'v', 'a', 'l', ' ', 'a', '=', '1'};
    enum { N = sizeof script };
    static uint8_t tokens[AURA_TOKENS_ROOM(N)], texts[AURA_TEXTS_ROOM(N)], errors[AURA_ERRORS_ROOM(N)];
    uint64_t used[AURA_USED_SLOTS], token[AURA_TOKEN_SLOTS] = {0}, error[AURA_ERROR_SLOTS] = {0};

    uint64_t number = aura_tokenize(script, N, tokens, sizeof tokens, texts, sizeof texts, errors, sizeof errors, used);
    if (number != AURA_YES) {
        printf("refused %d %d\n", (int)number, (int)used[AURA_FIGURE]);
        return 1;
    }
    for (uint64_t i = 0; i < used[AURA_USED_COUNT]; i++) {
        aura_next_token(tokens, used[AURA_USED_TOKENS], token[AURA_NEXT_PLACE], token);
        printf("T %d %d %d\n", (int)token[AURA_KIND], (int)token[AURA_START], (int)token[AURA_END]);
    }
    while (aura_next_error(errors, used[AURA_USED_ERRORS], error[AURA_NEXT_PLACE], error) == AURA_YES) {
        printf("E %d %d %d\n", (int)error[AURA_KIND], (int)error[AURA_START], (int)error[AURA_END]);
    }
    puts(used[AURA_USED_CLOSED] ? "closed" : "open");
    return 0;
}
