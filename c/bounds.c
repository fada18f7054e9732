/* Violates two preconditions of the header, with a library that has debug assertions. An impossible length is
 * shortened, and a null pointer with length 1 panics, which aborts. */
#include <stdio.h>

#include "rustc_lexer.h"

int main(void) {
    struct rustc_lexer_place place = {0, 0};
    struct rustc_lexer_token tokens[3];
    size_t count;
    if (rustc_lexer_tokens((const uint8_t *)"a b", 3, &place, tokens, SIZE_MAX, &count) == RUSTC_LEXER_OK && count == 3)
        fputs("cut\n", stderr);
    return (int)rustc_lexer_check(NULL, 1);
}
