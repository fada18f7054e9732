/* Shared by the tests: a check that prints the failed condition and exits, and a buffer that reveals which tokens a
 * call wrote. */
#ifndef CHECKS_H
#define CHECKS_H

#include <stdio.h>
#include <stdlib.h>
#include <string.h>

#include "rustc_lexer.h"

#define CHECK(condition) \
    do { \
        if (!(condition)) { \
            printf("%s:%d: %s\n", __FILE__, __LINE__, #condition); \
            exit(1); \
        } \
    } while (0)

#define BUFFER_LEN 8

typedef uint32_t batch_call(const uint8_t *, size_t, struct rustc_lexer_place *, struct rustc_lexer_token *, size_t,
                            size_t *);

static struct rustc_lexer_token buffer[BUFFER_LEN];

/* The functions that require an edition, called with the newest one. */
static inline uint32_t tokens_in_newest(const uint8_t *text, size_t len, struct rustc_lexer_place *place,
                                        struct rustc_lexer_token *tokens, size_t room, size_t *count) {
    return rustc_lexer_tokens_in(text, len, 2024, place, tokens, room, count);
}

static inline uint32_t tokens_in_newest_unchecked(const uint8_t *text, size_t len, struct rustc_lexer_place *place,
                                                  struct rustc_lexer_token *tokens, size_t room, size_t *count) {
    return rustc_lexer_tokens_in_unchecked(text, len, 2024, place, tokens, room, count);
}

/* Calls a function with a buffer of this length that is filled with the byte 0xAA. */
static inline uint32_t call(batch_call *tokens, const char *text, size_t len, struct rustc_lexer_place *place,
                     size_t buffer_len, size_t *count) {
    memset(buffer, 0xAA, sizeof buffer);
    *count = 99;
    return tokens((const uint8_t *)text, len, place, buffer, buffer_len, count);
}

/* Returns whether the buffer still contains only this byte from a token on. */
static inline bool is_untouched(size_t from) {
    const unsigned char *bytes = (const unsigned char *)&buffer[from];
    for (size_t i = 0; i < (BUFFER_LEN - from) * sizeof buffer[0]; i++)
        if (bytes[i] != 0xAA)
            return false;
    return true;
}

static inline bool is_token(size_t index, uint8_t kind, uint32_t len) {
    return buffer[index].kind == kind && buffer[index].len == len;
}

/* No text in these tests has as many tokens. */
#define WHOLE_LEN 400

static struct rustc_lexer_token whole[WHOLE_LEN];

/* Lexes the text into `whole` with one call. Returns whether the text has this number of tokens. */
static inline bool is_lexed(batch_call *tokens, const char *text, size_t len, uint32_t frontmatter_allowed,
                            size_t wanted) {
    struct rustc_lexer_place place = {0, frontmatter_allowed};
    size_t count = 99;
    memset(whole, 0xAA, sizeof whole);
    return tokens((const uint8_t *)text, len, &place, whole, WHOLE_LEN, &count) == RUSTC_LEXER_OK && count == wanted &&
           place.at == len;
}

#endif
