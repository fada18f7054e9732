/* Replaces a function of the library in a test of listing.c: every text is too long. */
#include "rustc_lexer.h"

uint32_t rustc_lexer_check(const uint8_t *text, size_t len) {
    return text && len ? RUSTC_LEXER_TOO_LONG : RUSTC_LEXER_OK;
}
