/* Tests edit_held of typing.c: after each edit, its tokens equal a full re-lex, even if the head changes. */
#define main main_of_typing
#include "typing.c"
#undef main

#include "checks.h"

static bool is_up_to_date(const struct held *held) {
    struct rustc_lexer_token tokens[MOST + 1];
    struct rustc_lexer_place place = {0, 1};
    size_t line_len, count;
    if (rustc_lexer_strip_shebang(held->text, held->len, &line_len) != RUSTC_LEXER_OK)
        return false;
    place.at = (uint32_t)line_len;
    size_t head = held->head.count, token = sizeof tokens[0];
    return rustc_lexer_tokens(held->text, held->len, &place, tokens, MOST + 1, &count) == RUSTC_LEXER_OK &&
           count == head + held->count && memcmp(tokens, held->head.tokens, head * token) == 0 &&
           memcmp(tokens + head, held->tokens, held->count * token) == 0;
}

int main(void) {
    static const struct {
        uint32_t start, stop;
        const char *insert;
    } edits[] = {{0, 0, "#!/a\n---\n---\nlet ab = cd + ef;\n"}, {17, 19, "c - 1"}, {17, 22, ""},
                 {5, 5, "x"}, {5, 6, ""}, {0, 5, ""}};
    static struct held held;
    for (size_t i = 0; i < sizeof edits / sizeof edits[0]; i++) {
        CHECK(edit_held(&held, edits[i].start, edits[i].stop, edits[i].insert) == RUSTC_LEXER_OK);
        CHECK(is_up_to_date(&held));
    }

    /* a text of MOST bytes fits, a longer one does not; the edit replaces the whole text, or is in the middle */
    static char symbols[MOST + 2];
    for (size_t i = 0; i <= MOST; i++)
        symbols[i] = ";,:"[i % 3];
    CHECK(edit_held(&held, 0, (uint32_t)held.len, symbols) == RUSTC_LEXER_TOO_LONG && is_up_to_date(&held));
    symbols[MOST] = 0;
    CHECK(edit_held(&held, 0, (uint32_t)held.len, symbols) == RUSTC_LEXER_OK && held.count == MOST);
    CHECK(edit_held(&held, 500, 500, "a") == RUSTC_LEXER_TOO_LONG && held.len == MOST && is_up_to_date(&held));
    CHECK(edit_held(&held, 500, 501, "a") == RUSTC_LEXER_OK && is_up_to_date(&held));
    CHECK(edit_held(&held, 500, 502, "") == RUSTC_LEXER_OK && is_up_to_date(&held));
    return 0;
}
