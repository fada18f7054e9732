/* Tests edge cases of the library: texts that are not UTF-8, empty texts, null pointers, buffers for zero tokens or
 * one, a batch that ends before a frontmatter, and invalid positions. Also tests the numbers of kinds, the bytes of
 * structs, the units of literals, and highlighting. Prints the first failed check and exits with 1. */
#include "checks.h"

static void check_invalid_texts(void) {
    static const char *const bad[] = {"\xff", "a\xc3", "\xed\xa0\x80"};
    struct rustc_lexer_place place = {0, 1};
    size_t count;
    for (size_t i = 0; i < sizeof bad / sizeof bad[0]; i++) {
        const uint8_t *text = (const uint8_t *)bad[i];
        size_t len = strlen(bad[i]), end = 99;
        struct rustc_lexer_raw_str_error error = {9, 9, 9, 9, 9, 9};
        struct rustc_lexer_guarded_str string = {9, 9, 9, 9};
        uint32_t is = 9;
        CHECK(rustc_lexer_check(text, len) == RUSTC_LEXER_NOT_UTF8);
        CHECK(call(rustc_lexer_tokens, bad[i], len, &place, BUFFER_LEN, &count) == RUSTC_LEXER_NOT_UTF8);
        CHECK(count == 0 && place.at == 0 && place.frontmatter_allowed == 1 && is_untouched(0));
        CHECK(call(tokens_in_newest, bad[i], len, &place, BUFFER_LEN, &count) == RUSTC_LEXER_NOT_UTF8);
        CHECK(count == 0 && place.at == 0 && place.frontmatter_allowed == 1 && is_untouched(0));
        CHECK(rustc_lexer_strip_shebang(text, len, &end) == RUSTC_LEXER_NOT_UTF8 && end == 0);
        end = 99;
        CHECK(rustc_lexer_settled(text, len, &end) == RUSTC_LEXER_NOT_UTF8 && end == 0);
        CHECK(rustc_lexer_unescape(text, len, RUSTC_LEXER_STR, 0, NULL, 0, &end) == RUSTC_LEXER_NOT_UTF8 && end == 0);
        CHECK(rustc_lexer_validate_raw_str(text, len, 1, &error) == RUSTC_LEXER_NOT_UTF8);
        CHECK(error.error == 0 && error.bad_char == 0 && error.expected == 0 && error.found == 0);
        CHECK(rustc_lexer_guarded_str(text, len, &string) == RUSTC_LEXER_NOT_UTF8 && string.is_some == 0);
        CHECK(rustc_lexer_is_ident(text, len, &is) == RUSTC_LEXER_NOT_UTF8 && is == 0);
        is = 9;
        CHECK(rustc_lexer_is_token_boundary(text, len, 0, 2024, &is) == RUSTC_LEXER_NOT_UTF8 && is == 0);
        struct rustc_lexer_edit edit = {0, 0, (uint32_t)len};
        struct rustc_lexer_relexing relexing = {0};
        CHECK(rustc_lexer_relex(text, len, buffer, 0, &edit, 2024, &relexing, buffer + 1, BUFFER_LEN - 1, &count) ==
                  RUSTC_LEXER_NOT_UTF8 &&
              count == 0 && relexing.stage == RUSTC_LEXER_STAGE_BEGIN && is_untouched(0));
        struct rustc_lexer_head head = {.body = 8};
        CHECK(rustc_lexer_body_edit(text, len, &edit, &head, &edit, &is) == RUSTC_LEXER_NOT_UTF8);
        CHECK(head.body == 8 && edit.new_end == len && is == 0);
    }
}

static void check_empty_text(batch_call *tokens) {
    struct rustc_lexer_place place = {0, 1};
    size_t count, end = 99;
    uint32_t is = 9;
    CHECK(call(tokens, "", 0, &place, BUFFER_LEN, &count) == RUSTC_LEXER_OK);
    CHECK(count == 0 && place.at == 0 && place.frontmatter_allowed == 1 && is_untouched(0));
    CHECK(rustc_lexer_strip_shebang((const uint8_t *)"", 0, &end) == RUSTC_LEXER_OK && end == 0);
    end = 99;
    CHECK(rustc_lexer_settled((const uint8_t *)"", 0, &end) == RUSTC_LEXER_OK && end == 0);
    end = 99;
    CHECK(rustc_lexer_settled_unchecked((const uint8_t *)"", 0, &end) == RUSTC_LEXER_OK && end == 0);
    CHECK(rustc_lexer_is_ident((const uint8_t *)"", 0, &is) == RUSTC_LEXER_OK && is == 0);
    CHECK(rustc_lexer_is_token_boundary((const uint8_t *)"", 0, 0, 2015, &is) == RUSTC_LEXER_OK && is == 1);
}

/* A pointer can be null if its length is 0. */
static void check_null(void) {
    struct rustc_lexer_place place = {0, 1};
    struct rustc_lexer_raw_str_error error;
    struct rustc_lexer_guarded_str string;
    struct rustc_lexer_edit edit = {0, 0, 0};
    struct rustc_lexer_relexing relexing = {0};
    size_t count = 99, end = 99;
    uint32_t is = 9;
    CHECK(rustc_lexer_check(NULL, 0) == RUSTC_LEXER_OK);
    CHECK(rustc_lexer_tokens(NULL, 0, &place, NULL, 0, &count) == RUSTC_LEXER_OK && count == 0);
    CHECK(rustc_lexer_tokens(NULL, 0, &place, buffer, BUFFER_LEN, &count) == RUSTC_LEXER_OK && count == 0);
    CHECK(rustc_lexer_tokens_unchecked(NULL, 0, &place, NULL, 0, &count) == RUSTC_LEXER_OK && count == 0);
    CHECK(tokens_in_newest(NULL, 0, &place, NULL, 0, &count) == RUSTC_LEXER_OK && count == 0);
    CHECK(tokens_in_newest_unchecked(NULL, 0, &place, NULL, 0, &count) == RUSTC_LEXER_OK && count == 0);
    CHECK(rustc_lexer_tokens((const uint8_t *)"a", 1, &place, NULL, 0, &count) == RUSTC_LEXER_OK && place.at == 0);
    CHECK(rustc_lexer_first_token_unchecked(NULL, 0, 0).kind == 0);
    CHECK(rustc_lexer_relex(NULL, 0, NULL, 0, &edit, 2024, &relexing, NULL, 0, &count) == RUSTC_LEXER_OK);
    CHECK(count == 0 && relexing.stage == RUSTC_LEXER_STAGE_DONE);
    CHECK(relexing.kept_front == 0 && relexing.kept_back == 0);
    CHECK(rustc_lexer_relex_unchecked(NULL, 0, NULL, 0, &edit, 2015, &(struct rustc_lexer_relexing){0}, buffer,
                                      BUFFER_LEN, &count) == RUSTC_LEXER_OK && count == 0);
    struct rustc_lexer_head head = {0};
    struct rustc_lexer_edit made = {9, 9, 9};
    CHECK(rustc_lexer_body_edit(NULL, 0, &edit, &head, &made, &is) == RUSTC_LEXER_OK && is == 1 && made.new_end == 0);
    CHECK(rustc_lexer_body_edit_unchecked(NULL, 0, &edit, &head, &made, &is) == RUSTC_LEXER_OK && head.body == 0);
    CHECK(rustc_lexer_strip_shebang(NULL, 0, &end) == RUSTC_LEXER_OK && end == 0);
    CHECK(rustc_lexer_strip_shebang_unchecked(NULL, 0, &end) == RUSTC_LEXER_OK && end == 0);
    CHECK(rustc_lexer_settled(NULL, 0, &end) == RUSTC_LEXER_OK && end == 0);
    CHECK(rustc_lexer_settled_unchecked(NULL, 0, &end) == RUSTC_LEXER_OK && end == 0);
    CHECK(rustc_lexer_validate_raw_str(NULL, 0, 1, &error) == RUSTC_LEXER_NOT_RAW);
    CHECK(rustc_lexer_validate_raw_str_unchecked(NULL, 0, 1, &error) == RUSTC_LEXER_NOT_RAW);
    CHECK(!rustc_lexer_starts_raw_unchecked(NULL, 0, 1));
    CHECK(rustc_lexer_guarded_str(NULL, 0, &string) == RUSTC_LEXER_OK && string.is_some == 0);
    CHECK(rustc_lexer_guarded_str_unchecked(NULL, 0, &string) == RUSTC_LEXER_OK && string.is_some == 0);
    CHECK(rustc_lexer_is_ident(NULL, 0, &is) == RUSTC_LEXER_OK && is == 0);
    CHECK(!rustc_lexer_is_ident_unchecked(NULL, 0));
}

/* Every byte of a struct is written. */
static void check_records(void) {
    static const struct {
        const char *text;
        uint8_t bytes[4];
        uint32_t suffix_start, len;
    } rows[] = {
        {"//!", {RUSTC_LEXER_LINE_COMMENT, RUSTC_LEXER_INNER_DOC}, 0, 3},
        {"/** */", {RUSTC_LEXER_BLOCK_COMMENT, RUSTC_LEXER_OUTER_DOC, 1}, 0, 6},
        {"/* ", {RUSTC_LEXER_BLOCK_COMMENT, RUSTC_LEXER_NO_DOC, 0}, 0, 3},
        {"a", {RUSTC_LEXER_IDENT}, 0, 1},
        {"'1", {RUSTC_LEXER_LIFETIME, 1}, 0, 2},
        {"0xu8", {RUSTC_LEXER_LITERAL, RUSTC_LEXER_INT, 16, 1}, 2, 4},
        {"1e", {RUSTC_LEXER_LITERAL, RUSTC_LEXER_FLOAT, 10, 1}, 2, 2},
        {"b'a'", {RUSTC_LEXER_LITERAL, RUSTC_LEXER_BYTE, 1}, 4, 4},
        {"r##\"a\"##", {RUSTC_LEXER_LITERAL, RUSTC_LEXER_RAW_STR, 1, 2}, 8, 8},
        {"br\"a", {RUSTC_LEXER_LITERAL, RUSTC_LEXER_RAW_BYTE_STR, 0}, 4, 4},
        {"%", {RUSTC_LEXER_PERCENT}, 0, 1},
    };
    size_t count;
    for (size_t i = 0; i < sizeof rows / sizeof rows[0]; i++) {
        const uint8_t *text = (const uint8_t *)rows[i].text;
        struct rustc_lexer_place place = {0, 0};
        struct rustc_lexer_token want, first = rustc_lexer_first_token_unchecked(text, strlen(rows[i].text), 0);
        memcpy(&want, rows[i].bytes, 4);
        want.suffix_start = rows[i].suffix_start;
        want.len = rows[i].len;
        CHECK(call(rustc_lexer_tokens, rows[i].text, strlen(rows[i].text), &place, BUFFER_LEN, &count) ==
              RUSTC_LEXER_OK);
        CHECK(count == 1 && memcmp(buffer, &want, sizeof want) == 0 && memcmp(&first, &want, sizeof want) == 0);
    }
    const uint8_t *document = (const uint8_t *)" ---\na\n---\n";
    struct rustc_lexer_token first = rustc_lexer_first_token_unchecked(document, 11, 7);
    CHECK(first.kind == RUSTC_LEXER_FRONTMATTER && first.has_invalid_preceding_whitespace == 1);
    CHECK(rustc_lexer_first_token_unchecked(document, 11, 0).kind == RUSTC_LEXER_WHITESPACE);
    CHECK(strcmp(rustc_lexer_kind_name(RUSTC_LEXER_EOF), "Eof") == 0);
    CHECK(strcmp(rustc_lexer_literal_kind_name(RUSTC_LEXER_RAW_C_STR), "RawCStr") == 0);
    /* kinds of tokens are 1 to 43, kinds of literals 1 to 10, and no other number has a name */
    for (int number = 0; number < 256; number++) {
        const char *name = rustc_lexer_kind_name((uint8_t)number);
        CHECK(name != NULL && (*name != 0) == (number >= 1 && number <= 43));
        name = rustc_lexer_literal_kind_name((uint8_t)number);
        CHECK(name != NULL && (*name != 0) == (number >= 1 && number <= 10));
    }
}

static void check_buffer(batch_call *tokens) {
    struct rustc_lexer_place place = {0, 0};
    size_t count;
    CHECK(call(tokens, "ab cd", 5, &place, 0, &count) == RUSTC_LEXER_OK);
    CHECK(count == 0 && place.at == 0 && is_untouched(0));
    CHECK(call(tokens, "ab cd", 5, &place, 1, &count) == RUSTC_LEXER_OK);
    CHECK(count == 1 && place.at == 2 && is_token(0, RUSTC_LEXER_IDENT, 2) && is_untouched(1));
    CHECK(call(tokens, "ab cd", 5, &place, 2, &count) == RUSTC_LEXER_OK);
    CHECK(count == 2 && place.at == 5 && is_token(0, RUSTC_LEXER_WHITESPACE, 1));
    CHECK(is_token(1, RUSTC_LEXER_IDENT, 2) && is_untouched(2));
    CHECK(call(tokens, "ab cd", 5, &place, BUFFER_LEN, &count) == RUSTC_LEXER_OK);
    CHECK(count == 0 && place.at == 5 && is_untouched(0));
}

static void check_frontmatter(batch_call *tokens) {
    static const char *const text = "\n---\na\n---\nb";
    struct rustc_lexer_place place = {0, 7};
    size_t count;
    CHECK(call(tokens, text, 12, &place, 1, &count) == RUSTC_LEXER_OK);
    CHECK(count == 1 && is_token(0, RUSTC_LEXER_WHITESPACE, 1) && place.at == 1 && place.frontmatter_allowed == 1);
    CHECK(call(tokens, text, 12, &place, 1, &count) == RUSTC_LEXER_OK);
    CHECK(count == 1 && is_token(0, RUSTC_LEXER_FRONTMATTER, 9) && buffer[0].invalid_infostring == 0);
    CHECK(place.at == 10 && place.frontmatter_allowed == 0);
    place.at = 1;
    CHECK(call(tokens, text, 12, &place, 1, &count) == RUSTC_LEXER_OK);
    CHECK(count == 1 && is_token(0, RUSTC_LEXER_MINUS, 1) && place.at == 2);
}

static void check_places(batch_call *tokens) {
    static const char *const text = "a\xc3\xa9";
    size_t count;
    for (uint32_t at = 0; at < 6; at++) {
        struct rustc_lexer_place place = {at, 5};
        bool good = at == 0 || at == 1 || at == 3;
        uint32_t status = call(tokens, text, 3, &place, BUFFER_LEN, &count);
        CHECK(status == (good ? RUSTC_LEXER_OK : RUSTC_LEXER_INVALID_PLACE));
        CHECK(good ? place.at == 3 : count == 0 && place.at == at && place.frontmatter_allowed == 5 && is_untouched(0));
    }
    struct rustc_lexer_place last = {UINT32_MAX, 0};
    CHECK(call(tokens, text, 3, &last, BUFFER_LEN, &count) == RUSTC_LEXER_INVALID_PLACE);
}

/* Lexes a frontmatter, a prefix and a raw lifetime that are reserved since 2021, and two hashes that are reserved since
 * 2024. A call that fails changes nothing, and INVALID_PLACE has priority over INVALID_EDITION. */
static void check_editions(void) {
    static const struct {
        uint32_t edition;
        size_t count;
        uint8_t first, last;
    } rows[] = {{2015, 8, RUSTC_LEXER_IDENT, RUSTC_LEXER_POUND},
                {2018, 8, RUSTC_LEXER_IDENT, RUSTC_LEXER_POUND},
                {2021, 6, RUSTC_LEXER_UNKNOWN_PREFIX, RUSTC_LEXER_POUND},
                {2024, 5, RUSTC_LEXER_UNKNOWN_PREFIX, RUSTC_LEXER_GUARDED_STR_PREFIX}};
    static const uint32_t none[] = {0, 2014, 2016, 2022, 2024 + 65536, UINT32_MAX};
    const uint8_t *text = (const uint8_t *)"---\na\n---\nz\"\" 'r#a##";
    size_t count;
    for (size_t i = 0; i < sizeof rows / sizeof rows[0]; i++) {
        struct rustc_lexer_place part = {10, 0}, document = {0, 1}, unchecked = {0, 1};
        uint32_t year = rows[i].edition;
        CHECK(rustc_lexer_tokens_in(text, 20, year, &part, buffer, BUFFER_LEN, &count) == RUSTC_LEXER_OK);
        CHECK(count == rows[i].count && buffer[0].kind == rows[i].first && buffer[count - 1].kind == rows[i].last);
        CHECK(rustc_lexer_tokens_in(text, 20, year, &document, whole, 2, &count) == RUSTC_LEXER_OK && count == 2);
        CHECK(whole[0].kind == RUSTC_LEXER_FRONTMATTER && whole[0].len == 9 && document.at == 10);
        CHECK(whole[1].kind == RUSTC_LEXER_WHITESPACE && document.frontmatter_allowed == 0);
        CHECK(rustc_lexer_tokens_in_unchecked(text, 20, year, &unchecked, whole, WHOLE_LEN, &count) == RUSTC_LEXER_OK);
        CHECK(count == rows[i].count + 2 && unchecked.at == 20 && unchecked.frontmatter_allowed == 0);
        CHECK(memcmp(whole + 2, buffer, rows[i].count * sizeof buffer[0]) == 0);
    }
    for (size_t i = 0; i < sizeof none / sizeof none[0]; i++) {
        struct rustc_lexer_place start = {0, 7}, inside = {1, 7};
        const uint8_t *letter = (const uint8_t *)"\xc3\xa9";
        memset(buffer, 0xAA, sizeof buffer);
        CHECK(rustc_lexer_tokens_in(letter, 2, none[i], &start, buffer, 8, &count) == RUSTC_LEXER_INVALID_EDITION);
        CHECK(count == 0 && start.at == 0 && start.frontmatter_allowed == 7 && is_untouched(0));
        CHECK(rustc_lexer_tokens_in(letter, 2, none[i], &inside, buffer, 8, &count) == RUSTC_LEXER_INVALID_PLACE);
        CHECK(count == 0 && inside.at == 1 && is_untouched(0));
    }
}

/* Searches the token of each byte of a text that starts at byte 10 of a file, from each token boundary. Also searches
 * from numbers that are not a boundary, and in a text at the maximum offset. */
static void check_offsets(void) {
    static const size_t starts[] = {10, 12, 13, 14, 15, 18}, count = 5;
    static const size_t indices[] = {0, 0, 1, 2, 3, 4, 4, 4};
    static const size_t outside[] = {0, 9, 18, 19, SIZE_MAX};
    size_t index = 0, start = SIZE_MAX - 1;
    CHECK(is_lexed(rustc_lexer_tokens, "ab + c\xc3\xa9", 8, 0, count));
    for (size_t near = 0; near <= count; near++) {
        for (size_t at = 0; at < 8; at++) {
            size_t here = near, from = starts[near];
            CHECK(rustc_lexer_token_start_at(whole, count, 10 + at, &here, &from));
            CHECK(here == indices[at] && from == starts[here]);
        }
        for (size_t i = 0; i < sizeof outside / sizeof outside[0]; i++) {
            size_t here = near, from = starts[near];
            CHECK(!rustc_lexer_token_start_at(whole, count, outside[i], &here, &from));
            CHECK(here == near && from == starts[near]);
        }
    }
    CHECK(rustc_lexer_token_start_at(whole, count, SIZE_MAX, &index, &start) && index == 0 && start == SIZE_MAX - 1);
    for (size_t wrong = 0; wrong < 40; wrong++) {
        size_t here = wrong % 8 == 7 ? SIZE_MAX : wrong % 8, from = SIZE_MAX / 4 * (wrong / 8);
        bool is = rustc_lexer_token_start_at(whole, count, 12, &here, &from);
        CHECK(is ? here < count && from <= 12 : here == (wrong % 8 == 7 ? SIZE_MAX : wrong % 8));
    }
    index = start = 0;
    CHECK(!rustc_lexer_token_start_at(NULL, 0, 0, &index, &start) && index == 0 && start == 0);
}

static void check_others(void) {
    struct rustc_lexer_raw_str_error error;
    struct rustc_lexer_guarded_str string;
    size_t end;
    uint32_t is;
    const uint8_t *raw = (const uint8_t *)"r##\"abc\"#";
    CHECK(rustc_lexer_validate_raw_str(raw, 9, 1, &error) == RUSTC_LEXER_OK);
    CHECK(error.error == RUSTC_LEXER_NO_TERMINATOR);
    CHECK(error.expected == 2 && error.found == 1 && error.has_offset == 1 && error.possible_terminator_offset == 8);
    CHECK(rustc_lexer_validate_raw_str(raw, 9, 0, &error) == RUSTC_LEXER_NOT_RAW && error.error == 0);
    CHECK(rustc_lexer_validate_raw_str((const uint8_t *)"r#a", 3, 1, &error) == RUSTC_LEXER_OK);
    CHECK(error.error == RUSTC_LEXER_INVALID_STARTER);
    CHECK(rustc_lexer_validate_raw_str(raw, 9, 2, &error) == RUSTC_LEXER_NOT_RAW);
    CHECK(rustc_lexer_validate_raw_str_unchecked(raw, 9, 1, &error) == RUSTC_LEXER_OK);
    CHECK(error.error == RUSTC_LEXER_NO_TERMINATOR);
    CHECK(rustc_lexer_starts_raw_unchecked(raw, 9, 1) && !rustc_lexer_starts_raw_unchecked(raw, 9, 0));
    CHECK(!rustc_lexer_starts_raw_unchecked(raw, 9, 2));
    CHECK(rustc_lexer_guarded_str((const uint8_t *)"##\"a\"###x", 9, &string) == RUSTC_LEXER_OK);
    CHECK(string.is_some == 1 && string.n_hashes == 2 && string.terminated == 1 && string.token_len == 7);
    CHECK(rustc_lexer_guarded_str_unchecked((const uint8_t *)"##\"a\"###x", 9, &string) == RUSTC_LEXER_OK);
    CHECK(string.is_some == 1 && string.n_hashes == 2 && string.terminated == 1 && string.token_len == 7);
    CHECK(rustc_lexer_guarded_str((const uint8_t *)"##x", 3, &string) == RUSTC_LEXER_OK && string.is_some == 0);
    static uint32_t (*const settled[])(const uint8_t *, size_t, size_t *) = {rustc_lexer_settled,
                                                                            rustc_lexer_settled_unchecked};
    for (size_t i = 0; i < 2; i++) {
        CHECK(settled[i]((const uint8_t *)"ab cd ef", 8, &end) == RUSTC_LEXER_OK && end == 6);
        CHECK(settled[i]((const uint8_t *)"a - \xc3\xa9z", 7, &end) == RUSTC_LEXER_OK && end == 4);
        CHECK(settled[i]((const uint8_t *)"k#", 2, &end) == RUSTC_LEXER_OK && end == 0);
    }
    static const struct {
        const char *text;
        size_t at;
        uint32_t edition, is;
    } cases[] = {{"a+b", 1, 2024, 1}, {"ab", 1, 2024, 0}, {"0..2", 1, 2021, 1}, {"0..2", 2, 2021, 0},
                 {"z\"a\"", 1, 2018, 1}, {"z\"a\"", 1, 2021, 0}, {"k#a", 2, 2015, 0}, {"// a\nb", 4, 2015, 1}};
    for (size_t i = 0; i < sizeof cases / sizeof cases[0]; i++) {
        const uint8_t *text = (const uint8_t *)cases[i].text;
        CHECK(rustc_lexer_is_token_boundary(text, strlen(cases[i].text), cases[i].at, cases[i].edition, &is) ==
              RUSTC_LEXER_OK);
        CHECK(is == cases[i].is);
    }
    is = 9;
    CHECK(rustc_lexer_is_token_boundary((const uint8_t *)"\xc3\xa9", 2, 1, 2024, &is) == RUSTC_LEXER_INVALID_PLACE &&
          is == 0);
    is = 9;
    CHECK(rustc_lexer_is_token_boundary((const uint8_t *)"ab", 2, 3, 2024, &is) == RUSTC_LEXER_INVALID_PLACE &&
          is == 0);
    is = 9;
    CHECK(rustc_lexer_is_token_boundary((const uint8_t *)"ab", 2, 1, 2020, &is) == RUSTC_LEXER_INVALID_EDITION &&
          is == 0);
    CHECK(rustc_lexer_strip_shebang((const uint8_t *)"#!///x\n[a]", 10, &end) == RUSTC_LEXER_OK && end == 6);
    CHECK(rustc_lexer_strip_shebang_unchecked((const uint8_t *)"#!///x\n[a]", 10, &end) == RUSTC_LEXER_OK && end == 6);
    CHECK(rustc_lexer_is_ident_unchecked((const uint8_t *)"a1", 2));
    CHECK(!rustc_lexer_is_ident_unchecked((const uint8_t *)"1a", 2));
    CHECK(rustc_lexer_is_ident((const uint8_t *)"a1", 2, &is) == RUSTC_LEXER_OK && is == 1);
    CHECK(rustc_lexer_is_whitespace(0x2028) && !rustc_lexer_is_whitespace(0xA0) && !rustc_lexer_is_whitespace(0xD800));
    CHECK(rustc_lexer_is_id_start('_') && !rustc_lexer_is_id_start('0') && rustc_lexer_is_id_continue('0'));
    CHECK(!rustc_lexer_is_id_start(0x110000) && rustc_lexer_is_horizontal_whitespace('\t'));
    CHECK(rustc_lexer_abi_1() == RUSTC_LEXER_ABI);
}

/* Symbols are 15 to 41. */
static void check_symbols(batch_call *tokens) {
    CHECK(is_lexed(tokens, ";,.(){}[]@#~?:$=!<>-&|+*/^%", 27, 0, 27));
    for (size_t i = 0; i < 27; i++)
        CHECK(whole[i].kind == 15 + i && whole[i].len == 1);
}

/* Literals have the numbers of the header, 1 to 10. */
static void check_literals(batch_call *tokens) {
    static const char text[] = "1 2.5 'a' b'a' \"a\" b\"a\" c\"a\" r\"a\" br\"a\" cr\"a\"";
    static const uint8_t kinds[] = {RUSTC_LEXER_INT, RUSTC_LEXER_FLOAT, RUSTC_LEXER_CHAR, RUSTC_LEXER_BYTE,
                                    RUSTC_LEXER_STR, RUSTC_LEXER_BYTE_STR, RUSTC_LEXER_C_STR, RUSTC_LEXER_RAW_STR,
                                    RUSTC_LEXER_RAW_BYTE_STR, RUSTC_LEXER_RAW_C_STR};
    uint8_t number = 0;
    CHECK(is_lexed(tokens, text, sizeof text - 1, 0, 19));
    for (size_t i = 0; i < 19; i++)
        if (whole[i].kind == 13) {
            CHECK(whole[i].literal_kind == kinds[number]);
            number++;
        }
    CHECK(number == 10);
}

/* Returns whether a token of `whole` has these bytes after its kind. */
static bool has_fields(size_t index, const uint8_t fields[3]) {
    return memcmp((const unsigned char *)&whole[index] + 1, fields, 3) == 0;
}

/* Tokens with fields among tokens without fields. */
static void check_fields(batch_call *tokens) {
    static const uint8_t fields[][3] = {{0, 1, 0}, {1, 16, 1}, {0, 0, 0}, {2, 10, 1},
                                        {0, 0, 0}, {8, 1, 0},  {1, 0, 0}, {0, 0, 0}};
    CHECK(is_lexed(tokens, "/**/0x 1e r\"\"'1 ", 16, 0, 8));
    for (size_t i = 0; i < 8; i++)
        CHECK(has_fields(i, fields[i]));
    CHECK(is_lexed(tokens, " ---", 4, 1, 1) && has_fields(0, (const uint8_t[]){1, 1, 0}));
}

typedef uint32_t unescape_call(const uint8_t *, size_t, uint32_t, size_t, struct rustc_lexer_unit *, size_t, size_t *);

static bool is_unit(struct rustc_lexer_unit unit, size_t start, size_t end, uint32_t kind, uint32_t value) {
    return unit.start == start && unit.end == end && unit.kind == kind && unit.value == value;
}

/* An escaped newline with two warnings, and the units after it. */
static const uint8_t warned[] = "\\\n\n\xc2\xa0x";

static void check_units(unescape_call *unescape) {
    static const uint8_t text[] = "a\\q\\xff\\\n\n b";
    struct rustc_lexer_unit units[16];
    size_t len = sizeof text - 1, count = 99;
    CHECK(unescape(text, len, RUSTC_LEXER_C_STR, 0, units, 16, &count) == RUSTC_LEXER_OK && count == 5);
    CHECK(is_unit(units[0], 0, 1, RUSTC_LEXER_UNIT_CHAR, 'a'));
    CHECK(is_unit(units[1], 1, 3, RUSTC_LEXER_UNIT_ERROR, RUSTC_LEXER_INVALID_ESCAPE));
    CHECK(is_unit(units[2], 3, 7, RUSTC_LEXER_UNIT_BYTE, 255));
    CHECK(is_unit(units[3], 7, 11, RUSTC_LEXER_UNIT_WARNING, RUSTC_LEXER_MULTIPLE_SKIPPED_LINES_WARNING));
    CHECK(is_unit(units[4], 11, 12, RUSTC_LEXER_UNIT_CHAR, 'b'));
    CHECK(unescape(text, len, RUSTC_LEXER_STR, 2, units, 1, &count) == RUSTC_LEXER_OK && count == 1);
    CHECK(is_unit(units[0], 3, 7, RUSTC_LEXER_UNIT_ERROR, RUSTC_LEXER_OUT_OF_RANGE_HEX_ESCAPE));
    CHECK(unescape(text, len, RUSTC_LEXER_STR, 5, units, 16, &count) == RUSTC_LEXER_OK && count == 0);
    CHECK(unescape(text, len, RUSTC_LEXER_RAW_STR, 0, units, 16, &count) == RUSTC_LEXER_OK && count == 12);
    CHECK(unescape(text, len, RUSTC_LEXER_CHAR, 0, units, 16, &count) == RUSTC_LEXER_OK && count == 1);
    CHECK(is_unit(units[0], 0, 12, RUSTC_LEXER_UNIT_ERROR, RUSTC_LEXER_MORE_THAN_ONE_CHAR));
    CHECK(unescape(text, len, RUSTC_LEXER_CHAR, 1, units, 16, &count) == RUSTC_LEXER_OK && count == 0);
    CHECK(unescape(text, 1, RUSTC_LEXER_BYTE, 0, units, 1, &count) == RUSTC_LEXER_OK && count == 1);
    CHECK(is_unit(units[0], 0, 1, RUSTC_LEXER_UNIT_BYTE, 'a'));
    CHECK(unescape(NULL, 0, RUSTC_LEXER_BYTE, 0, NULL, 0, &count) == RUSTC_LEXER_OK && count == 0);
    CHECK(unescape(NULL, 0, RUSTC_LEXER_BYTE, 0, units, 1, &count) == RUSTC_LEXER_OK && count == 1);
    CHECK(is_unit(units[0], 0, 0, RUSTC_LEXER_UNIT_ERROR, RUSTC_LEXER_ZERO_CHARS));
    CHECK(unescape(text, len, RUSTC_LEXER_FLOAT, 0, units, 16, &count) == RUSTC_LEXER_INVALID_MODE && count == 0);
    CHECK(unescape(text, len, 11, 0, units, 16, &count) == RUSTC_LEXER_INVALID_MODE && count == 0);
    CHECK(is_unit(units[0], 0, 0, RUSTC_LEXER_UNIT_ERROR, RUSTC_LEXER_ZERO_CHARS));
    for (size_t passed = 0; passed < 4; passed++) {
        CHECK(unescape(warned, 6, RUSTC_LEXER_STR, passed, units, 16, &count) == RUSTC_LEXER_OK && count == 4 - passed);
        CHECK(passed > 0 ||
              is_unit(units[0], 0, 3, RUSTC_LEXER_UNIT_WARNING, RUSTC_LEXER_MULTIPLE_SKIPPED_LINES_WARNING));
        CHECK(passed > 1 ||
              is_unit(units[1 - passed], 0, 5, RUSTC_LEXER_UNIT_WARNING, RUSTC_LEXER_UNSKIPPED_WHITESPACE_WARNING));
        CHECK(passed > 2 || is_unit(units[2 - passed], 3, 5, RUSTC_LEXER_UNIT_CHAR, 0xa0));
        CHECK(is_unit(units[3 - passed], 5, 6, RUSTC_LEXER_UNIT_CHAR, 'x'));
    }
}

static void check_errors(unescape_call *errors) {
    static const uint8_t text[] = "a\\q\\xff\\\n\n b";
    struct rustc_lexer_unit units[16];
    size_t len = sizeof text - 1, count = 99;
    CHECK(errors(text, len, RUSTC_LEXER_STR, 0, units, 16, &count) == RUSTC_LEXER_OK && count == 3);
    CHECK(is_unit(units[0], 1, 3, RUSTC_LEXER_UNIT_ERROR, RUSTC_LEXER_INVALID_ESCAPE));
    CHECK(is_unit(units[1], 3, 7, RUSTC_LEXER_UNIT_ERROR, RUSTC_LEXER_OUT_OF_RANGE_HEX_ESCAPE));
    CHECK(is_unit(units[2], 7, 11, RUSTC_LEXER_UNIT_WARNING, RUSTC_LEXER_MULTIPLE_SKIPPED_LINES_WARNING));
    CHECK(errors(text, len, RUSTC_LEXER_C_STR, 1, units, 16, &count) == RUSTC_LEXER_OK && count == 1);
    CHECK(is_unit(units[0], 7, 11, RUSTC_LEXER_UNIT_WARNING, RUSTC_LEXER_MULTIPLE_SKIPPED_LINES_WARNING));
    for (size_t passed = 0; passed < 2; passed++) {
        CHECK(errors(warned, 6, RUSTC_LEXER_STR, passed, units, 16, &count) == RUSTC_LEXER_OK && count == 2 - passed);
        CHECK(is_unit(units[1 - passed], 0, 5, RUSTC_LEXER_UNIT_WARNING, RUSTC_LEXER_UNSKIPPED_WHITESPACE_WARNING));
    }
    CHECK(errors(text, len, RUSTC_LEXER_RAW_STR, 0, units, 16, &count) == RUSTC_LEXER_OK && count == 0);
    static const uint8_t lines[] = "a\r\nb\\\r\n c\r\r\n";
    CHECK(errors(lines, sizeof lines - 1, RUSTC_LEXER_STR, 0, units, 16, &count) == RUSTC_LEXER_OK && count == 1);
    CHECK(is_unit(units[0], 9, 10, RUSTC_LEXER_UNIT_ERROR, RUSTC_LEXER_BARE_CARRIAGE_RETURN));
    CHECK(errors(text, len, RUSTC_LEXER_CHAR, 0, units, 16, &count) == RUSTC_LEXER_OK && count == 1);
    CHECK(is_unit(units[0], 0, 2, RUSTC_LEXER_UNIT_ERROR, RUSTC_LEXER_MORE_THAN_ONE_CHAR));
    CHECK(errors(text, 1, RUSTC_LEXER_BYTE, 0, units, 1, &count) == RUSTC_LEXER_OK && count == 0);
    CHECK(errors(NULL, 0, RUSTC_LEXER_BYTE, 0, NULL, 0, &count) == RUSTC_LEXER_OK && count == 0);
    CHECK(errors(text, len, 11, 0, units, 16, &count) == RUSTC_LEXER_INVALID_MODE && count == 0);
}

/* Highlights a text with a buffer of this size, and checks that the rest of the buffer is unchanged. */
static bool is_marked_as(const char *text, uint32_t format, uint32_t edition, size_t count, const char *wanted) {
    uint8_t bytes[200];
    size_t written = 99, len = strlen(wanted);
    memset(bytes, 0xAA, sizeof bytes);
    if (rustc_lexer_write_highlighted((const uint8_t *)text, strlen(text), format, edition, count, bytes, len,
                                      &written) !=
        RUSTC_LEXER_OK)
        return false;
    return written == len && memcmp(bytes, wanted, len) == 0 && bytes[len] == 0xAA;
}

static void check_marks(void) {
    static const uint8_t text[] = "a<";
    uint8_t bytes[8];
    size_t written = 99;
    /* a keyword, whitespace and a number; a character with an entity; a prefix that is reserved since 2021 */
    CHECK(is_marked_as("as 1", RUSTC_LEXER_FORMAT_HTML, 2024, 9,
                       "<span class=\"keyword\">as</span> <span class=\"number\">1</span>"));
    CHECK(is_marked_as("as 1", RUSTC_LEXER_FORMAT_COLOURS, 2024, 1, "\033[35mas\033[0m"));
    CHECK(is_marked_as("as 1", RUSTC_LEXER_FORMAT_NO_COLOURS, 2024, 2, "as "));
    CHECK(is_marked_as("a<&b", RUSTC_LEXER_FORMAT_HTML, 2015, SIZE_MAX, "a&lt;&amp;b"));
    CHECK(is_marked_as("a\"\"", RUSTC_LEXER_FORMAT_NO_COLOURS, 2021, 1, "a [<- unknown prefix before a quote or `#`]"));
    CHECK(is_marked_as("a\"\"", RUSTC_LEXER_FORMAT_HTML, 2018, 9, "a<span class=\"text\">\"\"</span>"));
    CHECK(is_marked_as("a", RUSTC_LEXER_FORMAT_HTML, 2024, 0, ""));
    CHECK(is_marked_as("", RUSTC_LEXER_FORMAT_HTML, 2024, 1, ""));

    memset(bytes, 0xAA, sizeof bytes);
    CHECK(rustc_lexer_write_highlighted(text, 2, 1, 2024, 9, bytes, 5, &written) == RUSTC_LEXER_OK && written == 5);
    CHECK(memcmp(bytes, "a&lt;\xaa\xaa\xaa", 8) == 0);
    /* one byte too small: nothing is written after the buffer */
    memset(bytes, 0xAA, sizeof bytes);
    CHECK(rustc_lexer_write_highlighted(text, 2, 1, 2024, 9, bytes, 4, &written) == RUSTC_LEXER_SMALL_BUFFER &&
          written == 0);
    CHECK(memcmp(bytes + 4, "\xaa\xaa\xaa\xaa", 4) == 0);
    written = 99;
    CHECK(rustc_lexer_write_highlighted(text, 2, 1, 2024, 9, NULL, 0, &written) == RUSTC_LEXER_SMALL_BUFFER &&
          written == 0);
    CHECK(rustc_lexer_write_highlighted(NULL, 0, 1, 2024, 9, NULL, 0, &written) == RUSTC_LEXER_OK && written == 0);

    /* errors, in their order; the buffer is unchanged */
    static const struct {
        const char *text;
        uint32_t format, edition, status;
    } invalid[] = {
        {"\xff", 0, 0, RUSTC_LEXER_NOT_UTF8},
        {"a", 0, 2022, RUSTC_LEXER_INVALID_EDITION},
        {"a", 1, 2024 + 65536, RUSTC_LEXER_INVALID_EDITION},
        {"a", 0, 2024, RUSTC_LEXER_INVALID_FORMAT},
        {"a", 4, 2024, RUSTC_LEXER_INVALID_FORMAT},
    };
    for (size_t i = 0; i < sizeof invalid / sizeof invalid[0]; i++) {
        written = 99;
        memset(bytes, 0xAA, sizeof bytes);
        CHECK(rustc_lexer_write_highlighted((const uint8_t *)invalid[i].text, 1, invalid[i].format, invalid[i].edition,
                                            1, bytes, 8, &written) == invalid[i].status);
        CHECK(written == 0 && memcmp(bytes, "\xaa\xaa\xaa\xaa\xaa\xaa\xaa\xaa", 8) == 0);
    }
}

/* Checks the message of the first token's error with buffers of all lengths up to that of the message. */
static void check_message(const char *text, const char *wanted) {
    struct rustc_lexer_token token = rustc_lexer_first_token_unchecked((const uint8_t *)text, strlen(text), 1);
    size_t len = strlen(wanted);
    CHECK(len <= 256);
    for (size_t buffer_len = 0; buffer_len <= len; buffer_len++) {
        uint32_t status = buffer_len == len ? RUSTC_LEXER_OK : RUSTC_LEXER_SMALL_BUFFER;
        size_t written = 99;
        uint8_t bytes[258];
        memset(bytes, 0xAA, sizeof bytes);
        CHECK(rustc_lexer_token_error_message((const uint8_t *)text, token.len, &token, 2024, bytes, buffer_len,
                                              &written) == status);
        CHECK(written == (status == RUSTC_LEXER_OK ? len : 0) && bytes[buffer_len] == 0xAA);
        CHECK(status != RUSTC_LEXER_OK || memcmp(bytes, wanted, len) == 0);
    }
}

static void check_messages(void) {
    const uint8_t *text = (const uint8_t *)"0x";
    struct rustc_lexer_token number = {.kind = RUSTC_LEXER_LITERAL, .literal_kind = RUSTC_LEXER_INT, .empty_int = 1};
    struct rustc_lexer_token unknown = {.kind = 255, .literal_kind = 255, .terminated = 255, .n_hashes = 255};
    uint8_t bytes[300];
    size_t written = 99;
    check_message("a", "");
    check_message("\"\\q\"", "");
    check_message("0x", "number has no digits");
    check_message("k#a", "unknown prefix before a quote or `#`");
    check_message("\xc2\xac", "unexpected character: no token starts with it");
    check_message("r\"a", "unterminated raw string: missing closing quote");
    check_message("br#\"a", "unterminated raw string: expected a closing quote and 1 `#`");
    check_message("r##\"abc\"#", "unterminated raw string: expected 2 `#` after the closing quote, found 1 at byte 8");
    check_message("---\n----", "frontmatter opens with 3 dashes but closes with 4");

    /* a buffer with spare room, an empty text and null */
    memset(bytes, 0xAA, sizeof bytes);
    CHECK(rustc_lexer_token_error_message(text, 2, &number, 2015, bytes, sizeof bytes, &written) == RUSTC_LEXER_OK);
    CHECK(written == 20 && memcmp(bytes, "number has no digits\xaa", 21) == 0);
    CHECK(rustc_lexer_token_error_message(NULL, 0, &number, 2024, NULL, 0, &written) == RUSTC_LEXER_SMALL_BUFFER);
    CHECK(written == 0);
    CHECK(rustc_lexer_token_error_message(NULL, 0, &unknown, 2024, NULL, 0, &written) == RUSTC_LEXER_OK);
    CHECK(written == 0);

    /* if the text or the year is invalid, the buffer is unchanged */
    memset(bytes, 0xAA, sizeof bytes);
    written = 99;
    CHECK(rustc_lexer_token_error_message((const uint8_t *)"\xff", 1, &number, 2024, bytes, sizeof bytes, &written) ==
          RUSTC_LEXER_NOT_UTF8);
    CHECK(written == 0 && bytes[0] == 0xAA);
    written = 99;
    CHECK(rustc_lexer_token_error_message(text, 2, &number, 2020, bytes, sizeof bytes, &written) ==
          RUSTC_LEXER_INVALID_EDITION);
    CHECK(written == 0 && bytes[0] == 0xAA);
}

/* The header guarantees that, if several statuses apply, the first of these is returned. */
static const uint32_t order[] = {
    RUSTC_LEXER_TOO_LONG,     RUSTC_LEXER_NOT_UTF8,       RUSTC_LEXER_INVALID_PLACE,
    RUSTC_LEXER_NOT_RAW,      RUSTC_LEXER_INVALID_MODE,   RUSTC_LEXER_INVALID_EDITION,
    RUSTC_LEXER_INVALID_EDIT, RUSTC_LEXER_INVALID_FORMAT, RUSTC_LEXER_SMALL_BUFFER,
};

static bool is_before(uint32_t one, uint32_t other) {
    size_t at = 0;
    while (order[at] != one && order[at] != other)
        at++;
    return order[at] == one;
}

/* If two statuses apply to a call, it returns the one with priority. */
static void check_order(void) {
    const uint8_t *bad = (const uint8_t *)"\xff", *good = (const uint8_t *)"a";
    struct rustc_lexer_place past = {9, 0};
    struct rustc_lexer_raw_str_error error;
    struct rustc_lexer_edit edit = {5, 4, 3}, made;
    struct rustc_lexer_relexing begin = {0};
    struct rustc_lexer_head head = {0};
    struct rustc_lexer_token unknown = {.kind = RUSTC_LEXER_UNKNOWN, .len = 1};
    uint8_t bytes[8];
    size_t count;
    uint32_t is;
    const uint32_t rows[][3] = {
        {rustc_lexer_tokens(bad, 1, &past, buffer, 1, &count), RUSTC_LEXER_NOT_UTF8, RUSTC_LEXER_INVALID_PLACE},
        {rustc_lexer_tokens_in(bad, 1, 0, &(struct rustc_lexer_place){0, 0}, buffer, 1, &count), RUSTC_LEXER_NOT_UTF8,
         RUSTC_LEXER_INVALID_EDITION},
        {rustc_lexer_tokens_in(good, 1, 0, &past, buffer, 1, &count), RUSTC_LEXER_INVALID_PLACE,
         RUSTC_LEXER_INVALID_EDITION},
        {rustc_lexer_is_token_boundary(bad, 1, 9, 2024, &is), RUSTC_LEXER_NOT_UTF8, RUSTC_LEXER_INVALID_PLACE},
        {rustc_lexer_is_token_boundary(bad, 1, 0, 0, &is), RUSTC_LEXER_NOT_UTF8, RUSTC_LEXER_INVALID_EDITION},
        {rustc_lexer_is_token_boundary(good, 1, 9, 0, &is), RUSTC_LEXER_INVALID_PLACE, RUSTC_LEXER_INVALID_EDITION},
        {rustc_lexer_validate_raw_str(bad, 1, 1, &error), RUSTC_LEXER_NOT_UTF8, RUSTC_LEXER_NOT_RAW},
        {rustc_lexer_unescape(bad, 1, 11, 0, NULL, 0, &count), RUSTC_LEXER_NOT_UTF8, RUSTC_LEXER_INVALID_MODE},
        {rustc_lexer_literal_errors(bad, 1, 11, 0, NULL, 0, &count), RUSTC_LEXER_NOT_UTF8, RUSTC_LEXER_INVALID_MODE},
        {rustc_lexer_relex(bad, 1, NULL, 0, &edit, 2024, &begin, buffer, 1, &count), RUSTC_LEXER_NOT_UTF8,
         RUSTC_LEXER_INVALID_EDIT},
        {rustc_lexer_relex(bad, 1, NULL, 0, &(struct rustc_lexer_edit){0, 0, 1}, 0, &begin, buffer, 1, &count),
         RUSTC_LEXER_NOT_UTF8, RUSTC_LEXER_INVALID_EDITION},
        {rustc_lexer_relex(good, 1, NULL, 0, &edit, 0, &begin, buffer, 1, &count), RUSTC_LEXER_INVALID_EDITION,
         RUSTC_LEXER_INVALID_EDIT},
        {rustc_lexer_body_edit(bad, 1, &edit, &head, &made, &is), RUSTC_LEXER_NOT_UTF8, RUSTC_LEXER_INVALID_EDIT},
        {rustc_lexer_token_error_message(bad, 1, &unknown, 0, NULL, 0, &count), RUSTC_LEXER_NOT_UTF8,
         RUSTC_LEXER_INVALID_EDITION},
        {rustc_lexer_token_error_message(good, 1, &unknown, 0, NULL, 0, &count), RUSTC_LEXER_INVALID_EDITION,
         RUSTC_LEXER_SMALL_BUFFER},
        {rustc_lexer_write_highlighted(bad, 1, 1, 0, 1, NULL, 0, &count), RUSTC_LEXER_NOT_UTF8,
         RUSTC_LEXER_INVALID_EDITION},
        {rustc_lexer_write_highlighted(bad, 1, 0, 2024, 1, NULL, 0, &count), RUSTC_LEXER_NOT_UTF8,
         RUSTC_LEXER_INVALID_FORMAT},
        {rustc_lexer_write_highlighted(good, 1, 0, 0, 1, bytes, 8, &count), RUSTC_LEXER_INVALID_EDITION,
         RUSTC_LEXER_INVALID_FORMAT},
        {rustc_lexer_write_highlighted(good, 1, 1, 0, 1, NULL, 0, &count), RUSTC_LEXER_INVALID_EDITION,
         RUSTC_LEXER_SMALL_BUFFER},
        {rustc_lexer_write_highlighted(good, 1, 0, 2024, 1, NULL, 0, &count), RUSTC_LEXER_INVALID_FORMAT,
         RUSTC_LEXER_SMALL_BUFFER},
    };
    for (size_t i = 0; i < sizeof rows / sizeof rows[0]; i++)
        CHECK(rows[i][0] == rows[i][is_before(rows[i][1], rows[i][2]) ? 1 : 2]);
}

/* The length of large buffers. If it were truncated, calls would return SMALL_BUFFER, or find no more tokens. */
#define MANY 70000

static uint8_t many[MANY + 1];
static struct rustc_lexer_token many_tokens[MANY];
static struct rustc_lexer_unit many_units[MANY];

static void check_many(batch_call *tokens, unescape_call *unescape) {
    static uint8_t bytes[MANY];
    struct rustc_lexer_place place = {0, 0};
    size_t count;
    memset(many, ';', MANY);
    CHECK(tokens(many, MANY, &place, many_tokens, MANY, &count) == RUSTC_LEXER_OK && count == MANY);
    for (size_t i = 0; i < MANY; i++)
        CHECK(many_tokens[i].kind == RUSTC_LEXER_SEMI && many_tokens[i].len == 1);
    CHECK(rustc_lexer_write_highlighted(many, MANY, RUSTC_LEXER_FORMAT_HTML, 2024, MANY, bytes, MANY, &count) ==
          RUSTC_LEXER_OK);
    CHECK(count == MANY && memcmp(bytes, many, MANY) == 0);
    CHECK(unescape(many, MANY, RUSTC_LEXER_STR, 0, many_units, MANY, &count) == RUSTC_LEXER_OK && count == MANY);
    CHECK(is_unit(many_units[MANY - 1], MANY - 1, MANY, RUSTC_LEXER_UNIT_CHAR, ';'));

    /* a byte appended at the end, which keeps all tokens except the last ones; and a full re-lex */
    struct rustc_lexer_edit edit = {MANY, MANY, MANY + 1}, all = {0, 0, MANY};
    struct rustc_lexer_relexing relexing = {0};
    many[MANY] = 0xff;
    CHECK(rustc_lexer_check(many, MANY) == RUSTC_LEXER_OK && rustc_lexer_check(many, MANY + 1) == RUSTC_LEXER_NOT_UTF8);
    many[MANY] = ';';
    CHECK(rustc_lexer_relex(many, MANY + 1, many_tokens, MANY, &edit, 2024, &relexing, buffer, BUFFER_LEN, &count) ==
              RUSTC_LEXER_OK && relexing.kept_front + count == MANY + 1 && relexing.kept_front >= MANY - 2);
    relexing = (struct rustc_lexer_relexing){0};
    CHECK(rustc_lexer_relex(many, MANY, NULL, 0, &all, 2024, &relexing, many_tokens, MANY, &count) == RUSTC_LEXER_OK);
    CHECK(count == MANY && relexing.lexed == MANY && relexing.stage == RUSTC_LEXER_STAGE_DONE);

    /* only carriage returns, each of which is an error in a string */
    memset(many, '\r', MANY);
    CHECK(rustc_lexer_literal_errors(many, MANY, RUSTC_LEXER_STR, 0, many_units, MANY, &count) == RUSTC_LEXER_OK);
    CHECK(count == MANY && many_units[MANY - 1].end == MANY);
}

/* Checks the class, the error and the length of the first token of a text. */
static void check_token(const char *text, size_t len, uint32_t class_wanted, uint32_t error_wanted) {
    const uint8_t *bytes = (const uint8_t *)text;
    struct rustc_lexer_token token = rustc_lexer_first_token_unchecked(bytes, strlen(text), 1);
    uint32_t number = 99;
    CHECK(token.len == len);
    CHECK(rustc_lexer_class(bytes, len, &token, 2024, &number) == RUSTC_LEXER_OK && number == class_wanted);
    number = 99;
    CHECK(rustc_lexer_token_error(bytes, len, &token, 2024, &number) == RUSTC_LEXER_OK && number == error_wanted);
}

static void check_classes(void) {
    static char many[600];
    static const struct {
        const char *text;
        size_t len;
        uint32_t class_wanted, error_wanted;
    } rows[] = {
        {" ", 1, RUSTC_LEXER_CLASS_PLAIN, 0},
        {"r#fn", 4, RUSTC_LEXER_CLASS_PLAIN, 0},
        {"k#fn", 4, RUSTC_LEXER_CLASS_PLAIN, RUSTC_LEXER_TOKEN_ERROR_UNKNOWN_PREFIX},
        {"%", 1, RUSTC_LEXER_CLASS_PLAIN, 0},
        {"a", 1, RUSTC_LEXER_CLASS_PLAIN, 0},
        {"// a", 4, RUSTC_LEXER_CLASS_COMMENT, 0},
        {"/* a", 4, RUSTC_LEXER_CLASS_COMMENT, RUSTC_LEXER_TOKEN_ERROR_UNTERMINATED_BLOCK_COMMENT},
        {"/// a", 5, RUSTC_LEXER_CLASS_DOC, 0},
        {"/*! */", 6, RUSTC_LEXER_CLASS_DOC, 0},
        {"while", 5, RUSTC_LEXER_CLASS_KEYWORD, 0},
        {"Vec", 3, RUSTC_LEXER_CLASS_TYPE_NAME, 0},
        {"---\na\n---\n", 9, RUSTC_LEXER_CLASS_DOC, 0},
        {" ---\n", 5, RUSTC_LEXER_CLASS_DOC, RUSTC_LEXER_TOKEN_ERROR_WHITESPACE_BEFORE_FRONTMATTER},
        {"---a b\n---", 10, RUSTC_LEXER_CLASS_DOC, RUSTC_LEXER_TOKEN_ERROR_INVALID_INFOSTRING},
        {"---\na", 5, RUSTC_LEXER_CLASS_DOC, RUSTC_LEXER_TOKEN_ERROR_UNCLOSED_FRONTMATTER},
        {"---\n ---", 8, RUSTC_LEXER_CLASS_DOC, RUSTC_LEXER_TOKEN_ERROR_WHITESPACE_BEFORE_FRONTMATTER_CLOSE},
        {"---\n----", 8, RUSTC_LEXER_CLASS_DOC, RUSTC_LEXER_TOKEN_ERROR_FRONTMATTER_CLOSE_MISMATCH},
        {"---\n--- a", 9, RUSTC_LEXER_CLASS_DOC, RUSTC_LEXER_TOKEN_ERROR_EXTRA_AFTER_FRONTMATTER_CLOSE},
        {"a\xf0\x9f\x99\x82", 5, RUSTC_LEXER_CLASS_PLAIN, RUSTC_LEXER_TOKEN_ERROR_INVALID_NAME},
        {"z\"a\"", 1, RUSTC_LEXER_CLASS_PLAIN, RUSTC_LEXER_TOKEN_ERROR_UNKNOWN_PREFIX},
        {"'z#", 2, RUSTC_LEXER_CLASS_LIFETIME, RUSTC_LEXER_TOKEN_ERROR_UNKNOWN_LIFETIME_PREFIX},
        {"##", 2, RUSTC_LEXER_CLASS_PLAIN, RUSTC_LEXER_TOKEN_ERROR_GUARDED_STRING},
        {"'a", 2, RUSTC_LEXER_CLASS_LIFETIME, 0},
        {"'r#a", 4, RUSTC_LEXER_CLASS_LIFETIME, 0},
        {"'1a", 3, RUSTC_LEXER_CLASS_LIFETIME, RUSTC_LEXER_TOKEN_ERROR_INVALID_LIFETIME},
        {"\xc2\xac", 2, RUSTC_LEXER_CLASS_PLAIN, RUSTC_LEXER_TOKEN_ERROR_UNKNOWN_CHARACTER},
        {"1u8", 3, RUSTC_LEXER_CLASS_NUMBER, 0},
        {"0x", 2, RUSTC_LEXER_CLASS_NUMBER, RUSTC_LEXER_TOKEN_ERROR_EMPTY_NUMBER},
        {"1.5", 3, RUSTC_LEXER_CLASS_NUMBER, 0},
        {"1e", 2, RUSTC_LEXER_CLASS_NUMBER, RUSTC_LEXER_TOKEN_ERROR_EMPTY_EXPONENT},
        {"0b12", 4, RUSTC_LEXER_CLASS_NUMBER, RUSTC_LEXER_TOKEN_ERROR_INVALID_DIGIT},
        {"0o8", 3, RUSTC_LEXER_CLASS_NUMBER, RUSTC_LEXER_TOKEN_ERROR_INVALID_DIGIT},
        {"0b1u8", 5, RUSTC_LEXER_CLASS_NUMBER, 0},
        {"0x9", 3, RUSTC_LEXER_CLASS_NUMBER, 0},
        {"0x1.5", 5, RUSTC_LEXER_CLASS_NUMBER, RUSTC_LEXER_TOKEN_ERROR_FLOAT_OF_BASE},
        {"r#self", 6, RUSTC_LEXER_CLASS_PLAIN, RUSTC_LEXER_TOKEN_ERROR_RAW_KEYWORD},
        {"'r#_", 4, RUSTC_LEXER_CLASS_LIFETIME, RUSTC_LEXER_TOKEN_ERROR_RAW_KEYWORD},
        {"\"a\"_", 4, RUSTC_LEXER_CLASS_TEXT, RUSTC_LEXER_TOKEN_ERROR_UNDERSCORE_SUFFIX},
        {"\"a\"_a", 5, RUSTC_LEXER_CLASS_TEXT, 0},
        {"/// \ra", 6, RUSTC_LEXER_CLASS_DOC, RUSTC_LEXER_TOKEN_ERROR_BARE_CARRIAGE_RETURN_IN_DOC_COMMENT},
        {"// \ra", 5, RUSTC_LEXER_CLASS_COMMENT, 0},
        {"---\na\rb\n---", 11, RUSTC_LEXER_CLASS_DOC, RUSTC_LEXER_TOKEN_ERROR_BARE_CARRIAGE_RETURN_IN_FRONTMATTER},
        {"// \xe2\x80\xae", 6, RUSTC_LEXER_CLASS_COMMENT, RUSTC_LEXER_TOKEN_ERROR_TEXT_DIRECTION_CODEPOINT},
        {"c\"\xe2\x81\xa6\"", 6, RUSTC_LEXER_CLASS_TEXT, RUSTC_LEXER_TOKEN_ERROR_TEXT_DIRECTION_CODEPOINT},
        {"b\"\xe2\x81\xa6\"", 6, RUSTC_LEXER_CLASS_TEXT, 0},
        {"'a'", 3, RUSTC_LEXER_CLASS_TEXT, 0},
        {"'", 1, RUSTC_LEXER_CLASS_TEXT, RUSTC_LEXER_TOKEN_ERROR_UNTERMINATED_CHAR},
        {"b'", 2, RUSTC_LEXER_CLASS_TEXT, RUSTC_LEXER_TOKEN_ERROR_UNTERMINATED_BYTE},
        {"\"\\q\"", 4, RUSTC_LEXER_CLASS_TEXT, 0},
        {"\"a", 2, RUSTC_LEXER_CLASS_TEXT, RUSTC_LEXER_TOKEN_ERROR_UNTERMINATED_STRING},
        {"b\"a", 3, RUSTC_LEXER_CLASS_TEXT, RUSTC_LEXER_TOKEN_ERROR_UNTERMINATED_STRING},
        {"c\"a", 3, RUSTC_LEXER_CLASS_TEXT, RUSTC_LEXER_TOKEN_ERROR_UNTERMINATED_STRING},
        {"r\"a\"", 4, RUSTC_LEXER_CLASS_TEXT, 0},
        {"r#~", 3, RUSTC_LEXER_CLASS_TEXT, RUSTC_LEXER_TOKEN_ERROR_INVALID_RAW_STARTER},
        {"br\"a", 4, RUSTC_LEXER_CLASS_TEXT, RUSTC_LEXER_TOKEN_ERROR_UNTERMINATED_RAW_STRING},
        {"cr##\"a\"#", 8, RUSTC_LEXER_CLASS_TEXT, RUSTC_LEXER_TOKEN_ERROR_TOO_FEW_HASHES},
    };
    for (size_t i = 0; i < sizeof rows / sizeof rows[0]; i++)
        check_token(rows[i].text, rows[i].len, rows[i].class_wanted, rows[i].error_wanted);
    memset(many, '#', 515);
    memcpy(many, "r", 1);
    memcpy(many + 257, "\"\"", 2);
    check_token(many, 515, RUSTC_LEXER_CLASS_TEXT, RUSTC_LEXER_TOKEN_ERROR_TOO_MANY_HASHES);
    memset(many, '-', 513);
    many[256] = '\n';
    many[513] = '\0';
    check_token(many, 513, RUSTC_LEXER_CLASS_DOC, RUSTC_LEXER_TOKEN_ERROR_TOO_MANY_DASHES);

    struct rustc_lexer_token token = {.kind = RUSTC_LEXER_IDENT, .len = 1};
    uint32_t number = 9;
    CHECK(rustc_lexer_class((const uint8_t *)"\xff", 1, &token, 2024, &number) == RUSTC_LEXER_NOT_UTF8 && number == 0);
    number = 9;
    CHECK(rustc_lexer_token_error((const uint8_t *)"\xff", 1, &token, 0, &number) == RUSTC_LEXER_NOT_UTF8);
    CHECK(number == 0);
    CHECK(rustc_lexer_class(NULL, 0, &token, 2024, &number) == RUSTC_LEXER_OK && number == RUSTC_LEXER_CLASS_PLAIN);
    CHECK(rustc_lexer_token_error(NULL, 0, &token, 2024, &number) == RUSTC_LEXER_OK && number == 0);

    /* a keyword and an error of later editions, and invalid years */
    const uint8_t *word = (const uint8_t *)"dyn";
    struct rustc_lexer_token forced = {.kind = RUSTC_LEXER_FORCED_KEYWORD_IDENT, .len = 3};
    for (uint32_t year = 2013; year < 2030; year++) {
        bool is_edition = year == 2015 || year == 2018 || year == 2021 || year == 2024;
        uint32_t wanted = year == 2015 ? RUSTC_LEXER_CLASS_PLAIN : is_edition ? RUSTC_LEXER_CLASS_KEYWORD : 0;
        number = 9;
        uint32_t status = rustc_lexer_class(word, 3, &token, year, &number);
        CHECK(status == (is_edition ? RUSTC_LEXER_OK : RUSTC_LEXER_INVALID_EDITION) && number == wanted);

        size_t written = 99;
        uint8_t message[256];
        wanted = is_edition && year >= 2021 ? RUSTC_LEXER_TOKEN_ERROR_UNKNOWN_PREFIX : 0;
        number = 9;
        CHECK(rustc_lexer_token_error((const uint8_t *)"k#a", 3, &forced, year, &number) == status);
        CHECK(number == wanted);
        CHECK(rustc_lexer_token_error_message((const uint8_t *)"k#a", 3, &forced, year, message, sizeof message,
                                              &written) == status);
        CHECK((written > 0) == (wanted > 0));
    }
}

int main(void) {
    batch_call *const calls[] = {rustc_lexer_tokens, rustc_lexer_tokens_unchecked, tokens_in_newest,
                                 tokens_in_newest_unchecked};
    CHECK(sizeof(struct rustc_lexer_token) == 12 && sizeof(struct rustc_lexer_relexing) == 7 * sizeof(size_t));
    CHECK(sizeof(struct rustc_lexer_unit) == 2 * sizeof(size_t) + 8 && sizeof(struct rustc_lexer_head) == 36);
    for (int i = 0; i < 4; i++) {
        check_empty_text(calls[i]);
        check_buffer(calls[i]);
        check_frontmatter(calls[i]);
        check_places(calls[i]);
        check_symbols(calls[i]);
        check_literals(calls[i]);
        check_fields(calls[i]);
    }
    check_units(rustc_lexer_unescape);
    check_units(rustc_lexer_unescape_unchecked);
    check_many(rustc_lexer_tokens, rustc_lexer_unescape);
    check_many(rustc_lexer_tokens_unchecked, rustc_lexer_unescape_unchecked);
    check_errors(rustc_lexer_literal_errors);
    check_errors(rustc_lexer_literal_errors_unchecked);
    check_invalid_texts();
    check_order();
    check_null();
    check_records();
    check_editions();
    check_offsets();
    check_others();
    check_marks();
    check_classes();
    check_messages();
    return 0;
}
