/* Compares relexed texts and documents with a full re-lex, for edits at the ends, in all editions, and random edits.
 * Also tests invalid edits and spliced lists. Prints the first failed check and exits with 1. */
#include "checks.h"

typedef uint32_t relex_call(const uint8_t *, size_t, const struct rustc_lexer_token *, size_t,
                            const struct rustc_lexer_edit *, uint32_t, struct rustc_lexer_relexing *,
                            struct rustc_lexer_token *, size_t, size_t *);

#define MOST 200

/* A text with its tokens. */
struct held {
    char text[MOST];
    size_t len;
    struct rustc_lexer_token tokens[MOST];
    size_t count;
    struct rustc_lexer_relexing relexing;
};

/* Replaces the bytes from `start` up to `stop` with `insert`, with buffers of `buffer_len` tokens. */
static uint32_t edit_held(relex_call *relex, struct held *held, size_t start, size_t stop, const char *insert,
                          uint32_t edition, size_t buffer_len) {
    struct rustc_lexer_token lexed[MOST];
    struct rustc_lexer_edit edit = {(uint32_t)start, (uint32_t)stop, (uint32_t)(start + strlen(insert))};
    size_t written = 0, count;
    memmove(held->text + edit.new_end, held->text + stop, held->len - stop);
    memcpy(held->text + start, insert, strlen(insert));
    held->len += edit.new_end - stop;
    held->relexing.stage = RUSTC_LEXER_STAGE_BEGIN;
    do {
        uint32_t status = relex((const uint8_t *)held->text, held->len, held->tokens, held->count, &edit, edition,
                                &held->relexing, buffer, buffer_len, &count);
        if (status != RUSTC_LEXER_OK)
            return status;
        memcpy(lexed + written, buffer, count * sizeof buffer[0]);
        written += count;
    } while (held->relexing.stage == RUSTC_LEXER_STAGE_MORE);
    if (written != held->relexing.lexed)
        return 99;
    return rustc_lexer_splice(held->tokens, MOST, &held->count, held->relexing.kept_front, held->relexing.kept_back,
                              lexed, written);
}

/* Lexes the whole text with one buffer. */
static uint32_t lex_whole(relex_call *relex, struct held *held, uint32_t edition) {
    struct rustc_lexer_edit all = {0, 0, (uint32_t)held->len};
    struct rustc_lexer_relexing relexing = {0};
    return relex((const uint8_t *)held->text, held->len, NULL, 0, &all, edition, &relexing, held->tokens, MOST,
                 &held->count);
}

/* Returns whether the tokens equal a full re-lex. */
static bool is_from_scratch(const struct held *held) {
    struct rustc_lexer_token all[MOST];
    struct rustc_lexer_place place = {0, 0};
    size_t count;
    memset(all, 0, sizeof all);
    if (rustc_lexer_tokens((const uint8_t *)held->text, held->len, &place, all, MOST, &count) != RUSTC_LEXER_OK)
        return false;
    if (memcmp(all, held->tokens, count * sizeof all[0]) != 0)
        return false;
    return count == held->count;
}

static void check_edits(relex_call *relex) {
    struct held held;
    for (size_t buffer_len = 1; buffer_len <= BUFFER_LEN; buffer_len++) {
        memset(&held, 0, sizeof held);
        CHECK(edit_held(relex, &held, 0, 0, "let ab = cd + ef;", 2024, buffer_len) == RUSTC_LEXER_OK);
        CHECK(is_from_scratch(&held) && held.count == 12 && held.relexing.lexed == 12);
        CHECK(edit_held(relex, &held, 12, 13, "- 1 -", 2024, buffer_len) == RUSTC_LEXER_OK);
        CHECK(is_from_scratch(&held) && held.count == 16);
        CHECK(held.relexing.kept_front == 6 && held.relexing.lexed == 7 && held.relexing.kept_back == 3);
        CHECK(held.relexing.front_offset == 9 && held.relexing.back_offset == 13 && held.relexing.at == 17);
        CHECK(held.relexing.stage == RUSTC_LEXER_STAGE_DONE);
        CHECK(edit_held(relex, &held, 0, 0, "/*", 2024, buffer_len) == RUSTC_LEXER_OK);
        CHECK(is_from_scratch(&held) && held.count == 1 && held.relexing.kept_back == 0);
        CHECK(edit_held(relex, &held, 1, 2, "", 2024, buffer_len) == RUSTC_LEXER_OK);
        CHECK(is_from_scratch(&held) && held.count == 17);
        CHECK(edit_held(relex, &held, 1, 1, "\xc3\xa9", 2024, buffer_len) == RUSTC_LEXER_OK && is_from_scratch(&held));
        CHECK(edit_held(relex, &held, 0, held.len, "", 2024, buffer_len) == RUSTC_LEXER_OK && held.count == 0);
    }
}

/* Inserts 300 symbols between two others, with buffers of several sizes. Tokens that end less than two characters
 * before them are lexed again. A call after the last token writes nothing. */
static void check_long_edit(relex_call *relex) {
    static const size_t lens[] = {40, 64, 300, 301, 400};
    static const struct rustc_lexer_edit edit = {1, 1, 301};
    static struct rustc_lexer_token old[2], lexed[WHOLE_LEN], part[WHOLE_LEN];
    char text[302];
    memset(text, ';', sizeof text);
    CHECK(is_lexed(rustc_lexer_tokens, text, 2, 0, 2));
    memcpy(old, whole, sizeof old);
    CHECK(is_lexed(rustc_lexer_tokens, text, sizeof text, 0, 302));
    for (size_t i = 0; i < sizeof lens / sizeof lens[0]; i++) {
        struct rustc_lexer_relexing relexing = {0};
        size_t written = 0, count;
        for (int calls = 0; calls < 8; calls++) {
            CHECK(relex((const uint8_t *)text, sizeof text, old, 2, &edit, 2024, &relexing, part, lens[i], &count) ==
                  RUSTC_LEXER_OK);
            CHECK(count <= lens[i] && written + count <= 301);
            memcpy(lexed + written, part, count * sizeof part[0]);
            written += count;
        }
        CHECK(written == 301 && memcmp(lexed, whole, written * sizeof whole[0]) == 0);
        CHECK(memcmp(&old[1], &whole[301], sizeof old[1]) == 0);
        CHECK(relexing.kept_front == 0 && relexing.lexed == 301 && relexing.kept_back == 1);
        CHECK(relexing.front_offset == 0 && relexing.back_offset == 1 && relexing.at == 301);
        CHECK(relexing.stage == RUSTC_LEXER_STAGE_DONE);
    }
}

static void check_editions(relex_call *relex) {
    struct held held;
    for (uint32_t year = 2000; year < 2100; year++) {
        memset(&held, 0, sizeof held);
        uint32_t status = edit_held(relex, &held, 0, 0, "'r#a##", year, BUFFER_LEN);
        if (year > 2024 && status == RUSTC_LEXER_INVALID_EDITION)
            continue;
        if (year != 2015 && year != 2018 && year != 2021 && year < 2024) {
            CHECK(status == RUSTC_LEXER_INVALID_EDITION && held.relexing.stage == RUSTC_LEXER_STAGE_BEGIN);
            continue;
        }
        CHECK(status == RUSTC_LEXER_OK);
        CHECK(held.count == (year < 2021 ? 5 : year < 2024 ? 3 : 2));
    }
    memset(&held, 0, sizeof held);
    CHECK(edit_held(relex, &held, 0, 0, "a", 2022, BUFFER_LEN) == RUSTC_LEXER_INVALID_EDITION);
    CHECK(held.relexing.stage == RUSTC_LEXER_STAGE_BEGIN && held.relexing.at == 0);
}

/* Edits that cannot have resulted in a text of five bytes whose second and third byte are one character. */
static const struct rustc_lexer_edit bad[] = {{3, 2, 3}, {3, 3, 1}, {2, 3, 3}, {1, 1, 2}, {0, 0, 6}, {9, 9, 9}};

/* Tests impossible edits, numbers that no call wrote, and old tokens that no text has. */
static void check_invalid_edits(relex_call *relex) {
    static const uint8_t text[] = "a\xc3\xa9 b";
    static const uint32_t lens[] = {0, 1, 2, 3, 5, 0x7fffffff, UINT32_MAX};
    struct rustc_lexer_token old[5];
    size_t count = 99;
    memset(old, 0, sizeof old);
    for (size_t i = 0; i < sizeof bad / sizeof bad[0]; i++) {
        struct rustc_lexer_relexing relexing = {0};
        memset(buffer, 0xAA, sizeof buffer);
        CHECK(relex(text, 5, old, 5, &bad[i], 2024, &relexing, buffer, BUFFER_LEN, &count) == RUSTC_LEXER_INVALID_EDIT);
        CHECK(count == 0 && relexing.stage == RUSTC_LEXER_STAGE_BEGIN && is_untouched(0));
    }
    struct rustc_lexer_edit good = {3, 3, 4};
    struct rustc_lexer_relexing none[] = {{0, 0, 0, 6, 0, 0, 1}, {0, 0, 0, 0, 0, 2, 1}, {0, 0, 0, 0, 0, 6, 1},
                                          {0, 0, 4, 0, 0, 3, 1}, {3, 0, 0, 3, 0, 0, 1}, {0, 0, 0, 0, SIZE_MAX, 0, 1}};
    for (size_t i = 0; i < sizeof none / sizeof none[0]; i++)
        CHECK(relex(text, 5, old, 5, &good, 2024, &none[i], buffer, BUFFER_LEN, &count) == RUSTC_LEXER_INVALID_EDIT &&
              count == 0);
    /* a stage greater than _DONE counts as _MORE */
    static const size_t stages[] = {1, 3, 4, SIZE_MAX};
    for (size_t i = 0; i < sizeof stages / sizeof stages[0]; i++) {
        struct rustc_lexer_relexing begun = {0, 0, 0, 0, 0, 0, stages[i]};
        CHECK(relex(text, 5, NULL, 0, &good, 2024, &begun, buffer, BUFFER_LEN, &count) == RUSTC_LEXER_OK);
        CHECK(count == 3 && begun.lexed == 3 && begun.at == 5 && begun.stage == RUSTC_LEXER_STAGE_DONE);
    }
    for (size_t i = 0; i < 7 * 7 * 7 * 7; i++) {
        size_t digits = i;
        for (size_t k = 0; k < 4; k++, digits /= 7)
            old[k].len = lens[digits % 7];
        for (size_t near = 0; near < 8; near++) {
            struct rustc_lexer_relexing relexing = {near, near * near * near * 1000003, 0, 0, 0, 0, 0};
            size_t calls = 0;
            do {
                CHECK(relex(text, 5, old, 5, &good, 2024, &relexing, buffer, 1, &count) == RUSTC_LEXER_OK);
                CHECK(relexing.kept_front + relexing.kept_back <= 5 && count <= 1 && ++calls <= 5);
            } while (relexing.stage == RUSTC_LEXER_STAGE_MORE);
            CHECK(relexing.stage == RUSTC_LEXER_STAGE_DONE);
        }
    }
}

/* Splices tokens of 11, 12, .. bytes into lists of tokens of 1, 2, .. bytes, in a buffer for eight tokens: more than
 * are removed, equally many and fewer, until the buffer is full. A call that fails changes nothing. */
static void check_splices(void) {
    static const struct {
        size_t count, front, back, lexed;
        uint32_t lens[BUFFER_LEN];
    } rows[] = {
        {5, 2, 2, 1, {1, 2, 11, 4, 5}},
        {5, 2, 2, 3, {1, 2, 11, 12, 13, 4, 5}},
        {5, 2, 2, 4, {1, 2, 11, 12, 13, 14, 4, 5}},
        {5, 2, 2, 0, {1, 2, 4, 5}},
        {5, 1, 1, 1, {1, 11, 5}},
        {5, 2, 3, 0, {1, 2, 3, 4, 5}},
        {5, 0, 0, 2, {11, 12}},
        {5, 5, 0, 3, {1, 2, 3, 4, 5, 11, 12, 13}},
        {5, 0, 5, 3, {11, 12, 13, 1, 2, 3, 4, 5}},
        {8, 3, 4, 1, {1, 2, 3, 11, 5, 6, 7, 8}},
        {0, 0, 0, 8, {11, 12, 13, 14, 15, 16, 17, 18}},
    };
    static const struct {
        size_t count, front, back, lexed;
        uint32_t status;
    } invalid[] = {
        {5, 2, 2, 5, RUSTC_LEXER_SMALL_BUFFER},        {0, 0, 0, 9, RUSTC_LEXER_SMALL_BUFFER},
        {5, 3, 3, 0, RUSTC_LEXER_INVALID_EDIT},        {5, 6, 0, 0, RUSTC_LEXER_INVALID_EDIT},
        {5, 0, 6, 9, RUSTC_LEXER_INVALID_EDIT},        {5, SIZE_MAX, 2, 0, RUSTC_LEXER_INVALID_EDIT},
        {5, 1, SIZE_MAX, 0, RUSTC_LEXER_INVALID_EDIT}, {9, 0, 0, 0, RUSTC_LEXER_INVALID_EDIT},
        {SIZE_MAX, 0, SIZE_MAX, 0, RUSTC_LEXER_INVALID_EDIT},
    };
    struct rustc_lexer_token old[BUFFER_LEN], lexed[BUFFER_LEN + 1];
    size_t count = 0;
    for (uint32_t i = 0; i <= BUFFER_LEN; i++) {
        if (i < BUFFER_LEN)
            old[i] = (struct rustc_lexer_token){.kind = RUSTC_LEXER_IDENT, .len = i + 1};
        lexed[i] = (struct rustc_lexer_token){.kind = RUSTC_LEXER_WHITESPACE, .len = i + 11};
    }
    for (size_t i = 0; i < sizeof rows / sizeof rows[0]; i++) {
        memcpy(buffer, old, sizeof old);
        count = rows[i].count;
        CHECK(rustc_lexer_splice(buffer, BUFFER_LEN, &count, rows[i].front, rows[i].back, lexed, rows[i].lexed) ==
              RUSTC_LEXER_OK);
        CHECK(count == rows[i].front + rows[i].lexed + rows[i].back);
        for (size_t k = 0; k < count; k++)
            CHECK(is_token(k, rows[i].lens[k] > 10 ? RUSTC_LEXER_WHITESPACE : RUSTC_LEXER_IDENT, rows[i].lens[k]));
    }
    for (size_t i = 0; i < sizeof invalid / sizeof invalid[0]; i++) {
        memcpy(buffer, old, sizeof old);
        count = invalid[i].count;
        CHECK(rustc_lexer_splice(buffer, BUFFER_LEN, &count, invalid[i].front, invalid[i].back, lexed,
                                 invalid[i].lexed) == invalid[i].status);
        CHECK(count == invalid[i].count && memcmp(buffer, old, sizeof old) == 0);
    }
    count = 0;
    CHECK(rustc_lexer_splice(NULL, 0, &count, 0, 0, NULL, 0) == RUSTC_LEXER_OK && count == 0);
}

/* Returns a pseudorandom number below a limit. */
static size_t below(uint64_t *random, size_t bound) {
    *random = *random * 6364136223846793005u + 1442695040888963407u;
    return (size_t)(*random >> 33) % bound;
}

/* Returns the next character boundary at or after an offset. */
static size_t place_from(uint64_t *random, const struct held *held, size_t start, size_t most) {
    size_t left = held->len - start;
    size_t place = start + below(random, (left < most ? left : most) + 1);
    while (place < held->len && (held->text[place] & 0xC0) == 0x80)
        place++;
    return place;
}

/* Writes 0 and the ends of the tokens. */
static void fill_bounds(const struct held *held, size_t bounds[MOST + 1]) {
    bounds[0] = 0;
    for (size_t i = 0; i < held->count; i++)
        bounds[i + 1] = bounds[i] + held->tokens[i].len;
}

/* Returns the number of characters that start between two offsets. */
static size_t characters(const char *text, size_t start, size_t stop) {
    size_t count = 0;
    for (size_t i = start; i < stop; i++)
        count += (text[i] & 0xC0) != 0x80;
    return count;
}

/* Returns whether an edit has the counts that docs/RELEXING.md defines. Old tokens that end at least two characters
 * before the edit are kept, and lexing ends at the first old token boundary after the edit at which a new token ends.
 * */
static bool has_counts(const struct held *old, const struct held *held, size_t start, size_t stop, size_t inserted) {
    size_t before[MOST + 1], now[MOST + 1], front = 0;
    fill_bounds(old, before);
    fill_bounds(held, now);
    while (front < old->count && before[front + 1] <= start && characters(old->text, before[front + 1], start) >= 2)
        front++;
    for (size_t met = front; met <= held->count; met++)
        for (size_t index = 0; now[met] >= start + inserted && index <= old->count; index++)
            if (before[index] + inserted == now[met] + stop - start)
                return held->relexing.kept_front == front && held->relexing.lexed == met - front &&
                       held->relexing.kept_back == old->count - index;
    return false;
}

/* Applies 10,000 edits to a text, and compares each result with a full re-lex. */
static void check_random_edits(relex_call *relex, uint32_t edition) {
    static const char *const bits[] = {
        "a",    "r",  "br", "c",  "1",   "0x", "e",  ".",      "_",   " ",   "\n",       "\xc3\xa9",
        "\"",   "'",  "#",  "##", "r#",  "\\", "/",  "//",     "/*",  "*/",  "k#",       "\xf0\x9f\x98\x80",
        "!",    "'r#", "b'", "->", "x = 1;", "///", "\"#", "\xe2\x80\xa8",
    };
    static struct held held, old, full;
    uint64_t random = edition;
    memset(&held, 0, sizeof held);
    for (size_t edits = 0; edits < 10000; edits++) {
        char insert[16] = "";
        for (size_t i = below(&random, 4); i > 0 && strlen(insert) < 10; i--)
            strcat(insert, bits[below(&random, sizeof bits / sizeof bits[0])]);
        size_t start = place_from(&random, &held, 0, held.len);
        size_t stop = place_from(&random, &held, start, held.len > MOST - 40 ? MOST : 4);
        if (held.len - (stop - start) + strlen(insert) > MOST)
            continue;
        old = held;
        CHECK(edit_held(relex, &held, start, stop, insert, edition, 1 + below(&random, BUFFER_LEN)) == RUSTC_LEXER_OK);
        memcpy(full.text, held.text, held.len);
        full.len = held.len;
        CHECK(lex_whole(relex, &full, edition) == RUSTC_LEXER_OK);
        CHECK(full.count == held.count && memcmp(full.tokens, held.tokens, held.count * sizeof buffer[0]) == 0);
        CHECK(has_counts(&old, &held, start, stop, strlen(insert)));
    }
}

typedef uint32_t body_edit_call(const uint8_t *, size_t, const struct rustc_lexer_edit *, struct rustc_lexer_head *,
                                struct rustc_lexer_edit *, uint32_t *);

/* A document with its head, and the tokens of its body. */
struct document {
    char text[MOST];
    size_t len;
    struct rustc_lexer_head head;
    uint32_t head_kept;
    struct held body;
};

/* Returns whether the tokens of head and body equal a full re-lex of the document. */
static bool is_document(const struct document *document) {
    static const struct rustc_lexer_token none[2];
    const struct rustc_lexer_head *head = &document->head;
    const uint8_t *text = (const uint8_t *)document->text;
    struct rustc_lexer_token all[MOST];
    struct rustc_lexer_place place = {0, 1};
    size_t mark = document->len >= 3 && memcmp(text, "\xef\xbb\xbf", 3) == 0 ? 3 : 0;
    size_t line_len, count, end = head->tokens_start;
    if (rustc_lexer_strip_shebang(text + mark, document->len - mark, &line_len) != RUSTC_LEXER_OK)
        return false;
    place.at = (uint32_t)(mark + line_len);
    if (rustc_lexer_tokens(text, document->len, &place, all, MOST, &count) != RUSTC_LEXER_OK || head->count > 2)
        return false;
    for (size_t i = 0; i < head->count; i++)
        end += head->tokens[i].len;
    size_t place_start = mark + line_len, token = sizeof all[0], of_body = document->body.count;
    return head->tokens_start == place_start && head->body == end && count == head->count + of_body &&
           memcmp(all, head->tokens, head->count * token) == 0 &&
           memcmp(head->tokens + head->count, none, (2 - head->count) * token) == 0 &&
           memcmp(all + head->count, document->body.tokens, of_body * token) == 0;
}

/* Replaces the bytes from `start` up to `stop` with `insert`, and applies the change of the body. */
static void edit_document(body_edit_call *body_edit, struct document *document, size_t start, size_t stop,
                          const char *insert) {
    struct rustc_lexer_edit edit = {(uint32_t)start, (uint32_t)stop, (uint32_t)(start + strlen(insert))}, made;
    struct rustc_lexer_head old = document->head;
    struct held *body = &document->body;
    char put[MOST + 1] = "";
    memmove(document->text + edit.new_end, document->text + stop, document->len - stop);
    memcpy(document->text + start, insert, strlen(insert));
    document->len += edit.new_end - stop;
    CHECK(body_edit((const uint8_t *)document->text, document->len, &edit, &document->head, &made,
                    &document->head_kept) == RUSTC_LEXER_OK);
    bool stays = memcmp(&old, &document->head, sizeof old) == 0 && old.body <= start;
    CHECK(document->head_kept == stays && (stays || made.start == 0));
    const char *present = document->text + document->head.body;
    memcpy(put, present + made.start, made.new_end - made.start);
    CHECK(edit_held(rustc_lexer_relex, body, made.start, made.old_end, put, 2024, BUFFER_LEN) == RUSTC_LEXER_OK);
    CHECK(body->len == document->len - document->head.body && memcmp(body->text, present, body->len) == 0);
    CHECK(is_document(document));
}

/* Tests a head that is kept, a head that changes by an edit after it, and a shebang line that turns into an attribute
 * because of a `[` after it. */
static void check_heads(body_edit_call *body_edit) {
    static struct document document;
    memset(&document, 0, sizeof document);
    edit_document(body_edit, &document, 0, 0, "#!/bin/sh\n---\na\n---\nb - c");
    CHECK(document.head.tokens_start == 9 && document.head.count == 2 && document.head.body == 19);
    CHECK(document.head.tokens[0].kind == RUSTC_LEXER_WHITESPACE && document.head.tokens[0].len == 1);
    CHECK(document.head.tokens[1].kind == RUSTC_LEXER_FRONTMATTER && document.head_kept == 0);
    edit_document(body_edit, &document, 22, 23, "+");
    CHECK(document.head_kept == 1 && document.body.relexing.kept_front == 1 && document.body.relexing.lexed == 3);
    edit_document(body_edit, &document, 18, 18, "b");
    edit_document(body_edit, &document, 26, 26, "\n---\n");
    CHECK(document.head.count == 2 && document.head.body > 19 && document.head_kept == 0);
    edit_document(body_edit, &document, 0, document.len, "#!\na = b");
    edit_document(body_edit, &document, 3, 3, "[");
    CHECK(document.head.tokens_start == 0 && document.head.body == 0 && document.head_kept == 0);
    /* a byte order mark, with and without a shebang line and a frontmatter after it */
    edit_document(body_edit, &document, 0, document.len, "\xef\xbb\xbf#!/bin/sh\n---\n---\nb - c");
    CHECK(document.head.tokens_start == 12 && document.head.count == 2 && document.head.body == 20);
    edit_document(body_edit, &document, 23, 24, "+");
    CHECK(document.head_kept == 1 && document.body.relexing.lexed == 3);
    edit_document(body_edit, &document, 0, 3, "");
    CHECK(document.head.tokens_start == 9 && document.head.body == 17 && document.head_kept == 0);
    edit_document(body_edit, &document, 0, document.len, "\xef\xbb\xbf" "a");
    CHECK(document.head.tokens_start == 3 && document.head.count == 0 && document.head.body == 3);
    edit_document(body_edit, &document, 0, document.len, "");
}

static void check_invalid_heads(body_edit_call *body_edit) {
    const uint8_t *text = (const uint8_t *)"a\xc3\xa9+b";
    uint64_t random = 1;
    for (size_t i = 0; i < sizeof bad / sizeof bad[0]; i++) {
        struct rustc_lexer_head head = {7, 8, 1, {{.kind = 9}}}, before = head;
        struct rustc_lexer_edit made = {10, 11, 12};
        uint32_t head_kept = 13;
        CHECK(body_edit(text, 5, &bad[i], &head, &made, &head_kept) == RUSTC_LEXER_INVALID_EDIT && head_kept == 13);
        CHECK(memcmp(&head, &before, sizeof head) == 0);
        CHECK(made.start == 10 && made.old_end == 11 && made.new_end == 12);
    }
    /* any head is accepted, and rustc_lexer_relex accepts the resulting edit of the body */
    for (size_t i = 0; i < 10000; i++) {
        struct rustc_lexer_head head;
        struct rustc_lexer_edit edit = {(uint32_t)below(&random, 2), (uint32_t)below(&random, 9), 4}, made;
        struct rustc_lexer_relexing relexing = {0};
        uint32_t numbers[sizeof head / 4], head_kept;
        size_t count;
        for (size_t j = 0; j < sizeof head / 4; j++)
            numbers[j] = (uint32_t)below(&random, 4) * (uint32_t)(below(&random, 2) ? 1 : 0x55555555);
        memcpy(&head, numbers, sizeof head);
        uint32_t status = body_edit(text, 5, &edit, &head, &made, &head_kept);
        CHECK(status == RUSTC_LEXER_OK || status == RUSTC_LEXER_INVALID_EDIT);
        if (status == RUSTC_LEXER_OK)
            CHECK(rustc_lexer_relex(text + head.body, 5 - head.body, NULL, 0, &made, 2024, &relexing, buffer,
                                    BUFFER_LEN, &count) == RUSTC_LEXER_OK);
    }
}

/* Applies 10,000 edits to a document, and compares each result with a full re-lex. */
static void check_random_documents(body_edit_call *body_edit) {
    static const char *const bits[] = {
        "#!", "[", "/", "-", "--", "---", "\n---\n", "\n", " ", "cargo", "use ", "//!", "#![", "\"", "\xc3\xa9", "/*",
    };
    static struct document document;
    uint64_t random = 7;
    memset(&document, 0, sizeof document);
    for (size_t edits = 0; edits < 10000; edits++) {
        char insert[24] = "";
        for (size_t i = below(&random, 4); i > 0; i--)
            strcat(insert, bits[below(&random, sizeof bits / sizeof bits[0])]);
        struct held at = {.len = document.len};
        memcpy(at.text, document.text, document.len);
        size_t start = place_from(&random, &at, 0, below(&random, 2) ? 12 : MOST);
        size_t stop = place_from(&random, &at, start, document.len > MOST - 40 ? MOST : 4);
        if (document.len - (stop - start) + strlen(insert) <= MOST)
            edit_document(body_edit, &document, start, stop, insert);
    }
}

int main(void) {
    relex_call *const relexes[] = {rustc_lexer_relex, rustc_lexer_relex_unchecked};
    body_edit_call *const body_edits[] = {rustc_lexer_body_edit, rustc_lexer_body_edit_unchecked};
    check_splices();
    for (int i = 0; i < 2; i++) {
        check_edits(relexes[i]);
        check_long_edit(relexes[i]);
        check_editions(relexes[i]);
        check_invalid_edits(relexes[i]);
        check_heads(body_edits[i]);
        check_invalid_heads(body_edits[i]);
        check_random_documents(body_edits[i]);
    }
    for (uint32_t edition = 2015; edition <= 2024; edition += 3)
        check_random_edits(relexes[edition % 2], edition);
    return 0;
}
