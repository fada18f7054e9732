/* Calls the library with texts and buffers directly before or after a page that must not be accessed, and in heap
 * blocks of exactly their size. Texts end anywhere, even inside a character; buffers are small, and edits and
 * literals are random. Prints the first failed check and exits with 1.
 *
 *     odd_places ROUNDS FILE..
 *
 * Each round uses random fragments of the files. */
#define _DEFAULT_SOURCE
#include <sys/mman.h>
#include <unistd.h>

#include "checks.h"

/* The maximum length of a text, and so of its tokens. */
#define MOST 400

enum placement { BEFORE_A_PAGE, AFTER_A_PAGE, HEAP, PLACEMENTS };

/* The number of compared edits. */
static unsigned long edits;

/* Bytes in memory, and the mapping that contains them. */
struct block {
    void *bytes;
    void *whole;
    size_t whole_len; /* 0 for the heap */
};

static struct block block_of(size_t len, enum placement placement) {
    struct block block = {NULL, NULL, 0};
    if (placement == HEAP) {
        block.bytes = block.whole = malloc(len);
        CHECK(block.bytes != NULL);
        return block;
    }
    size_t page = (size_t)sysconf(_SC_PAGESIZE), middle = (len / page + 1) * page;
    block.whole_len = middle + 2 * page;
    block.whole = mmap(NULL, block.whole_len, PROT_NONE, MAP_PRIVATE | MAP_ANONYMOUS, -1, 0);
    CHECK(block.whole != MAP_FAILED);
    unsigned char *start = (unsigned char *)block.whole + page;
    CHECK(mprotect(start, middle, PROT_READ | PROT_WRITE) == 0);
    block.bytes = placement == BEFORE_A_PAGE ? start + middle - len : start;
    return block;
}

static struct block copy_of(const void *bytes, size_t len, enum placement placement) {
    struct block block = block_of(len, placement);
    if (len > 0)
        memcpy(block.bytes, bytes, len);
    return block;
}

static void release(struct block block) {
    if (block.whole_len == 0)
        free(block.whole);
    else
        CHECK(munmap(block.whole, block.whole_len) == 0);
}

/* Returns the next number of a linear congruential generator, below a limit that is not 0. */
static size_t below(size_t limit) {
    static uint64_t state = 1;
    state = state * 6364136223846793005u + 1442695040888963407u;
    return (size_t)(state >> 33) % limit;
}

struct list {
    struct rustc_lexer_token tokens[MOST];
    size_t count;
};

static bool is_same(const struct list *one, const struct list *other) {
    for (size_t i = 0; i < one->count && i < other->count; i++)
        if (one->tokens[i].len != other->tokens[i].len || one->tokens[i].kind != other->tokens[i].kind ||
            one->tokens[i].suffix_start != other->tokens[i].suffix_start)
            return false;
    return one->count == other->count;
}

/* Appends the buffer to the list. */
static void take(struct list *list, const struct rustc_lexer_token *buffer, size_t count) {
    CHECK(list->count + count <= MOST);
    if (count > 0)
        memcpy(list->tokens + list->count, buffer, count * sizeof buffer[0]);
    list->count += count;
}

/* Lexes a text with small buffers. */
static void lex(batch_call *tokens, const uint8_t *text, size_t len, uint32_t allowed, size_t buffer_len,
                enum placement placement, struct list *list) {
    struct rustc_lexer_place at = {0, allowed};
    struct block buffer = block_of(buffer_len * sizeof(struct rustc_lexer_token), placement);
    struct block place = copy_of(&at, sizeof at, placement);
    struct block count = block_of(sizeof(size_t), placement);
    size_t written;
    list->count = 0;
    do {
        CHECK(tokens(text, len, place.bytes, buffer.bytes, buffer_len, count.bytes) == RUSTC_LEXER_OK);
        memcpy(&written, count.bytes, sizeof written);
        CHECK(written <= buffer_len);
        take(list, buffer.bytes, written);
    } while (written == buffer_len && written > 0);
    memcpy(&at, place.bytes, sizeof at);
    CHECK(buffer_len == 0 ? at.at == 0 : at.at == len);
    release(buffer);
    release(place);
    release(count);
}

/* Checks the token at an offset: it starts at or before the byte, and ends after it. */
static void find_token(const struct rustc_lexer_token *tokens, size_t count, size_t len, enum placement placement) {
    size_t none = 0, found, from, offset = below(len + 2);
    struct block index = copy_of(&none, sizeof none, placement), start = copy_of(&none, sizeof none, placement);
    CHECK(rustc_lexer_token_start_at(tokens, count, offset, index.bytes, start.bytes) == (offset < len));
    memcpy(&found, index.bytes, sizeof found);
    memcpy(&from, start.bytes, sizeof from);
    CHECK(offset < len ? found < count && from <= offset && offset - from < tokens[found].len : found == 0);
    release(index);
    release(start);
}

/* Updates the tokens of a text after an edit, with small buffers. */
static void relex(const uint8_t *text, size_t len, struct rustc_lexer_edit made, size_t buffer_len,
                  enum placement placement, struct list *list) {
    struct list lexed = {.count = 0}, before = *list;
    struct rustc_lexer_relexing from = {.stage = 0};
    struct block old = copy_of(before.tokens, before.count * sizeof before.tokens[0], placement);
    struct block buffer = block_of(buffer_len * sizeof(struct rustc_lexer_token), placement);
    struct block edit = copy_of(&made, sizeof made, placement), count = block_of(sizeof(size_t), placement);
    struct block relexing = copy_of(&from, sizeof from, placement);
    size_t written;
    do {
        CHECK(rustc_lexer_relex(text, len, old.bytes, before.count, edit.bytes, 2024, relexing.bytes, buffer.bytes,
                                buffer_len, count.bytes) == RUSTC_LEXER_OK);
        memcpy(&written, count.bytes, sizeof written);
        memcpy(&from, relexing.bytes, sizeof from);
        take(&lexed, buffer.bytes, written);
    } while (from.stage == 1);
    CHECK(from.kept_front + from.kept_back <= before.count);
    size_t now = from.kept_front + lexed.count + from.kept_back, room = now > before.count ? now : before.count;
    struct block all = block_of(room * sizeof before.tokens[0], placement);
    struct block put = copy_of(lexed.tokens, lexed.count * sizeof lexed.tokens[0], placement);
    if (before.count > 0)
        memcpy(all.bytes, before.tokens, before.count * sizeof before.tokens[0]);
    memcpy(count.bytes, &before.count, sizeof before.count);
    CHECK(rustc_lexer_splice(all.bytes, room, count.bytes, from.kept_front, from.kept_back, put.bytes, lexed.count) ==
          RUSTC_LEXER_OK);
    memcpy(&written, count.bytes, sizeof written);
    CHECK(written == now);
    list->count = 0;
    take(list, all.bytes, now);
    find_token(all.bytes, now, len, placement);
    release(all);
    release(put);
    release(old);
    release(buffer);
    release(edit);
    release(count);
    release(relexing);
}

/* Checks the head of a text for the edit that inserts it: only the outputs are written. */
static void find_head(const uint8_t *text, size_t len, uint32_t status, enum placement placement) {
    struct rustc_lexer_edit all = {0, 0, (uint32_t)len}, made;
    struct rustc_lexer_head none = {0}, found;
    struct block edit = copy_of(&all, sizeof all, placement), head = copy_of(&none, sizeof none, placement);
    struct block body_edit = block_of(sizeof made, placement), kept = block_of(sizeof(uint32_t), placement);
    CHECK(rustc_lexer_body_edit(text, len, edit.bytes, head.bytes, body_edit.bytes, kept.bytes) == status);
    if (status == RUSTC_LEXER_OK) {
        memcpy(&found, head.bytes, sizeof found);
        memcpy(&made, body_edit.bytes, sizeof made);
        CHECK(found.body <= len && made.start == 0 && made.old_end == 0 && made.new_end == len - found.body);
    }
    release(edit);
    release(head);
    release(body_edit);
    release(kept);
}

/* Calls the functions that accept any bytes: they return, and write only their outputs. */
static uint32_t call_all(const uint8_t *text, size_t len, enum placement placement) {
    uint32_t status = rustc_lexer_check(text, len);
    struct block end = block_of(sizeof(size_t), placement), is = block_of(sizeof(uint32_t), placement);
    struct block error = block_of(sizeof(struct rustc_lexer_raw_str_error), placement);
    struct block string = block_of(sizeof(struct rustc_lexer_guarded_str), placement);
    size_t answer;
    CHECK(rustc_lexer_strip_shebang(text, len, end.bytes) == status);
    memcpy(&answer, end.bytes, sizeof answer);
    CHECK(answer <= len);
    CHECK(rustc_lexer_settled(text, len, end.bytes) == status);
    memcpy(&answer, end.bytes, sizeof answer);
    CHECK(answer <= len);
    find_head(text, len, status, placement);
    CHECK(rustc_lexer_is_ident(text, len, is.bytes) == status);
    CHECK(rustc_lexer_is_token_boundary(text, len, len, 2024, is.bytes) == status);
    CHECK(rustc_lexer_guarded_str(text, len, string.bytes) == status);
    for (uint32_t prefix_len = 0; prefix_len < 4; prefix_len++) {
        uint32_t raw = rustc_lexer_validate_raw_str(text, len, prefix_len, error.bytes);
        CHECK(raw == status || (status == RUSTC_LEXER_OK && raw == RUSTC_LEXER_NOT_RAW));
    }
    release(end);
    release(is);
    release(error);
    release(string);
    return status;
}

/* Writes the value and the errors of a literal of each kind. Small buffers get the same units as a large one. */
static void check_literal(const uint8_t *text, size_t len, enum placement placement) {
    static struct rustc_lexer_unit whole[MOST];
    struct block count = block_of(sizeof(size_t), placement);
    for (uint32_t mode = RUSTC_LEXER_CHAR; mode <= RUSTC_LEXER_RAW_C_STR; mode++)
        for (int wrong = 0; wrong < 2; wrong++) {
            size_t most, passed = 0, buffer_len = 1 + below(9), written;
            CHECK((wrong ? rustc_lexer_literal_errors : rustc_lexer_unescape)(text, len, mode, 0, whole, MOST, &most) ==
                  RUSTC_LEXER_OK);
            CHECK(most <= len || most == 1);
            struct block buffer = block_of(buffer_len * sizeof whole[0], placement);
            do {
                CHECK((wrong ? rustc_lexer_literal_errors_unchecked : rustc_lexer_unescape_unchecked)(
                          text, len, mode, passed, buffer.bytes, buffer_len, count.bytes) == RUSTC_LEXER_OK);
                memcpy(&written, count.bytes, sizeof written);
                CHECK(written <= buffer_len && passed + written <= most);
                CHECK(written == 0 || memcmp(buffer.bytes, whole + passed, written * sizeof whole[0]) == 0);
                passed += written;
            } while (written == buffer_len);
            CHECK(passed == most);
            release(buffer);
        }
    release(count);
}

/* Checks a literal that is joined from random fragments. */
static void check_parts(void) {
    static const char *const parts[] = {
        "\\n", "\\0", "\\'", "\\q", "\\", "\\x41", "\\xff", "\\xg", "\\x4", "\\u{1F600}", "\\u{41}", "\\u{0}",
        "\\u{D800}", "\\u{110000}", "\\u{1234567}", "\\u{_1}", "\\u{}", "\\u{4", "\\u", "\\\n  ", "\\\n\n x",
        "\\\n\xc2\xa0", "a", "\"", "'", "\r", "\n", "\xc3\xa9", "\xf0\x9f\x98\x80",
        "thirty-two bytes of plain text, and more",
    };
    uint8_t bytes[MOST];
    size_t len = 0;
    for (size_t rest = below(7); rest > 0; rest--) {
        const char *part = parts[below(sizeof parts / sizeof parts[0])];
        memcpy(bytes + len, part, strlen(part));
        len += strlen(part);
    }
    for (int placement = 0; placement < PLACEMENTS; placement++) {
        struct block text = copy_of(bytes, len, placement);
        check_literal(text.bytes, len, placement);
        release(text);
    }
}

/* Checks the class, the error and the message of the first token of a text, and of a token with random fields. */
static void check_classes(const uint8_t *text, size_t len, enum placement placement) {
    struct block token = block_of(sizeof(struct rustc_lexer_token), placement);
    struct block number = block_of(sizeof(uint32_t), placement);
    struct rustc_lexer_token first = rustc_lexer_first_token_unchecked(text, len, 0);
    uint8_t *numbers = token.bytes;
    struct block message = block_of(256, placement);
    for (int i = 0; i < 2; i++) {
        uint32_t error;
        size_t written;
        memcpy(token.bytes, &first, sizeof first);
        CHECK(rustc_lexer_class(text, first.len, token.bytes, 2024, number.bytes) == RUSTC_LEXER_OK);
        CHECK(rustc_lexer_token_error(text, first.len, token.bytes, 2024, number.bytes) == RUSTC_LEXER_OK);
        memcpy(&error, number.bytes, sizeof error);
        CHECK(rustc_lexer_token_error_message(text, first.len, token.bytes, 2024, message.bytes, 256, &written) ==
              RUSTC_LEXER_OK);
        CHECK((written > 0) == (error > 0));
        for (size_t j = 0; j < 4; j++)
            numbers[j] = (uint8_t)below(j == 0 ? 45 : 12);
        memcpy(&first, numbers, 4);
    }
    release(message);
    release(number);
    release(token);
}

/* Highlights a text into a buffer that can be too small. */
static void check_marks(const uint8_t *text, size_t len, enum placement placement) {
    struct block count = block_of(sizeof(size_t), placement);
    for (uint32_t format = RUSTC_LEXER_FORMAT_HTML; format <= RUSTC_LEXER_FORMAT_NO_COLOURS; format++) {
        size_t buffer_len = below(20 * MOST), written;
        struct block buffer = block_of(buffer_len, placement);
        uint32_t status = rustc_lexer_write_highlighted(text, len, format, 2021, below(MOST), buffer.bytes, buffer_len,
                                            count.bytes);
        memcpy(&written, count.bytes, sizeof written);
        CHECK(status == RUSTC_LEXER_OK ? written <= buffer_len : status == RUSTC_LEXER_SMALL_BUFFER && written == 0);
        release(buffer);
    }
    release(count);
}

/* Maps 2 to the power of 32 bytes and one more, without touching them. The text is too long, and its length is not
 * truncated. */
static void check_too_long(void) {
#if SIZE_MAX > UINT32_MAX
    size_t len = (size_t)UINT32_MAX + 2;
    uint8_t *text = mmap(NULL, len, PROT_READ | PROT_WRITE, MAP_PRIVATE | MAP_ANONYMOUS | MAP_NORESERVE, -1, 0);
    struct rustc_lexer_token first, none = {0};
    struct rustc_lexer_place place = {0, 0};
    size_t count = 99;
    CHECK(text != MAP_FAILED);
    text[0] = 'a';
    CHECK(rustc_lexer_check(text, len) == RUSTC_LEXER_TOO_LONG);
    CHECK(rustc_lexer_tokens(text, len, &place, &first, 1, &count) == RUSTC_LEXER_TOO_LONG && count == 0);
    CHECK(rustc_lexer_tokens_unchecked(text, len, &place, &first, 1, &count) == RUSTC_LEXER_TOO_LONG && count == 0);
    first = rustc_lexer_first_token_unchecked(text, len, 0);
    CHECK(memcmp(&first, &none, sizeof none) == 0);
    CHECK(!rustc_lexer_is_ident_unchecked(text, len) && !rustc_lexer_starts_raw_unchecked(text, len, 1));
    CHECK(rustc_lexer_settled_unchecked(text, len, &count) == RUSTC_LEXER_TOO_LONG && count == 0);
    CHECK(munmap(text, len) == 0);
#endif
}

/* Calls all functions with a text. */
static void check_text(const uint8_t *bytes, size_t len) {
    static const size_t buffers[] = {1, 2, 3, 5, 8, 31, MOST};
    batch_call *const calls[] = {rustc_lexer_tokens, rustc_lexer_tokens_unchecked, tokens_in_newest,
                                 tokens_in_newest_unchecked};
    static struct list whole, batches;
    for (int placement = 0; placement < PLACEMENTS; placement++) {
        struct block text = copy_of(bytes, len, placement);
        if (call_all(text.bytes, len, placement) == RUSTC_LEXER_OK) {
            for (uint32_t allowed = 0; allowed < 2; allowed++) {
                lex(calls[0], text.bytes, len, allowed, MOST, placement, &whole);
                lex(calls[1], text.bytes, len, allowed, 0, placement, &batches);
                for (size_t i = 0; i < sizeof buffers / sizeof buffers[0]; i++) {
                    lex(calls[i % 4], text.bytes, len, allowed, buffers[i], placement, &batches);
                    CHECK(is_same(&whole, &batches));
                }
            }
            check_literal(text.bytes, len, placement);
            check_classes(text.bytes, len, placement);
            check_marks(text.bytes, len, placement);
        }
        release(text);
    }
}

/* Returns the last character boundary at or before `at`. */
static size_t boundary(const uint8_t *bytes, size_t len, size_t at) {
    while (at < len && at > 0 && (bytes[at] & 0xC0) == 0x80)
        at--;
    return at;
}

/* Applies a random edit. If the result is valid, the relexed tokens equal a full re-lex. */
static void check_edit(const uint8_t *bytes, size_t len, const uint8_t *insert, size_t insert_len) {
    static struct list list, whole;
    uint8_t after[2 * MOST];
    size_t start = boundary(bytes, len, below(len + 1));
    size_t stop = boundary(bytes, len, start + below(len - start + 1));
    struct rustc_lexer_edit edit = {(uint32_t)start, (uint32_t)stop, (uint32_t)(start + insert_len)};
    size_t after_len = len - (stop - start) + insert_len;
    memcpy(after, bytes, start);
    memcpy(after + start, insert, insert_len);
    memcpy(after + edit.new_end, bytes + stop, len - stop);
    if (rustc_lexer_check(bytes, len) != RUSTC_LEXER_OK || rustc_lexer_check(after, after_len) != RUSTC_LEXER_OK)
        return;
    for (int placement = 0; placement < PLACEMENTS; placement++) {
        struct block text = copy_of(after, after_len, placement);
        lex(rustc_lexer_tokens, bytes, len, 0, MOST, HEAP, &list);
        lex(rustc_lexer_tokens, text.bytes, after_len, 0, MOST, HEAP, &whole);
        relex(text.bytes, after_len, edit, 1 + below(9), placement, &list);
        CHECK(is_same(&whole, &list));
        release(text);
    }
    edits++;
}

int main(int count, char **words) {
    static uint8_t file[1 << 20];
    CHECK(count > 2);
    for (int word = 2; word < count; word++) {
        FILE *stream = fopen(words[word], "rb");
        CHECK(stream != NULL);
        size_t len = fread(file, 1, sizeof file, stream);
        CHECK(fclose(stream) == 0);
        for (long round = 0; round < atol(words[1]); round++) {
            size_t from = below(len + 1), part = below(MOST / 2);
            part = part < len - from ? part : len - from;
            check_text(file + from, part);
            size_t other = below(len + 1), insert = below(9);
            check_edit(file + from, part, file + other, insert < len - other ? insert : len - other);
            check_parts();
        }
    }
    check_text(file, 0);
    check_too_long();
    CHECK(edits > 0);
    printf("odd_places: all checks pass, with %lu edits\n", edits);
    return 0;
}
