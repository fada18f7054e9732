/* Updates the tokens of a document: applies an edit, and prints the new tokens. */
#include <stdio.h>
#include <string.h>

#include "rustc_lexer.h"

/* The maximum length of the text in bytes, and so the maximum number of tokens. */
#define MOST 1000

struct held {
    uint8_t text[MOST];
    size_t len;
    struct rustc_lexer_head head;           /* the shebang line and the frontmatter, with their tokens */
    struct rustc_lexer_token tokens[MOST];  /* the tokens of the body, which is the text after the head */
    size_t count;
    struct rustc_lexer_relexing relexing;
};

/* Replaces the bytes from `start` up to `stop` with `insert`, and updates the tokens. */
static uint32_t edit_held(struct held *held, uint32_t start, uint32_t stop, const char *insert) {
    struct rustc_lexer_edit edit = {start, stop, start + (uint32_t)strlen(insert)}, body_edit;
    if (held->len - stop + edit.new_end > MOST)
        return RUSTC_LEXER_TOO_LONG;
    memmove(held->text + edit.new_end, held->text + stop, held->len - stop);
    memcpy(held->text + start, insert, strlen(insert));
    held->len = held->len - stop + edit.new_end;

    /* find the change of the body */
    uint32_t head_kept, status;
    status = rustc_lexer_body_edit(held->text, held->len, &edit, &held->head, &body_edit, &head_kept);
    if (status != RUSTC_LEXER_OK)
        return status;

    /* the buffer has more entries than a text has tokens, so one call writes them all */
    struct rustc_lexer_token lexed[MOST + 1];
    size_t count;
    held->relexing.stage = RUSTC_LEXER_STAGE_BEGIN;
    status = rustc_lexer_relex(held->text + held->head.body, held->len - held->head.body, held->tokens, held->count,
                               &body_edit, 2024, &held->relexing, lexed, MOST + 1, &count);
    if (status != RUSTC_LEXER_OK)
        return status;
    return rustc_lexer_splice(held->tokens, MOST, &held->count, held->relexing.kept_front, held->relexing.kept_back,
                              lexed, count);
}

int main(void) {
    /* zeros are an empty text without tokens, so the first edit inserts the whole text */
    static struct held held;
    if (edit_held(&held, 0, 0, "#!/bin/sh\nlet ab = cd + ef;") != RUSTC_LEXER_OK ||
        edit_held(&held, 22, 23, "- 1 -") != RUSTC_LEXER_OK)
        return 1;
    size_t start = held.head.body + held.relexing.front_offset;
    size_t front = held.relexing.kept_front;
    for (size_t i = front; i < front + held.relexing.lexed; i++) {
        printf("%zu %u %s\n", start, held.tokens[i].len, rustc_lexer_kind_name(held.tokens[i].kind));
        start += held.tokens[i].len;
    }
    printf("%zu kept\n", front + held.relexing.kept_back);
    return 0;
}
