/* Prints the tokens of a text from standard input like lexdump: a line for each token, with its start, length, kind and
 * fields. With `listing front`, the text can start with a frontmatter. `listing shebang` prints the length of the
 * shebang line. */
#include <stdio.h>
#include <stdlib.h>
#include <string.h>

#include "rustc_lexer.h"

/* The number of tokens per call; tests override it. */
#ifndef BUFFER_LEN
#define BUFFER_LEN 1024
#endif

static const char *const styles[] = {
    [RUSTC_LEXER_NO_DOC] = "none",
    [RUSTC_LEXER_OUTER_DOC] = "outer",
    [RUSTC_LEXER_INNER_DOC] = "inner",
};

static const char *truth(uint8_t so) {
    return so == 1 ? "true" : so == 0 ? "false" : "neither";
}

static void print_literal(const struct rustc_lexer_token *token) {
    printf(" kind=%s", rustc_lexer_literal_kind_name(token->literal_kind));
    switch (token->literal_kind) {
    case RUSTC_LEXER_INT:
        printf(" base=%u empty_int=%s", token->base, truth(token->empty_int));
        break;
    case RUSTC_LEXER_FLOAT:
        printf(" base=%u empty_exponent=%s", token->base, truth(token->empty_exponent));
        break;
    case RUSTC_LEXER_RAW_STR:
    case RUSTC_LEXER_RAW_BYTE_STR:
    case RUSTC_LEXER_RAW_C_STR:
        if (token->has_hashes)
            printf(" n_hashes=%u", token->n_hashes);
        else
            printf(" n_hashes=none");
        break;
    default:
        printf(" terminated=%s", truth(token->terminated));
    }
    printf(" suffix_start=%u", token->suffix_start);
}

static void print_token(size_t start, const struct rustc_lexer_token *token) {
    printf("%zu %u %s", start, token->len, rustc_lexer_kind_name(token->kind));
    switch (token->kind) {
    case RUSTC_LEXER_LINE_COMMENT:
        printf(" doc_style=%s", styles[token->doc_style]);
        break;
    case RUSTC_LEXER_BLOCK_COMMENT:
        printf(" doc_style=%s terminated=%s", styles[token->doc_style], truth(token->terminated));
        break;
    case RUSTC_LEXER_FRONTMATTER:
        printf(" has_invalid_preceding_whitespace=%s invalid_infostring=%s",
               truth(token->has_invalid_preceding_whitespace), truth(token->invalid_infostring));
        break;
    case RUSTC_LEXER_LITERAL:
        print_literal(token);
        break;
    case RUSTC_LEXER_LIFETIME:
        printf(" starts_with_number=%s", truth(token->starts_with_number));
        break;
    default:
        break;
    }
    putchar('\n');
}

/* Returns the bytes of standard input, or null if an allocation or the read fails. */
static uint8_t *read_all(size_t *len) {
    size_t capacity = 1 << 16;
    uint8_t *text = malloc(capacity);
    *len = 0;
    while (text != NULL) {
        size_t got = fread(text + *len, 1, capacity - *len, stdin);
        *len += got;
        if (got == 0) {
            if (!ferror(stdin))
                return text;
            break;
        }
        if (*len == capacity) {
            uint8_t *more = realloc(text, 2 * capacity);
            if (more == NULL)
                break;
            text = more;
            capacity *= 2;
        }
    }
    free(text);
    return NULL;
}

static uint32_t print_tokens(const uint8_t *text, size_t len, uint32_t frontmatter_allowed) {
    struct rustc_lexer_place place = {0, frontmatter_allowed};
    struct rustc_lexer_token buffer[BUFFER_LEN];
    size_t start = 0, count;
    uint32_t status = rustc_lexer_check(text, len);
    if (status != RUSTC_LEXER_OK)
        return status;
    do {
        status = rustc_lexer_tokens_unchecked(text, len, &place, buffer, BUFFER_LEN, &count);
        for (size_t i = 0; i < count; i++) {
            print_token(start, &buffer[i]);
            start += buffer[i].len;
        }
    } while (status == RUSTC_LEXER_OK && count == BUFFER_LEN);
    return status;
}

static uint32_t print_shebang(const uint8_t *text, size_t len) {
    size_t line_len;
    uint32_t status = rustc_lexer_strip_shebang(text, len, &line_len);
    if (status == RUSTC_LEXER_OK && line_len == 0)
        puts("none");
    else if (status == RUSTC_LEXER_OK)
        printf("%zu\n", line_len);
    return status;
}

/* The exit statuses are the same as for lexdump. */
int main(int count, char **words) {
    const char *job = count == 2 ? words[1] : "";
    bool shebang = strcmp(job, "shebang") == 0, front = strcmp(job, "front") == 0;
    if (count > 2 || (count == 2 && !shebang && !front)) {
        fputs("listing: bad arguments\n", stderr);
        return 2;
    }
    size_t len;
    uint8_t *text = read_all(&len);
    if (text == NULL) {
        fputs(ferror(stdin) ? "listing: read failed\n" : "listing: no memory\n", stderr);
        return ferror(stdin) ? 7 : 6;
    }
    uint32_t status = shebang ? print_shebang(text, len) : print_tokens(text, len, front);
    free(text);
    if (status == RUSTC_LEXER_NOT_UTF8) {
        fputs("listing: input is not UTF-8\n", stderr);
        return 3;
    }
    if (status == RUSTC_LEXER_TOO_LONG) {
        fputs("listing: input too long\n", stderr);
        return 4;
    }
    return fflush(stdout) == 0 && !ferror(stdout) ? 0 : 7;
}
