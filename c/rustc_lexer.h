/* A lexer for Rust: the interface of the static and shared library rustc_lexer_c. The library is generated from a
 * proved source; its README describes what is proved. Rattle, which proves the source, can also build it for x86-64
 * Linux, with the same functions and results.
 *
 * A text is passed as a pointer to its bytes and a length. It needs no terminating zero, and can contain zeros. No
 * function allocates memory or keeps a pointer after it returns. All functions can be called from any thread.
 *
 * The caller must guarantee the following, which no function can check:
 *   - No pointer is null, unless its length is 0.
 *   - `text` points to `len` readable bytes, which nothing writes during the call.
 *   - Each pointer that is not const points to memory that is writable, aligned for its type, and not used by
 *     anything else during the call: `buffer` to `buffer_len` tokens, units or bytes, and any other pointer to one
 *     value. The memory can be uninitialized, except for `place`, `head` and `relexing`, and for values that a comment
 *     requires before the call.
 *   - `old` points to `old_len` tokens, `tokens` to `tokens_len` and `lexed` to `lexed_len`; `edit` and `token` point
 *     to one value. These pointers are aligned for their types, and nothing writes the values during the call.
 *   - For functions with `_unchecked` in their name: the text is UTF-8.
 * Everything else is checked. Most functions return a status. If it is not 0, the outputs are zeros, unless a comment
 * says otherwise.
 *
 * The numbers in this file never change. A new kind of token gets a new number.
 *
 * The header is C11, because a token contains unnamed unions, and it is also C++. */
#ifndef RUSTC_LEXER_H
#define RUSTC_LEXER_H

#include <stdbool.h>
#include <stddef.h>
#include <stdint.h>

#ifdef __cplusplus
extern "C" {
#endif

/* Statuses. If several apply, a function returns the first of these: TOO_LONG, NOT_UTF8, INVALID_PLACE, NOT_RAW,
 * INVALID_MODE, INVALID_EDITION, INVALID_EDIT, INVALID_FORMAT, SMALL_BUFFER. */
enum {
    RUSTC_LEXER_OK = 0,
    RUSTC_LEXER_NOT_UTF8 = 1,        /* the text is not UTF-8 */
    RUSTC_LEXER_TOO_LONG = 2,        /* the text is longer than 4294967295 bytes */
    RUSTC_LEXER_INVALID_PLACE = 3,   /* the position is after the end of the text, or inside a character */
    RUSTC_LEXER_NOT_RAW = 4,         /* character number prefix_len of the text, counted from 1, is not an r */
    RUSTC_LEXER_INVALID_EDITION = 5, /* no edition of Rust has this year */
    RUSTC_LEXER_INVALID_EDIT = 6,    /* the edit cannot have resulted in the text, or relexing cannot continue */
    RUSTC_LEXER_INVALID_MODE = 7,    /* the mode is not one of RUSTC_LEXER_CHAR to RUSTC_LEXER_RAW_C_STR */
    RUSTC_LEXER_INVALID_FORMAT = 8,  /* the format is not one of RUSTC_LEXER_FORMAT_.. */
    RUSTC_LEXER_SMALL_BUFFER = 9     /* the buffer is too small for the output */
};

/* Kinds of tokens. The kind 0 marks an entry without a token. No function writes 43. */
enum {
    RUSTC_LEXER_LINE_COMMENT = 1,
    RUSTC_LEXER_BLOCK_COMMENT = 2,
    RUSTC_LEXER_WHITESPACE = 3,
    RUSTC_LEXER_FRONTMATTER = 4,
    RUSTC_LEXER_IDENT = 5,
    RUSTC_LEXER_INVALID_IDENT = 6,
    RUSTC_LEXER_RAW_IDENT = 7,
    RUSTC_LEXER_FORCED_KEYWORD_IDENT = 8,
    RUSTC_LEXER_UNKNOWN_PREFIX = 9,
    RUSTC_LEXER_UNKNOWN_PREFIX_LIFETIME = 10,
    RUSTC_LEXER_RAW_LIFETIME = 11,
    RUSTC_LEXER_GUARDED_STR_PREFIX = 12,
    RUSTC_LEXER_LITERAL = 13,
    RUSTC_LEXER_LIFETIME = 14,
    RUSTC_LEXER_SEMI = 15,
    RUSTC_LEXER_COMMA = 16,
    RUSTC_LEXER_DOT = 17,
    RUSTC_LEXER_OPEN_PAREN = 18,
    RUSTC_LEXER_CLOSE_PAREN = 19,
    RUSTC_LEXER_OPEN_BRACE = 20,
    RUSTC_LEXER_CLOSE_BRACE = 21,
    RUSTC_LEXER_OPEN_BRACKET = 22,
    RUSTC_LEXER_CLOSE_BRACKET = 23,
    RUSTC_LEXER_AT = 24,
    RUSTC_LEXER_POUND = 25,
    RUSTC_LEXER_TILDE = 26,
    RUSTC_LEXER_QUESTION = 27,
    RUSTC_LEXER_COLON = 28,
    RUSTC_LEXER_DOLLAR = 29,
    RUSTC_LEXER_EQ = 30,
    RUSTC_LEXER_BANG = 31,
    RUSTC_LEXER_LT = 32,
    RUSTC_LEXER_GT = 33,
    RUSTC_LEXER_MINUS = 34,
    RUSTC_LEXER_AND = 35,
    RUSTC_LEXER_OR = 36,
    RUSTC_LEXER_PLUS = 37,
    RUSTC_LEXER_STAR = 38,
    RUSTC_LEXER_SLASH = 39,
    RUSTC_LEXER_CARET = 40,
    RUSTC_LEXER_PERCENT = 41,
    RUSTC_LEXER_UNKNOWN = 42,
    RUSTC_LEXER_EOF = 43
};

/* Kinds of literals. */
enum {
    RUSTC_LEXER_INT = 1,
    RUSTC_LEXER_FLOAT = 2,
    RUSTC_LEXER_CHAR = 3,
    RUSTC_LEXER_BYTE = 4,
    RUSTC_LEXER_STR = 5,
    RUSTC_LEXER_BYTE_STR = 6,
    RUSTC_LEXER_C_STR = 7,
    RUSTC_LEXER_RAW_STR = 8,
    RUSTC_LEXER_RAW_BYTE_STR = 9,
    RUSTC_LEXER_RAW_C_STR = 10
};

/* Styles of doc comments. */
enum {
    RUSTC_LEXER_NO_DOC = 0,
    RUSTC_LEXER_OUTER_DOC = 1,
    RUSTC_LEXER_INNER_DOC = 2
};

/* A token of 12 bytes. The fields of its kind follow the kind, one byte each; the members of a union belong to
 * different kinds. A byte without a field is 0. A Boolean field is 0 or 1. */
struct rustc_lexer_token {
    uint8_t kind;
    union {
        uint8_t doc_style;                        /* of a comment */
        uint8_t literal_kind;                     /* of a literal */
        uint8_t starts_with_number;               /* of a lifetime: it starts with a digit, or contains an emoji */
        uint8_t has_invalid_preceding_whitespace; /* of a frontmatter: whitespace comes before it on its line */
    };
    union {
        uint8_t terminated;         /* of a block comment, or a quoted literal that is not raw */
        uint8_t base;               /* of an integer or a float: 2, 8, 10 or 16 */
        uint8_t has_hashes;         /* of a raw string: it is well-formed and has n_hashes hashes */
        uint8_t invalid_infostring; /* of a frontmatter: its first line is malformed */
    };
    union {
        uint8_t empty_int;      /* of an integer: it has no digits after its base prefix */
        uint8_t empty_exponent; /* of a float: its exponent has no digits */
        uint8_t n_hashes;       /* of a raw string */
    };
    uint32_t suffix_start; /* of a literal: the offset of its suffix in the token, or len if it has none */
    uint32_t len;          /* in bytes, at least 1 */
};

/* Returns the name of a kind of token, or "" for any other number. */
static inline const char *rustc_lexer_kind_name(uint8_t kind) {
    static const char *const names[] = {
        "", "LineComment", "BlockComment", "Whitespace", "Frontmatter", "Ident", "InvalidIdent", "RawIdent",
        "ForcedKeywordIdent", "UnknownPrefix", "UnknownPrefixLifetime", "RawLifetime", "GuardedStrPrefix",
        "Literal", "Lifetime", "Semi", "Comma", "Dot", "OpenParen", "CloseParen", "OpenBrace", "CloseBrace",
        "OpenBracket", "CloseBracket", "At", "Pound", "Tilde", "Question", "Colon", "Dollar", "Eq", "Bang",
        "Lt", "Gt", "Minus", "And", "Or", "Plus", "Star", "Slash", "Caret", "Percent", "Unknown", "Eof"
    };
    return kind < sizeof names / sizeof *names ? names[kind] : "";
}

/* Returns the name of a kind of literal, or "" for any other number. */
static inline const char *rustc_lexer_literal_kind_name(uint8_t literal_kind) {
    static const char *const names[] = {
        "", "Int", "Float", "Char", "Byte", "Str", "ByteStr", "CStr", "RawStr", "RawByteStr", "RawCStr"
    };
    return literal_kind < sizeof names / sizeof *names ? names[literal_kind] : "";
}

/* A position in a text. Start at {0, 0} for a fragment of a file, and at {head.tokens_start, 1} for a whole file:
 * after a byte order mark and a shebang line, which rustc_lexer_body_edit finds. */
struct rustc_lexer_place {
    uint32_t at;                  /* the offset in bytes */
    uint32_t frontmatter_allowed; /* whether a frontmatter is allowed there: 0 for no, any other number for yes */
};

/* An applied edit, as offsets in bytes. It replaced the bytes from `start` up to `old_end` of the old text with the
 * bytes from `start` up to `new_end` of the current text. */
struct rustc_lexer_edit {
    uint32_t start;
    uint32_t old_end;
    uint32_t new_end;
};

/* The head of a document, which is everything before its body: a byte order mark, a shebang line, a frontmatter, and
 * whitespace before the frontmatter if that is a separate token. Zeros are the head of an empty text. */
struct rustc_lexer_head {
    uint32_t tokens_start;              /* the offset of the first token: after a byte order mark and a shebang line */
    uint32_t body;                      /* the offset of the body */
    uint32_t count;                     /* the number of tokens before the body: 0, 1 or 2 */
    struct rustc_lexer_token tokens[2]; /* these tokens, then zeros */
};

/* Stages of relexing. */
enum {
    RUSTC_LEXER_STAGE_BEGIN = 0, /* no token is written yet */
    RUSTC_LEXER_STAGE_MORE = 1,  /* more tokens are left to write */
    RUSTC_LEXER_STAGE_DONE = 2   /* all tokens are written */
};

/* How far an edited text has been relexed. Start with zeros. */
struct rustc_lexer_relexing {
    size_t kept_front;   /* the number of old tokens kept at the front; for STAGE_BEGIN see rustc_lexer_relex */
    size_t front_offset; /* the offset at which they end */
    size_t lexed;        /* the number of tokens that all calls together have written */
    size_t kept_back;    /* at STAGE_DONE: the number of old tokens kept at the back */
    size_t back_offset;  /* at STAGE_DONE: the offset in the old text at which they start */
    size_t at;           /* the offset in the current text at which the written tokens end; at STAGE_DONE the tokens
                            at the back start there */
    size_t stage;        /* RUSTC_LEXER_STAGE_.. */
};

/* Errors of raw strings. */
enum {
    RUSTC_LEXER_INVALID_STARTER = 1,
    RUSTC_LEXER_NO_TERMINATOR = 2,
    RUSTC_LEXER_TOO_MANY_DELIMITERS = 3
};

/* The error of a raw string. A field that the error does not have is 0. */
struct rustc_lexer_raw_str_error {
    uint32_t error;      /* the error, or 0 if there is none */
    uint32_t bad_char;   /* of INVALID_STARTER: the character, or 0 at the end of the text */
    uint32_t expected;   /* of NO_TERMINATOR: the number of hashes that would close the string */
    uint32_t found;      /* of NO_TERMINATOR: the maximum number of hashes after a quote in it; of
                            TOO_MANY_DELIMITERS: their number */
    uint32_t has_offset; /* of NO_TERMINATOR: whether there is an offset, 0 or 1 */
    uint32_t possible_terminator_offset; /* of NO_TERMINATOR: the end of the first quote with `found` hashes:
                                            prefix_len plus the bytes after the prefix */
};

/* A guarded string. All fields are 0 if there is none. */
struct rustc_lexer_guarded_str {
    uint32_t is_some;    /* whether there is one, 0 or 1 */
    uint32_t n_hashes;   /* the number of hashes before the string */
    uint32_t terminated; /* whether a quote closes it, 0 or 1 */
    uint32_t token_len;  /* the length of the whole token in bytes */
};

/* Kinds of units. */
enum {
    RUSTC_LEXER_UNIT_CHAR = 1,    /* a character */
    RUSTC_LEXER_UNIT_BYTE = 2,    /* a byte; in a C string at least 128 */
    RUSTC_LEXER_UNIT_ERROR = 3,   /* an error */
    RUSTC_LEXER_UNIT_WARNING = 4  /* a warning */
};

/* Errors of literals. The last two are warnings. */
enum {
    RUSTC_LEXER_ZERO_CHARS = 1,
    RUSTC_LEXER_MORE_THAN_ONE_CHAR = 2,
    RUSTC_LEXER_LONE_SLASH = 3,
    RUSTC_LEXER_INVALID_ESCAPE = 4,
    RUSTC_LEXER_BARE_CARRIAGE_RETURN = 5,
    RUSTC_LEXER_BARE_CARRIAGE_RETURN_IN_RAW_STRING = 6,
    RUSTC_LEXER_ESCAPE_ONLY_CHAR = 7,
    RUSTC_LEXER_TOO_SHORT_HEX_ESCAPE = 8,
    RUSTC_LEXER_INVALID_CHAR_IN_HEX_ESCAPE = 9,
    RUSTC_LEXER_OUT_OF_RANGE_HEX_ESCAPE = 10,
    RUSTC_LEXER_NO_BRACE_IN_UNICODE_ESCAPE = 11,
    RUSTC_LEXER_INVALID_CHAR_IN_UNICODE_ESCAPE = 12,
    RUSTC_LEXER_EMPTY_UNICODE_ESCAPE = 13,
    RUSTC_LEXER_UNCLOSED_UNICODE_ESCAPE = 14,
    RUSTC_LEXER_LEADING_UNDERSCORE_UNICODE_ESCAPE = 15,
    RUSTC_LEXER_OVERLONG_UNICODE_ESCAPE = 16,
    RUSTC_LEXER_LONE_SURROGATE_UNICODE_ESCAPE = 17,
    RUSTC_LEXER_OUT_OF_RANGE_UNICODE_ESCAPE = 18,
    RUSTC_LEXER_UNICODE_ESCAPE_IN_BYTE = 19,
    RUSTC_LEXER_NON_ASCII_CHAR_IN_BYTE = 20,
    RUSTC_LEXER_NUL_IN_C_STR = 21,
    RUSTC_LEXER_UNSKIPPED_WHITESPACE_WARNING = 22,
    RUSTC_LEXER_MULTIPLE_SKIPPED_LINES_WARNING = 23
};

/* Returns the message of an error or warning of a literal, or "" for any other number. */
static inline const char *rustc_lexer_literal_error_message(uint32_t error) {
    static const char *const messages[] = {
        "",
        "empty literal: expected one character",
        "too many characters: expected one between single quotes",
        "incomplete escape: missing character after the backslash",
        "unknown escape: write a backslash as `\\\\`",
        "bare CR in a literal: write it as `\\r`",
        "bare CR in a raw string",
        "unescaped character: write it as an escape",
        "incomplete escape: `\\x` needs two hexadecimal digits",
        "invalid character in an escape: `\\x` needs two hexadecimal digits",
        "escape out of range: the maximum is `\\x7f`",
        "invalid escape: expected `{` after `\\u`",
        "invalid character in an escape: expected a hexadecimal digit, `_` or `}`",
        "empty escape: `\\u` needs one to six hexadecimal digits",
        "incomplete escape: missing `}`",
        "leading `_` in an escape: expected a hexadecimal digit",
        "too many digits in an escape: `\\u` allows at most six",
        "invalid code point: surrogates are not characters",
        "escape out of range: the maximum is `\\u{10ffff}`",
        "`\\u` in a byte or byte string: use `\\x`",
        "non-ASCII character in a byte or byte string",
        "NUL in a C string: it would end the string",
        "unskipped whitespace: an escaped newline skips only spaces, tabs and line endings",
        "skipped blank line: an escaped newline skips it too"
    };
    return error < sizeof messages / sizeof *messages ? messages[error] : "";
}

/* A unit of a literal's value, or an error or warning, with its range in bytes. */
struct rustc_lexer_unit {
    size_t start;   /* the offset of the first byte */
    size_t end;     /* the offset after the last byte */
    uint32_t kind;  /* RUSTC_LEXER_UNIT_.. */
    uint32_t value; /* the character, the byte, or the number of the error */
};

/* Classes of tokens, for syntax highlighting. */
enum {
    RUSTC_LEXER_CLASS_PLAIN = 1,     /* whitespace, a symbol, or a name of no other class */
    RUSTC_LEXER_CLASS_COMMENT = 2,   /* a comment that is not a doc comment */
    RUSTC_LEXER_CLASS_DOC = 3,       /* a doc comment, or a frontmatter */
    RUSTC_LEXER_CLASS_KEYWORD = 4,   /* a strict keyword of the edition */
    RUSTC_LEXER_CLASS_TYPE_NAME = 5, /* a name that starts with an ASCII capital letter */
    RUSTC_LEXER_CLASS_TEXT = 6,      /* a string, a character or a byte */
    RUSTC_LEXER_CLASS_ESCAPE = 7,    /* an escape in a string, a character or a byte; no token has this class */
    RUSTC_LEXER_CLASS_NUMBER = 8,    /* a number */
    RUSTC_LEXER_CLASS_LIFETIME = 9   /* a lifetime or a label */
};

/* Errors of tokens. */
enum {
    RUSTC_LEXER_TOKEN_ERROR_UNTERMINATED_BLOCK_COMMENT = 1, /* unterminated block comment */
    RUSTC_LEXER_TOKEN_ERROR_WHITESPACE_BEFORE_FRONTMATTER = 2, /* whitespace before an opening fence on its line */
    RUSTC_LEXER_TOKEN_ERROR_INVALID_INFOSTRING = 3, /* malformed first line of a frontmatter */
    RUSTC_LEXER_TOKEN_ERROR_UNCLOSED_FRONTMATTER = 4, /* unclosed frontmatter */
    RUSTC_LEXER_TOKEN_ERROR_WHITESPACE_BEFORE_FRONTMATTER_CLOSE = 5, /* whitespace before a closing fence */
    RUSTC_LEXER_TOKEN_ERROR_FRONTMATTER_CLOSE_MISMATCH = 6, /* the closing fence has another number of dashes */
    RUSTC_LEXER_TOKEN_ERROR_EXTRA_AFTER_FRONTMATTER_CLOSE = 7, /* other characters after a closing fence */
    RUSTC_LEXER_TOKEN_ERROR_INVALID_NAME = 8, /* a name contains an emoji */
    RUSTC_LEXER_TOKEN_ERROR_UNKNOWN_PREFIX = 9, /* unknown prefix of a literal, or k#a since 2021 */
    RUSTC_LEXER_TOKEN_ERROR_UNKNOWN_LIFETIME_PREFIX = 10, /* unknown prefix of a lifetime */
    RUSTC_LEXER_TOKEN_ERROR_GUARDED_STRING = 11, /* #" or ##, which are reserved */
    RUSTC_LEXER_TOKEN_ERROR_INVALID_LIFETIME = 12, /* a lifetime starts with a digit or contains an emoji */
    RUSTC_LEXER_TOKEN_ERROR_UNKNOWN_CHARACTER = 13, /* no token starts with this character */
    RUSTC_LEXER_TOKEN_ERROR_EMPTY_NUMBER = 14, /* a number has no digits */
    RUSTC_LEXER_TOKEN_ERROR_EMPTY_EXPONENT = 15, /* an exponent has no digits */
    RUSTC_LEXER_TOKEN_ERROR_UNTERMINATED_CHAR = 16, /* unterminated character */
    RUSTC_LEXER_TOKEN_ERROR_UNTERMINATED_BYTE = 17, /* unterminated byte */
    RUSTC_LEXER_TOKEN_ERROR_UNTERMINATED_STRING = 18, /* unterminated string */
    RUSTC_LEXER_TOKEN_ERROR_INVALID_RAW_STARTER = 19, /* a raw string has no opening quote */
    RUSTC_LEXER_TOKEN_ERROR_UNTERMINATED_RAW_STRING = 20, /* unterminated raw string */
    RUSTC_LEXER_TOKEN_ERROR_TOO_FEW_HASHES = 21, /* unterminated raw string: too few hashes after a quote */
    RUSTC_LEXER_TOKEN_ERROR_TOO_MANY_HASHES = 22, /* a raw string has more than 255 hashes on each side */
    RUSTC_LEXER_TOKEN_ERROR_IN_LITERAL = 23, /* an error between the quotes; rustc_lexer_token_error never writes it */
    RUSTC_LEXER_TOKEN_ERROR_INVALID_DIGIT = 24, /* invalid digit for the base of a number */
    RUSTC_LEXER_TOKEN_ERROR_FLOAT_OF_BASE = 25, /* a float in a base other than 10 */
    RUSTC_LEXER_TOKEN_ERROR_RAW_KEYWORD = 26, /* self, Self, super, crate or _ after r# or 'r# */
    RUSTC_LEXER_TOKEN_ERROR_UNDERSCORE_SUFFIX = 27, /* the suffix of a literal is _ */
    RUSTC_LEXER_TOKEN_ERROR_BARE_CARRIAGE_RETURN_IN_DOC_COMMENT = 28, /* bare CR in a doc comment */
    RUSTC_LEXER_TOKEN_ERROR_BARE_CARRIAGE_RETURN_IN_FRONTMATTER = 29, /* bare CR in a frontmatter */
    RUSTC_LEXER_TOKEN_ERROR_TOO_MANY_DASHES = 30, /* a frontmatter has more than 255 dashes on each side */
    RUSTC_LEXER_TOKEN_ERROR_TEXT_DIRECTION_CODEPOINT = 31 /* a comment or a literal contains a character that
                                                             changes the text direction */
};

/* Formats of highlighted text. */
enum {
    RUSTC_LEXER_FORMAT_HTML = 1,      /* HTML tags, and entities in the text */
    RUSTC_LEXER_FORMAT_COLOURS = 2,   /* escape sequences of terminals; control characters are shown as symbols */
    RUSTC_LEXER_FORMAT_NO_COLOURS = 3 /* only error messages, and these symbols */
};

/* Returns RUSTC_LEXER_OK if the text is UTF-8 and has at most 4294967295 bytes. Otherwise it returns
 * RUSTC_LEXER_TOO_LONG or RUSTC_LEXER_NOT_UTF8, like any other function with this text. */
uint32_t rustc_lexer_check(const uint8_t *text, size_t len);

/* Writes the tokens from a position on, as many as fit into the buffer, and their number into `count`. Moves the
 * position to the end of these tokens, where the next call continues. The tokens do not depend on the size of the
 * buffer. `count` is less than `buffer_len` only at the end of the text. If `buffer_len` is 0, `count` is 0 and the
 * position does not change. If the status is not 0, `place` and `buffer` are unchanged, and `count` is 0.
 *
 * Each call checks the whole text. To lex a long text in many batches, call rustc_lexer_check once and then
 * rustc_lexer_tokens_unchecked. */
uint32_t rustc_lexer_tokens(const uint8_t *text, size_t len, struct rustc_lexer_place *place,
                            struct rustc_lexer_token *buffer, size_t buffer_len, size_t *count);

/* Like rustc_lexer_tokens, but does not check that the text is UTF-8. If it is not, the behaviour is undefined;
 * rustc_lexer_check checks it. The length and the position are checked.
 *
 * This holds for every function with `_unchecked` in its name. If there is a function without that suffix, both return
 * the same, except that rustc_lexer_is_ident_unchecked returns the result directly. The time of an unchecked function
 * depends on the bytes that it reads, not on the length of the text. */
uint32_t rustc_lexer_tokens_unchecked(const uint8_t *text, size_t len, struct rustc_lexer_place *place,
                                      struct rustc_lexer_token *buffer, size_t buffer_len, size_t *count);

/* Like the two functions above, but in the edition of a year: 2015, 2018, 2021 or 2024. The functions above use the
 * newest edition. Returns RUSTC_LEXER_INVALID_EDITION for any other year. Frontmatters are the same in all editions. */
uint32_t rustc_lexer_tokens_in(const uint8_t *text, size_t len, uint32_t edition, struct rustc_lexer_place *place,
                               struct rustc_lexer_token *buffer, size_t buffer_len, size_t *count);
uint32_t rustc_lexer_tokens_in_unchecked(const uint8_t *text, size_t len, uint32_t edition,
                                         struct rustc_lexer_place *place, struct rustc_lexer_token *buffer,
                                         size_t buffer_len, size_t *count);

/* Returns the first token of a text, or zeros if the text is empty or longer than 4294967295 bytes.
 * `frontmatter_allowed` has the same meaning as in rustc_lexer_place. The text must be UTF-8. */
struct rustc_lexer_token rustc_lexer_first_token_unchecked(const uint8_t *text, size_t len,
                                                           uint32_t frontmatter_allowed);

/* Lexes the part of a text that an edit changed. `text` is the text after the edit, and `old` contains all tokens of
 * the text before the edit. The tokens of `text` are
 *
 *     the first `kept_front` tokens of `old`, the `lexed` written tokens, the last `kept_back` tokens of `old`,
 *
 * and rustc_lexer_splice joins them.
 *
 * Set `stage` to RUSTC_LEXER_STAGE_BEGIN before the first call for an edit. If the stage is _MORE after a call, the
 * buffer was too small: copy the tokens from it and call again, with everything else unchanged, until the stage is
 * _DONE. `count` is the number of tokens that this call wrote; at _MORE it is `buffer_len`. With `buffer_len` 0 a
 * call writes no tokens, so such calls alone might never reach _DONE.
 *
 * At _BEGIN, the search for the kept front starts at the token of `old` with index `kept_front`, which starts at
 * offset `front_offset`. Pass 0 and 0, or the numbers of the call for the previous edit. The closer they are to the
 * edit, the faster the search.
 *
 * Only the lengths of the tokens in `old` are read. If they are not the lengths of the tokens of the old text in this
 * edition, or if the two numbers at _BEGIN are not a token boundary, the result has no meaning. The call is still
 * safe: it stays in bounds, it terminates, and `kept_front` and `kept_back` together are at most `old_len`.
 *
 * The edition is a year, as in rustc_lexer_tokens_in. No frontmatter is allowed: the tokens of a text are the tokens
 * that rustc_lexer_tokens_in writes from {0, 0}.
 *
 * If the status is not 0, `buffer` and `relexing` are unchanged, and `count` is 0. RUSTC_LEXER_INVALID_EDIT means one
 * of these:
 *   - `start` is greater than `old_end` or `new_end`;
 *   - `start` or `new_end` is after the end of the text or inside a character;
 *   - at a later stage, `at` is after the end of the text or inside a character, `lexed` is greater than `at`,
 *     `kept_front` and `kept_back` together are greater than `old_len`, or `back_offset` is 2 to the power of 63 or
 *     more.
 * Numbers that a call wrote for this text are never rejected. A stage greater than _DONE counts as _MORE.
 *
 * Each call checks the whole text. */
uint32_t rustc_lexer_relex(const uint8_t *text, size_t len, const struct rustc_lexer_token *old, size_t old_len,
                           const struct rustc_lexer_edit *edit, uint32_t edition,
                           struct rustc_lexer_relexing *relexing, struct rustc_lexer_token *buffer, size_t buffer_len,
                           size_t *count);

/* Like rustc_lexer_relex, but does not check that the text is UTF-8. A text stays UTF-8 if an edit replaces whole
 * characters with UTF-8. */
uint32_t rustc_lexer_relex_unchecked(const uint8_t *text, size_t len, const struct rustc_lexer_token *old,
                                     size_t old_len, const struct rustc_lexer_edit *edit, uint32_t edition,
                                     struct rustc_lexer_relexing *relexing, struct rustc_lexer_token *buffer,
                                     size_t buffer_len, size_t *count);

/* Replaces the tokens between the first `kept_front` and the last `kept_back` of a list with `lexed`. The list is at
 * the start of the buffer and has `count` tokens. Writes the new number of tokens into `count`. The contents of the
 * buffer after these tokens are unspecified.
 *
 * If the status is not 0, nothing is written. RUSTC_LEXER_INVALID_EDIT means that `count` is greater than `buffer_len`,
 * or less than `kept_front` and `kept_back` together. RUSTC_LEXER_SMALL_BUFFER means that the new list does not fit. */
uint32_t rustc_lexer_splice(struct rustc_lexer_token *buffer, size_t buffer_len, size_t *count, size_t kept_front,
                            size_t kept_back, const struct rustc_lexer_token *lexed, size_t lexed_len);

/* Finds the head of a document after an edit, and the change of its body. `text` is the document after the edit, with
 * its byte order mark and its shebang line. Before the call, `head` is the head of the document before the edit, as
 * the previous call wrote it. Writes the head of `text` into `head`, the edit of the body, by offsets from the start
 * of the body, into `body_edit`, and 1 into `head_kept` if all tokens of the head are kept, otherwise 0. The tokens
 * of the document are
 *
 *     the `count` tokens of `head`, and the tokens of the body, which is `text` from byte `body` on.
 *
 * Update the tokens of the body with rustc_lexer_relex: pass the new body as the text, `body_edit`, and the old tokens
 * of the body. `head_kept` is 1 if the edit is after the head, and the shebang line and the tokens of the head are
 * unchanged. Otherwise no token is kept at the front of the body, and `kept_front` is 0.
 *
 * If `head` is not the head of the text before the edit, the result has no meaning, but the call is safe. To lex a
 * whole document, pass zeros and the edit {0, 0, len}.
 *
 * If the status is not 0, nothing is written. RUSTC_LEXER_INVALID_EDIT has the same meaning as for rustc_lexer_relex,
 * or `head` cannot be the head of the text before the edit. If the status is 0, rustc_lexer_relex accepts `body_edit`
 * for the body.
 *
 * Each call checks the whole text. */
uint32_t rustc_lexer_body_edit(const uint8_t *text, size_t len, const struct rustc_lexer_edit *edit,
                               struct rustc_lexer_head *head, struct rustc_lexer_edit *body_edit,
                               uint32_t *head_kept);
uint32_t rustc_lexer_body_edit_unchecked(const uint8_t *text, size_t len, const struct rustc_lexer_edit *edit,
                                         struct rustc_lexer_head *head, struct rustc_lexer_edit *body_edit,
                                         uint32_t *head_kept);

/* Writes the length in bytes of the shebang line at the start of the text, without the line ending, or 0 if there is
 * none. A shebang line has at least 2 bytes. */
uint32_t rustc_lexer_strip_shebang(const uint8_t *text, size_t len, size_t *line_len);
uint32_t rustc_lexer_strip_shebang_unchecked(const uint8_t *text, size_t len, size_t *line_len);

/* Writes the byte offset up to which the tokens are final, whatever is appended to the text. It is the end of the last
 * token that is followed by at least two characters, or 0 if there is none. No frontmatter is allowed.
 *
 * Each call lexes the text from its start. While a long text arrives, pass only the text after the offset of the
 * previous call, without an incomplete character at its end. */
uint32_t rustc_lexer_settled(const uint8_t *text, size_t len, size_t *end);
uint32_t rustc_lexer_settled_unchecked(const uint8_t *text, size_t len, size_t *end);

/* Finds the token that contains the byte at `offset` in a list of adjacent tokens. Writes its index into `index`, and
 * the offset at which it starts into `start`. Returns whether there is such a token. If there is none, both are
 * unchanged.
 *
 * Before the call, both are the index and the offset of a token boundary, at which the search starts: 0 and the start
 * of the first token, the result of an earlier call, or `kept_front` and `front_offset` of an edit. The time depends
 * on the number of tokens between this boundary and `offset`, or on all tokens at worst.
 *
 * Only the lengths of `tokens` are read. If the two numbers are not a token boundary, the result has no meaning, but
 * the call is safe. */
bool rustc_lexer_token_start_at(const struct rustc_lexer_token *tokens, size_t tokens_len, size_t offset,
                                size_t *index, size_t *start);

/* Writes 1 if the text has the tokens of the part before byte `at`, followed by the tokens of the part after it,
 * otherwise 0. A program that prints tokens can use this to decide whether it must print a space between two tokens.
 * The edition is a year, as in rustc_lexer_tokens_in. No frontmatter is allowed.
 *
 * The part before `at` can be shortened at its start: it can start at the end of any token that is followed by at
 * least two characters of this part. For example, its last two tokens are enough. */
uint32_t rustc_lexer_is_token_boundary(const uint8_t *text, size_t len, size_t at, uint32_t edition, uint32_t *is);

/* Checks the raw string at the start of the text, and writes its error. `prefix_len` is the number of characters of its
 * prefix, including the r: 1 for r, 2 for br and cr. */
uint32_t rustc_lexer_validate_raw_str(const uint8_t *text, size_t len, uint32_t prefix_len,
                                      struct rustc_lexer_raw_str_error *error);
uint32_t rustc_lexer_validate_raw_str_unchecked(const uint8_t *text, size_t len, uint32_t prefix_len,
                                                struct rustc_lexer_raw_str_error *error);

/* Returns whether character number `prefix_len` of the text, counted from 1, is an r. The text can have any length, and
 * must be UTF-8.
 *
 * For a text of at most 4294967295 bytes the result is false exactly if rustc_lexer_validate_raw_str returns
 * RUSTC_LEXER_NOT_RAW. For a longer text that function always returns RUSTC_LEXER_TOO_LONG. */
bool rustc_lexer_starts_raw_unchecked(const uint8_t *text, size_t len, uint32_t prefix_len);

/* Writes the guarded string at the start of the text: hashes, a string, at most as many hashes, and a suffix. */
uint32_t rustc_lexer_guarded_str(const uint8_t *text, size_t len, struct rustc_lexer_guarded_str *string);
uint32_t rustc_lexer_guarded_str_unchecked(const uint8_t *text, size_t len,
                                           struct rustc_lexer_guarded_str *string);

/* Writes the value of a literal: the units of the text between its quotes, in order, as many as fit into the buffer,
 * and their number into `count`. Skips the first `passed` units. `mode` is the kind of the literal, from
 * RUSTC_LEXER_CHAR to RUSTC_LEXER_RAW_C_STR, as in the field `literal_kind` of its token.
 *
 * Between double quotes, the ranges follow one another. A backslash at the end of a line, with the whitespace that it
 * skips, has no unit, except that a warning can start there. Between single quotes there is one unit, whose range is
 * the whole text.
 *
 * CR LF is two characters here. rustc converts it to a newline before it lexes, so convert it before the call.
 *
 * A text has at most as many units as bytes, or one if it is empty. Each call reads the text from its start, so with
 * a buffer of that size one call is enough. If the status is not 0, `buffer` is unchanged, and `count` is 0. */
uint32_t rustc_lexer_unescape(const uint8_t *text, size_t len, uint32_t mode, size_t passed,
                              struct rustc_lexer_unit *buffer, size_t buffer_len, size_t *count);
uint32_t rustc_lexer_unescape_unchecked(const uint8_t *text, size_t len, uint32_t mode, size_t passed,
                                        struct rustc_lexer_unit *buffer, size_t buffer_len, size_t *count);

/* Writes the errors and warnings of a literal, in order, as many as fit into the buffer, and their number into
 * `count`. Skips the first `passed`. The arguments are the same as for rustc_lexer_unescape, which is much slower.
 * CR LF is one newline. Between single quotes there is at most one error, whose range starts at 0 and ends after the
 * character that causes it. If the status is not 0, `buffer` is unchanged, and `count` is 0. */
uint32_t rustc_lexer_literal_errors(const uint8_t *text, size_t len, uint32_t mode, size_t passed,
                                    struct rustc_lexer_unit *buffer, size_t buffer_len, size_t *count);
uint32_t rustc_lexer_literal_errors_unchecked(const uint8_t *text, size_t len, uint32_t mode, size_t passed,
                                              struct rustc_lexer_unit *buffer, size_t buffer_len, size_t *count);

/* Writes the class of a token, RUSTC_LEXER_CLASS_.., into `number`. `text` is the text of the token. The edition is a
 * year, as in rustc_lexer_tokens_in. */
uint32_t rustc_lexer_class(const uint8_t *text, size_t len, const struct rustc_lexer_token *token, uint32_t edition,
                           uint32_t *number);

/* Writes the error of a token, RUSTC_LEXER_TOKEN_ERROR_.., into `number`, or 0 if there is none. `text` is the text of
 * the token. The edition is a year, as in rustc_lexer_tokens_in: k#a has an error since 2021. For errors between the
 * quotes of a terminated literal, call rustc_lexer_literal_errors.
 *
 * CR LF is a newline. So is a CR that ends a doc comment or a closing fence at the end of a text, which rustc
 * rejects. For '\ before CR LF, the error is an unterminated character, where rustc reports an unknown escape. C
 * strings are read in every edition, although rustc reads the c or cr in c", cr" and cr# as an identifier before
 * 2021. */
uint32_t rustc_lexer_token_error(const uint8_t *text, size_t len, const struct rustc_lexer_token *token,
                                 uint32_t edition, uint32_t *number);

/* Writes the message of a token's error into the buffer, such as "number has no digits", and the number of its bytes
 * into `written`, which is 0 if there is no error. The arguments are those of rustc_lexer_token_error. The message is
 * UTF-8 without a terminating zero; the rest of the buffer is unchanged. 256 bytes are enough for every message. For an
 * error between the quotes of a literal, call rustc_lexer_literal_error_message.
 *
 * If the status is RUSTC_LEXER_SMALL_BUFFER, the contents of the buffer are unspecified: call again with a larger
 * one. If it is any other status except 0, the buffer is unchanged. In both cases `written` is 0. */
uint32_t rustc_lexer_token_error_message(const uint8_t *text, size_t len, const struct rustc_lexer_token *token,
                                         uint32_t edition, uint8_t *buffer, size_t buffer_len, size_t *written);

/* Writes the first `count` tokens of the text, or all if it has fewer, with highlighting into the buffer, and the
 * number of bytes into `written`. The highlighting shows the class of each token, a message if it is malformed, and
 * the escapes in a literal. The text is a fragment of a file, without shebang line and frontmatter. The edition is a
 * year, as in rustc_lexer_tokens_in. The output is UTF-8 without a terminating zero; the rest of the buffer is
 * unchanged.
 *
 * A token depends on no text before it, and on at most two characters after it. So you can pass only the visible part
 * of a text, from the start of a token to two characters after the last visible token.
 *
 * If the status is RUSTC_LEXER_SMALL_BUFFER, the contents of the buffer are unspecified: call again with a larger
 * one. With any other status except 0 the buffer is unchanged. In both cases `written` is 0. */
uint32_t rustc_lexer_write_highlighted(const uint8_t *text, size_t len, uint32_t format, uint32_t edition, size_t count,
                                       uint8_t *buffer, size_t buffer_len, size_t *written);

/* Writes 1 if the text is an identifier, otherwise 0. */
uint32_t rustc_lexer_is_ident(const uint8_t *text, size_t len, uint32_t *is);

/* Returns whether the text is an identifier. The text can have any length, and must be UTF-8. */
bool rustc_lexer_is_ident_unchecked(const uint8_t *text, size_t len);

/* Return whether a character belongs to a class, or false if the number is not a character. */
bool rustc_lexer_is_whitespace(uint32_t code);
bool rustc_lexer_is_horizontal_whitespace(uint32_t code);
bool rustc_lexer_is_id_start(uint32_t code);
bool rustc_lexer_is_id_continue(uint32_t code);

/* The ABI number of this library, and the first version that has it. It increases with every ABI break. The function
 * returns the number, which is also part of its name. Each object file that GCC 11, Clang 13 or later compiles with
 * this header refers to that name, so a program does not link with a library of another ABI number. CMake accepts
 * this version if a program requests any version since that first one. */
#define RUSTC_LEXER_ABI 1 /* since version 0.1.0 */
uint32_t rustc_lexer_abi_1(void);
#ifdef __has_attribute
#if __has_attribute(used) && __has_attribute(retain)
__attribute__((used, retain)) static uint32_t (*const rustc_lexer_linked_abi)(void) = rustc_lexer_abi_1;
#endif
#endif

#ifdef __cplusplus
}
#endif

#endif
