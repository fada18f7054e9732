//! The message of each error, after the text that has it.

use rustc_lexer_highlight::{Edition, Format, write_highlighted};

/// The expected outputs. Without its messages, each output is the input.
const WRITTEN: [&str; 84] = [
    "a /* b [<- unterminated block comment]",
    " --- [<- whitespace before the opening fence of a frontmatter]\n---\n",
    "---a b [<- invalid infostring: expected at most one name after the opening fence]\n---\n",
    "a🙂 [<- invalid identifier: contains an emoji] b",
    "z [<- unknown prefix before a quote or `#`]\"a\"",
    "k#fn [<- unknown prefix before a quote or `#`]",
    "'z [<- unknown lifetime prefix before `#`]#",
    "## [<- reserved syntax: guarded string]a",
    "'1a [<- invalid lifetime: starts with a digit or contains an emoji]",
    "¬ [<- unexpected character: no token starts with it]",
    "0x [<- number has no digits];",
    "1e [<- exponent has no digits];",
    "' [<- unterminated character literal: missing closing quote]",
    "b' [<- unterminated byte literal: missing closing quote]",
    "\"a [<- unterminated string: missing closing quote]",
    "b\"a [<- unterminated string: missing closing quote]",
    "c\"a [<- unterminated string: missing closing quote]",
    "r#~ [<- invalid raw string: missing opening quote]",
    "r#\"a [<- unterminated raw string: expected a closing quote and 1 `#`]",
    "br#\"a [<- unterminated raw string: expected a closing quote and 1 `#`]",
    "r##\"abc\"# [<- unterminated raw string: expected 2 `#` after the closing quote, found 1 at byte 8]",
    "' [<- empty literal: expected one character]'",
    "'ab [<- too many characters: expected one between single quotes]'",
    "b'\\q [<- unknown escape: write a backslash as `\\\\`]';",
    "\"a\\q [<- unknown escape: write a backslash as `\\\\`]b\"",
    "\"é\\q [<- unknown escape: write a backslash as `\\\\`]\\w [<- unknown escape: write a backslash as `\\\\`]\"",
    "\"a [<- bare CR in a literal: write it as `\\r`]\rb\"",
    "'\t [<- unescaped character: write it as an escape]'",
    "\"\\x4 [<- incomplete escape: `\\x` needs two hexadecimal digits]\"",
    "\"\\x8z [<- invalid character in an escape: `\\x` needs two hexadecimal digits]\"",
    "\"\\x80 [<- escape out of range: the maximum is `\\x7f`]\"",
    "b\"\\x80\"",
    "\"\\u0 [<- invalid escape: expected `{` after `\\u`]041\"",
    "\"\\u{4g [<- invalid character in an escape: expected a hexadecimal digit, `_` or `}`]}\"",
    "\"\\u{} [<- empty escape: `\\u` needs one to six hexadecimal digits]\"",
    "\"\\u{41 [<- incomplete escape: missing `}`]\"",
    "\"\\u{_ [<- leading `_` in an escape: expected a hexadecimal digit]41}\"",
    "\"\\u{1234567} [<- too many digits in an escape: `\\u` allows at most six]\"",
    "\"\\u{110000} [<- escape out of range: the maximum is `\\u{10ffff}`]\"",
    "b\"\\u{41} [<- `\\u` in a byte or byte string: use `\\x`]\"",
    "b\"aé [<- non-ASCII character in a byte or byte string]\"",
    "c\"a\\0 [<- NUL in a C string: it would end the string]\"",
    "\"\\u{D800} [<- invalid code point: surrogates are not characters]\"u8",
    "r#\"\\q \"é\"#",
    "br\"é [<- non-ASCII character in a byte or byte string]\"",
    "r\"a [<- bare CR in a raw string]\rb\"",
    "\"a\\ [<- skipped blank line: an escaped newline skips it too]\n\n b\"",
    "\"a\\ [<- unskipped whitespace: an escaped newline skips only spaces, tabs and line endings]\n\u{a0}b\"",
    "\"\\q [<- unterminated string: missing closing quote]",
    "r\"a [<- unterminated raw string: missing closing quote]",
    "0b12u8 [<- invalid digit in a binary or octal number];",
    "0b1_01u8;",
    "0o1_8 [<- invalid digit in a binary or octal number];",
    "0o17u9;",
    "0x1.5 [<- invalid float: only a decimal number can have a point or an exponent];",
    "0b12e3 [<- invalid float: only a decimal number can have a point or an exponent];",
    "0b1f32 1.5e3",
    "r#self [<- invalid raw identifier or lifetime: this name cannot be raw]",
    "r#Self [<- invalid raw identifier or lifetime: this name cannot be raw]",
    "r#super [<- invalid raw identifier or lifetime: this name cannot be raw]",
    "r#crate [<- invalid raw identifier or lifetime: this name cannot be raw]",
    "r#_ [<- invalid raw identifier or lifetime: this name cannot be raw]",
    "'r#self [<- invalid raw identifier or lifetime: this name cannot be raw]",
    "'r#super [<- invalid raw identifier or lifetime: this name cannot be raw]",
    "'r#_ [<- invalid raw identifier or lifetime: this name cannot be raw]",
    "r#as 'r#static r#_a selfr",
    "\"a\"_ [<- invalid literal suffix `_`]",
    "b'a'_ [<- invalid literal suffix `_`]",
    "cr#\"a\"#_ [<- invalid literal suffix `_`]",
    "\"a\"__ 'a'_a 1_ 1.0_ 0b1_",
    "/// a [<- bare CR in a doc comment: a CR must be part of a CRLF]\rb",
    "/** a [<- bare CR in a doc comment: a CR must be part of a CRLF]\rb */",
    "/// a [<- bare CR in a doc comment: a CR must be part of a CRLF]\r\r\n",
    "/** a [<- bare CR in a doc comment: a CR must be part of a CRLF]\r\r\n */",
    "/// a\r\n/** a\r\n*/ // a\rb\n/* a\rb */ /*** a\rb */",
    "--- [<- bare CR in a frontmatter: a CR must be part of a CRLF]\na\rb\n---\n",
    "--- [<- bare CR in a frontmatter: a CR must be part of a CRLF]\na\r\r\nb\n---\n",
    "---\na\r\nb\n---\n",
    "// \u{202e} [<- bidirectional control character: code may be displayed in a different order]",
    "/** \u{2066} */ [<- bidirectional control character: code may be displayed in a different order]",
    "'\u{2069}' [<- bidirectional control character: code may be displayed in a different order]",
    "cr\"\u{202a}\" [<- bidirectional control character: code may be displayed in a different order]",
    "// \u{2029}\u{202f}\u{2065}\u{206a} \\u{202e}",
    "b\"a\u{202e} [<- non-ASCII character in a byte or byte string]\"",
];

/// Returns the output without its messages.
fn text_of(written: &str) -> String {
    let mut parts = written.split(" [<- ");
    let mut text = parts.next().unwrap().to_string();
    for part in parts {
        text += part.split_once(']').unwrap().1;
    }
    text
}

/// Each error has its message, and a valid token has none.
#[test]
fn messages() {
    let hashes = "#".repeat(256);
    let message = "raw string with 256 `#` on each side: at most 255 are allowed";
    let many = format!("r{hashes}\"a\"{hashes} [<- {message}]");
    let dashes = "-".repeat(256);
    let message = "frontmatter fence with 256 dashes: at most 255 are allowed";
    let long = format!("{dashes} [<- {message}]\n{dashes}\n");
    let longest = format!("{0}\n{0}\n", &dashes[1..]);
    for wanted in WRITTEN.into_iter().chain([&*many, &long, &longest]) {
        let (text, mut written) = (text_of(wanted), String::new());
        write_highlighted(Format::Raw, Edition::E2024, &text, &mut written).unwrap();
        assert_eq!(written, wanted);
    }
}
