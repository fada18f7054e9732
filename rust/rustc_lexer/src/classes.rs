//! Classes of characters, and tests of texts.

use crate::generated;

/// Returns whether the character is whitespace in Rust: one of the eleven characters of `Pattern_White_Space`, to which
/// no version of Unicode adds any.
///
/// Rust Reference: [whitespace](https://doc.rust-lang.org/reference/whitespace.html).
///
/// ```
/// use rustc_lexer::is_whitespace;
///
/// assert!(is_whitespace('\n') && is_whitespace('\u{2028}'));
/// assert!(!is_whitespace('\u{a0}'));
/// ```
#[cfg_attr(not(debug_assertions), inline)]
#[must_use]
pub fn is_whitespace(c: char) -> bool {
    generated::is_whitespace(c)
}

/// Returns whether the character is horizontal whitespace: a tab or a space. The lines of the fences of a frontmatter
/// can contain no other whitespace.
///
/// Rust RFC 3503: [frontmatter](https://rust-lang.github.io/rfcs/3503-frontmatter.html).
///
/// ```
/// use rustc_lexer::is_horizontal_whitespace;
///
/// assert!(is_horizontal_whitespace('\t') && !is_horizontal_whitespace('\n'));
/// ```
#[cfg_attr(not(debug_assertions), inline)]
#[must_use]
pub fn is_horizontal_whitespace(c: char) -> bool {
    generated::is_horizontal_whitespace(c)
}

/// Returns whether an identifier can start with the character: `_`, or a character with the property `XID_Start` in
/// [`UNICODE_VERSION`](crate::UNICODE_VERSION).
///
/// Rust Reference: [identifiers](https://doc.rust-lang.org/reference/identifiers.html).
///
/// ```
/// use rustc_lexer::is_id_start;
///
/// assert!(is_id_start('_') && is_id_start('é') && !is_id_start('1'));
/// ```
#[cfg_attr(not(debug_assertions), inline)]
#[must_use]
pub fn is_id_start(c: char) -> bool {
    generated::is_id_start(c)
}

/// Returns whether an identifier can continue with the character, which has the property `XID_Continue` in
/// [`UNICODE_VERSION`](crate::UNICODE_VERSION).
///
/// Rust Reference: [identifiers](https://doc.rust-lang.org/reference/identifiers.html).
///
/// ```
/// use rustc_lexer::is_id_continue;
///
/// assert!(is_id_continue('1') && !is_id_continue('-'));
/// ```
#[cfg_attr(not(debug_assertions), inline)]
#[must_use]
pub fn is_id_continue(c: char) -> bool {
    generated::is_id_continue(c)
}

/// Returns whether the text is an identifier or a keyword: a character that can start one, followed by characters that
/// can continue one.
///
/// Rust Reference: [identifiers](https://doc.rust-lang.org/reference/identifiers.html).
///
/// ```
/// use rustc_lexer::is_ident;
///
/// assert!(is_ident("a1") && is_ident("fn") && !is_ident("1a") && !is_ident(""));
/// ```
#[cfg_attr(not(debug_assertions), inline)]
#[must_use]
pub fn is_ident(string: &str) -> bool {
    generated::is_ident(string)
}

/// Returns whether the text has at most `u32::MAX` bytes, so that all lengths fit in a `u32`. Functions that lex a text
/// panic if it is longer.
///
/// ```
/// assert!(rustc_lexer::fits("fn main() {}"));
/// ```
#[cfg_attr(not(debug_assertions), inline)]
#[must_use]
pub fn fits(text: &str) -> bool {
    generated::fits(text)
}

/// Returns whether [`validate_raw_str`](crate::validate_raw_str) can be called: `prefix_len` is at least 1, and the
/// last of the first `prefix_len` characters is `r`.
///
/// ```
/// use rustc_lexer::starts_raw;
///
/// assert!(starts_raw("br\"a\"", 2) && !starts_raw("br\"a\"", 1));
/// ```
#[cfg_attr(not(debug_assertions), inline)]
#[must_use]
pub fn starts_raw(input: &str, prefix_len: u32) -> bool {
    generated::starts_raw(input, prefix_len)
}
