//! Finds the errors of malformed Rust tokens, with a message for each, and the contents of literals and doc comments.
//!
//! ```
//! use rustc_lexer::{Edition, tokenize_document};
//! use rustc_lexer_errors::token_error;
//!
//! let text = "0x";
//! let token = tokenize_document(text, Edition::E2024).next().unwrap();
//! let error = token_error(token.kind, text, Edition::E2024).unwrap();
//! assert_eq!(error.to_string(), "number has no digits");
//! ```
//!
//! To also find the errors in a literal, pass the text from [`literal_contents`] to [`EscapeErrorsInFile`].
//!
//! The crate does not allocate and does not need `std`.
//!
//! The modules in `generated` are generated from a verified source in Rattle, which is Rust with contracts, by deleting
//! the contracts. The rest is hand-written. `docs/GENERATED.md` in the repository lists the guarantees and the trusted
//! computing base.

#![no_std]
#![deny(missing_docs)]
#![warn(
    clippy::missing_errors_doc,
    clippy::missing_panics_doc,
    clippy::must_use_candidate
)]
#![forbid(unsafe_code)]

/// The proved source without its contracts, generated from `crates/rustc_lexer_errors`.
///
/// Only for packages that are generated in the same way, like `rustc_lexer_highlight`: these functions do not
/// check their preconditions, and those callers are proved to meet them. The functions can change with the source.
/// Other callers use the functions at the crate's root.
// Only contracts use some of its imports and variables.
#[allow(missing_docs, unused_imports, unused_variables, dead_code)]
// The prover needs a `while let` for a loop over the rest of an iterator, and two comparisons for a range.
#[allow(clippy::manual_range_contains, clippy::while_let_on_iterator)]
#[allow(
    clippy::missing_errors_doc,
    clippy::missing_panics_doc,
    clippy::must_use_candidate
)]
#[doc(hidden)]
pub mod generated;

#[doc(inline)]
pub use generated::{EscapeErrorsInFile, TokenError, doc_comment_contents, literal_contents};

use rustc_lexer::{Edition, TokenKind};

/// Returns the text, or panics if it is too long.
#[track_caller]
fn fitting(text: &str) -> &str {
    assert!(
        rustc_lexer::fits(text),
        "the text has more than u32::MAX bytes"
    );
    text
}

/// Returns the error of a token with this kind and text in an edition, or `None` if it has none.
///
/// If a token has two errors, one of them is returned. The kind alone does not show whether a token is valid: for
/// example, an error at the end of a frontmatter is found only in its text.
///
/// Before 2021, `k#a` has no error: it is an identifier, `#` and an identifier. C strings are read as in later
/// editions, although rustc reads the `c` or `cr` in `c"`, `cr"` and `cr#` as an identifier before 2021.
///
/// # Examples
///
/// ```
/// use rustc_lexer::Edition;
/// use rustc_lexer_errors::{TokenError, token_error};
///
/// let text = "---\nname\n";
/// let token = rustc_lexer::tokenize_document(text, Edition::E2024).next().unwrap();
/// let error = token_error(token.kind, text, Edition::E2024).unwrap();
/// assert_eq!(error, TokenError::UnclosedFrontmatter);
/// assert_eq!(
///     error.to_string(),
///     "unclosed frontmatter: missing closing fence"
/// );
///
/// use rustc_lexer::TokenKind;
/// let kind = TokenKind::ForcedKeywordIdent;
/// assert_eq!(token_error(kind, "k#a", Edition::E2018), None);
/// assert_eq!(token_error(kind, "k#a", Edition::E2021), Some(TokenError::UnknownPrefix));
/// ```
///
/// # Panics
///
/// Panics if the text has more than `u32::MAX` bytes.
#[must_use]
#[track_caller]
pub fn token_error(kind: TokenKind, text: &str, edition: Edition) -> Option<TokenError> {
    generated::token_error(kind, fitting(text), edition)
}

// The program of the README.
#[cfg(doctest)]
#[doc = include_str!("../README.md")]
mod readme {}
