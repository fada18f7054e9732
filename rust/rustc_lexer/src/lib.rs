//! A lexer for Rust source, with the names, types and signatures of the compiler's own `rustc_lexer`.
//!
//! Text goes in, tokens come out. A token is a [`TokenKind`] and a length in bytes. Lexing never fails: a malformed
//! token, such as an unterminated comment, records its error.
//!
//! ```
//! use rustc_lexer::{tokenize, FrontmatterAllowed, TokenKind};
//!
//! let kinds = tokenize("a+b", FrontmatterAllowed::No).map(|token| token.kind);
//! assert!(kinds.eq([TokenKind::Ident, TokenKind::Plus, TokenKind::Ident]));
//! ```
//!
//! | You want | Use |
//! |---|---|
//! | the tokens of a text, in the 2024 edition | [`tokenize`] |
//! | the tokens of a document, which is a whole file, in an edition | [`tokenize_document`] |
//! | the tokens of a fragment, in an edition | [`tokenize_in`]; [`tokenize_as`] also allows a frontmatter |
//! | tokens with their offsets and texts | [`Tokens::pieces`] |
//! | many tokens at once | [`Tokens::fill`], `Tokens::into_vec` |
//! | one token after another, with lookahead | [`Cursor`] |
//! | the tokens of a file while it is edited | [`LexedDocument`], or [`LexedText`] for a fragment |
//! | several edits at once, for example to rename a variable | [`LexedText::edit_batch`] |
//! | incremental lexing with your own data structures | the module [`incremental`] |
//! | the final tokens of a text that is still arriving | [`LexedText::settled`]; [`settled_in`] lexes the whole text |
//! | to print tokens so that they lex back to themselves | [`JoinedText`] |
//! | to check preconditions | [`fits`], [`starts_raw`] |
//!
//! # What is proved
//!
//! The module `generated` is generated from a source in Rattle, which is Rust with contracts, by deleting the
//! contracts. It is proved for that source that, for every text under 4 GiB, it returns the only tokens that a grammar
//! of Rust allows. The rest of this crate is hand-written: its functions check the preconditions of the contracts, and
//! where the tokens of a [`Stepper`] end. The module [`incremental`] cannot check that lists and heads belong to the
//! old text; if they do not, the new tokens may be wrong, or a call may panic. `docs/GENERATED.md` in the repository
//! lists what is claimed and what is trusted.
#![cfg_attr(
    feature = "alloc",
    doc = "\n# A program that keeps the tokens of a file\n\n```no_run"
)]
#![cfg_attr(feature = "alloc", doc = include_str!("../examples/typing.rs"))]
#![cfg_attr(feature = "alloc", doc = "```")]
#![no_std]
#![cfg_attr(docsrs, feature(doc_cfg))]
#![forbid(unsafe_code)]

#[cfg(feature = "alloc")]
extern crate alloc;
#[cfg(test)]
extern crate std;

#[cfg(feature = "alloc")]
mod checked;
mod classes;
mod cursor;
#[cfg(feature = "alloc")]
mod edit_error;
#[cfg(feature = "alloc")]
mod extent;
/// The proved source without its contracts, generated from `crates/rustc_lexer`.
///
/// This is for packages that are generated in the same way, such as `rustc_lexer_errors` and the programs. It is
/// proved that their calls meet the preconditions. Nothing here checks preconditions: if they are not met, results are
/// arbitrary, or a call panics. Everything here can change with the source. Other callers use the functions at the
/// crate's root.
// Only contracts use some of its imports, and Clippy would write some of it differently.
#[allow(unused_imports, dead_code)]
#[allow(
    clippy::missing_errors_doc,
    clippy::missing_panics_doc,
    clippy::must_use_candidate
)]
#[allow(clippy::manual_map)]
#[allow(clippy::len_without_is_empty)]
#[doc(hidden)]
pub mod generated;
pub mod incremental;
#[cfg(feature = "alloc")]
mod joined_text;
#[cfg(feature = "alloc")]
mod lexed;
mod pieces;
mod tokens;
mod traits;

#[cfg(feature = "alloc")]
pub use checked::Checked;
pub use classes::{
    fits, is_horizontal_whitespace, is_id_continue, is_id_start, is_ident, is_whitespace,
    starts_raw,
};
pub use cursor::Cursor;
#[cfg(feature = "alloc")]
pub use edit_error::{EditError, FromStringError};
#[cfg(feature = "alloc")]
pub use extent::{Document, Extent, Fragment};
#[cfg(feature = "alloc")]
#[doc(inline)]
pub use generated::JoinError;
#[doc(alias("offset", "range", "span"))]
#[doc(inline)]
pub use generated::Piece;
#[doc(alias("highlight", "keyword"))]
#[doc(inline)]
pub use generated::TokenKind;
#[doc(alias("offset", "position"))]
#[doc(inline)]
pub use generated::TokenStart;
#[doc(inline)]
pub use generated::{
    Base, DocStyle, Edition, FromToken, FrontmatterAllowed, GuardedStr, LiteralKind, RawStrError,
    Relexed, Stepper, Steps, Token, UnknownEdition,
};
#[cfg(feature = "alloc")]
#[doc(inline)]
pub use generated::{Edit, EditSequenceError, EditStop, Pieces};
#[cfg(feature = "alloc")]
pub use joined_text::JoinedText;
#[cfg(feature = "alloc")]
#[doc(alias("edit", "incremental", "relex", "reparse"))]
pub use lexed::{Lexed, LexedDocument, LexedText};
// Names that links in the documentation need: some are in other modules, and some are hidden without `alloc`.
#[cfg(all(doc, not(feature = "alloc")))]
use generated::{JoinedText, LexedDocument, LexedText, Pieces};
#[cfg(doc)]
use incremental::{Head, Relexer};
pub use pieces::TokenPieces;
use rattle_support as support;
pub use rattle_support::AllocError;
pub use tokens::{EditionTokens, Tokens, tokenize, tokenize_as, tokenize_document, tokenize_in};
/// The Unicode version of the tables that decide which characters start or continue an identifier.
///
/// These are the tables of the `unicode-ident` in this build. The table of emoji is part of this crate, and has Unicode
/// version 15.
///
/// ```
/// assert!(rustc_lexer::UNICODE_VERSION.0 >= 12);
/// ```
#[doc(inline)]
pub use unicode_ident::UNICODE_VERSION;

// Functions of this crate are `inline` only in release builds: a program that optimizes only its dependencies would
// compile an inlined function in its own crate, without optimization.

/// Returns the text. Panics if it is too long.
#[cfg_attr(not(debug_assertions), inline(always))]
#[track_caller]
fn fitting(text: &str) -> &str {
    assert!(fits(text), "the text has more than u32::MAX bytes");
    text
}

/// Returns the length of the shebang line at the start of a text in bytes, without its line ending, or `None` if there
/// is none.
///
/// Rust Reference: [shebang removal](https://doc.rust-lang.org/reference/input-format.html#shebang-removal).
///
/// ```
/// use rustc_lexer::strip_shebang;
///
/// assert_eq!(strip_shebang("#!/bin/sh\nfn main() {}"), Some(9));
/// assert_eq!(strip_shebang("#![no_std]"), None);
/// ```
///
/// # Panics
///
/// Panics if the text has more than `u32::MAX` bytes.
#[must_use]
#[track_caller]
pub fn strip_shebang(input: &str) -> Option<usize> {
    generated::strip_shebang(fitting(input))
}

/// Validates the raw string at the start of a text. `prefix_len` is the length of its prefix in characters, including
/// the `r`.
///
/// ```
/// use rustc_lexer::{validate_raw_str, RawStrError};
///
/// assert_eq!(validate_raw_str("br\"a\"", 2), Ok(()));
/// let error = RawStrError::NoTerminator { expected: 1, found: 0, possible_terminator_offset: None };
/// assert_eq!(validate_raw_str("r#\"a\"", 1), Err(error));
/// ```
///
/// # Panics
///
/// Panics if the text has more than `u32::MAX` bytes, or if [`starts_raw`] is false.
///
/// # Errors
///
/// Returns an error if the raw string is malformed: another character instead of the opening quote, no closing quote
/// with enough hashes, or too many hashes.
#[track_caller]
pub fn validate_raw_str(input: &str, prefix_len: u32) -> Result<(), RawStrError> {
    let text = fitting(input);
    assert!(
        starts_raw(text, prefix_len),
        "character number `prefix_len`, from 1, is not `r`"
    );
    generated::validate_raw_str(text, prefix_len)
}

/// Returns whether the tokens of a text are the tokens of its part before `at`, followed by the tokens of its part
/// after `at`.
///
/// Use it to find out whether two pieces of text in your own buffer would merge into one token.
///
/// ```
/// use rustc_lexer::{Edition, is_token_boundary};
///
/// assert!(is_token_boundary("a+b", 1, Edition::E2024));
/// assert!(!is_token_boundary("a1", 1, Edition::E2024));
/// assert!(is_token_boundary("0..2", 1, Edition::E2024) && !is_token_boundary("0..2", 2, Edition::E2024));
/// ```
///
/// # Panics
///
/// Panics if the text has more than `u32::MAX` bytes, or if `at` is not on a char boundary.
#[must_use]
#[track_caller]
pub fn is_token_boundary(text: &str, at: usize, edition: Edition) -> bool {
    let text = fitting(text);
    assert!(text.is_char_boundary(at), "`at` is not on a char boundary");
    generated::is_token_boundary(text, at, edition)
}

/// Returns the byte offset up to which the tokens of a fragment are final, whatever is appended, or 0 if none are. The
/// text is lexed in the newest edition.
///
/// Every call lexes the text from its start. If a text arrives in chunks, pass only the part that is not final yet.
/// Then only an unterminated token, such as a long comment, is re-lexed with every chunk.
///
/// ```
/// use rustc_lexer::settled;
///
/// assert_eq!(settled("let value = x"), 11);
/// ```
///
/// # Panics
///
/// Panics if the text has more than `u32::MAX` bytes.
#[must_use]
#[track_caller]
pub fn settled(input: &str) -> usize {
    generated::settled(fitting(input))
}

/// Returns the byte offset up to which the tokens of a fragment are final, like [`settled`], in the given edition.
///
/// ```
/// use rustc_lexer::{Edition, settled_in};
///
/// assert_eq!(settled_in("##a", Edition::E2021), 1);
/// assert_eq!(settled_in("##a", Edition::E2024), 0);
/// ```
///
/// # Panics
///
/// Panics if the text has more than `u32::MAX` bytes.
#[must_use]
#[track_caller]
pub fn settled_in(text: &str, edition: Edition) -> usize {
    generated::settled_in(fitting(text), edition)
}

// The program of the README.
#[cfg(doctest)]
#[doc = include_str!("../README.md")]
mod readme {}

// Callers that must not compile.
#[cfg(all(doctest, feature = "alloc"))]
#[doc = include_str!("../tests/refused.md")]
mod refused {}
