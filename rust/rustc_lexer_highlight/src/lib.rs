//! Writes Rust source with its tokens highlighted: with HTML tags, with terminal colours, or only with messages about
//! malformed tokens.
//!
//! ```
//! use rustc_lexer_highlight::{Edition, Format, write_highlighted};
//!
//! let mut page = String::new();
//! write_highlighted(Format::Html, Edition::E2024, "let x = 'a", &mut page).unwrap();
//! assert_eq!(
//!     page,
//!     "<span class=\"keyword\">let</span> x = \
//!      <span class=\"lifetime\">'a</span>"
//! );
//! ```
//!
//! To display tokens in another way, call [`class_of`] and [`keyword_kind`] for each token. The crate
//! `rustc_lexer_errors` has the errors of a token and the contents of a literal.
//!
//! The crate does not allocate and does not need `std`.
//!
//! The modules in `generated` are generated from a verified source in Rattle, which is Rust with contracts, by deleting
//! the contracts. The rest is hand-written. `docs/GENERATED.md` in the repository lists the guarantees and the trusted
//! computing base.

#![no_std]
#![forbid(unsafe_code)]

/// The proved source without its contracts, generated from `crates/rustc_lexer_highlight`.
///
/// Only for packages that are generated in the same way, like the C library: these functions do not
/// check their preconditions, and those callers are proved to meet them. The functions can change with the source.
/// Other callers use the functions at the crate's root.
// Only contracts use some of its imports and variables.
#[allow(missing_docs, unused_imports, unused_variables, dead_code)]
// The prover needs a `while let` for a loop over the rest of an iterator, and two comparisons for a range.
#[allow(clippy::manual_range_contains, clippy::while_let_on_iterator)]
#[allow(
    clippy::missing_errors_doc,
    clippy::missing_panics_doc,
    clippy::must_use_candidate
)]
#[doc(hidden)]
pub mod generated;
#[cfg(test)]
mod tests;

#[doc(inline)]
pub use generated::{Class, Format, KeywordKind, class_of, keyword_kind};
pub use rustc_lexer::Edition;

use core::fmt;

/// A style sheet for the HTML that [`write_highlighted`] writes.
///
/// It has light and dark colours, which follow the reader's preference, and shows the message of each error in a frame.
/// All rules apply only inside elements with the class `rust-code`, so the rest of a page keeps its style. Each colour
/// is a custom property of these elements, such as `--keyword`, which your own style sheet can set after this one.
///
/// Fonts, margins and line breaks are left to the page.
///
/// # Examples
///
/// ```
/// use rustc_lexer_highlight::{Edition, Format, STYLE_SHEET, write_highlighted};
///
/// // A browser drops a newline right after `<pre>`.
/// let mut page = format!("<style>\n{STYLE_SHEET}</style>\n<pre class=\"rust-code\">\n");
/// write_highlighted(Format::Html, Edition::E2024, "fn", &mut page).unwrap();
/// page.push_str("</pre>\n");
///
/// assert!(page.contains("\n.rust-code .keyword { color: var(--keyword);"));
/// assert!(page.ends_with("<pre class=\"rust-code\">\n<span class=\"keyword\">fn</span></pre>\n"));
/// ```
pub const STYLE_SHEET: &str = include_str!("style.css");

/// Returns the text, or panics if it is too long.
#[track_caller]
fn fitting(text: &str) -> &str {
    assert!(
        rustc_lexer::fits(text),
        "the text has more than u32::MAX bytes"
    );
    text
}

/// Writes a document in an edition with its tokens highlighted, and with a message at each malformed token.
///
/// A shebang line is highlighted as a comment. The document can start with a frontmatter, and with a byte order mark,
/// which is written as it is.
///
/// In HTML, U+0000 and carriage returns are written as entities. In the other formats except [`Format::Raw`], symbols
/// such as `␛` replace control characters other than tabs and line endings, since a terminal would obey them.
///
/// # Examples
///
/// ```
/// use rustc_lexer_highlight::{Edition, Format, write_highlighted};
///
/// let mut page = String::new();
/// write_highlighted(Format::Html, Edition::E2024, "#!/bin/sh\nfn", &mut page).unwrap();
/// assert_eq!(
///     page,
///     "<span class=\"comment\">#!/bin/sh</span>\n<span class=\"keyword\">fn</span>"
/// );
/// ```
///
/// # Panics
///
/// Panics if the text has more than `u32::MAX` bytes.
///
/// # Errors
///
/// Returns the error of the output, which then contains a prefix of the highlighted text.
#[doc(alias = "highlight")]
#[track_caller]
pub fn write_highlighted<W: fmt::Write>(
    format: Format,
    edition: Edition,
    text: &str,
    output: &mut W,
) -> fmt::Result {
    generated::write_highlighted(format, edition, fitting(text), output)
}

/// Writes the first `count` tokens of a fragment in an edition with highlighting, or all tokens if it has fewer.
///
/// A frontmatter or a shebang line is lexed as other tokens. A token depends on nothing before it and on at most two
/// characters after it, so you can use this function to write the visible part of a long text.
///
/// # Examples
///
/// ```
/// use rustc_lexer_highlight::{Edition, Format, write_first_tokens};
///
/// let mut seen = String::new();
/// write_first_tokens(Format::Html, Edition::E2024, 2, "a < b", &mut seen).unwrap();
/// assert_eq!(seen, "a ");
/// write_first_tokens(Format::Html, Edition::E2024, 9, "< b", &mut seen).unwrap();
/// assert_eq!(seen, "a &lt; b");
/// ```
///
/// # Panics
///
/// Panics if the text has more than `u32::MAX` bytes.
///
/// # Errors
///
/// Returns the error of the output, which then contains a prefix of the highlighted text.
#[doc(alias = "highlight")]
#[track_caller]
pub fn write_first_tokens<W: fmt::Write>(
    format: Format,
    edition: Edition,
    count: usize,
    text: &str,
    output: &mut W,
) -> fmt::Result {
    generated::write_first_tokens(format, edition, count, fitting(text), output)
}

// The program of the README.
#[cfg(doctest)]
#[doc = include_str!("../README.md")]
mod readme {}
