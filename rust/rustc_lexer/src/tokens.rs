//! The iterator over the tokens of a text.

use crate::{Edition, FromToken, FrontmatterAllowed, Token, TokenPieces, fitting, generated};
#[cfg(feature = "alloc")]
use alloc::vec::Vec;
use core::fmt;
use core::iter::FusedIterator;

/// Returns an iterator over the tokens of a text, lexed in the newest edition.
///
/// The lengths of the tokens add up to the length of the text, and every token ends on a char boundary.
///
/// ```
/// use rustc_lexer::{tokenize, FrontmatterAllowed, TokenKind};
///
/// let pieces = tokenize("let x = 1;", FrontmatterAllowed::No).pieces();
/// let idents = pieces.filter(|piece| piece.token.kind == TokenKind::Ident);
/// assert!(idents.map(|piece| piece.text).eq(["let", "x"]));
/// ```
///
/// # Panics
///
/// Panics if the text is longer than `u32::MAX` bytes.
#[cfg_attr(not(debug_assertions), inline)]
#[track_caller]
pub fn tokenize(input: &str, frontmatter_allowed: FrontmatterAllowed) -> Tokens<'_> {
    tokenize_as(input, frontmatter_allowed, Edition::NEWEST)
}

/// An iterator over the tokens of a text.
///
/// It is returned by [`tokenize`], [`tokenize_in`], [`tokenize_as`] and [`tokenize_document`].
#[derive(Clone)]
#[must_use = "iterators are lazy and do nothing unless consumed"]
pub struct Tokens<'a> {
    left: generated::Tokens<'a>,
    /// The length of the whole text. Offsets are relative to its start.
    pub(crate) len: usize,
}

impl<'a> Tokens<'a> {
    /// Returns the text that has not been lexed yet.
    ///
    /// ```
    /// use rustc_lexer::{tokenize, FrontmatterAllowed};
    ///
    /// let mut tokens = tokenize("let x", FrontmatterAllowed::No);
    /// tokens.next();
    /// assert_eq!(tokens.as_str(), " x");
    /// ```
    #[cfg_attr(not(debug_assertions), inline)]
    #[must_use]
    pub fn as_str(&self) -> &'a str {
        self.left.as_str()
    }

    /// Returns the byte offset of the next token in the text, or the text's length if no token is left.
    ///
    /// ```
    /// use rustc_lexer::{Edition, tokenize_document};
    ///
    /// let mut tokens = tokenize_document("#!/bin/sh\nfn", Edition::E2024);
    /// // The shebang line is not a token.
    /// assert_eq!(tokens.offset(), 9);
    /// tokens.next();
    /// assert_eq!(tokens.offset(), 10);
    /// ```
    #[doc(alias("position", "start"))]
    #[cfg_attr(not(debug_assertions), inline)]
    #[must_use]
    pub fn offset(&self) -> usize {
        self.len - self.as_str().len()
    }

    /// Returns an iterator over the remaining pieces: tokens with their offsets and texts.
    ///
    /// ```
    /// use rustc_lexer::{Edition, tokenize_document};
    ///
    /// let pieces = tokenize_document("#!/bin/sh\nfn", Edition::E2024).pieces();
    /// assert!(pieces.map(|piece| (piece.start, piece.text)).eq([(9, "\n"), (10, "fn")]));
    /// ```
    #[doc(alias("offset", "span", "spanned"))]
    #[cfg_attr(not(debug_assertions), inline)]
    pub fn pieces(self) -> TokenPieces<'a> {
        TokenPieces {
            rest: self.as_str(),
            tokens: self,
        }
    }

    /// Returns whether the remaining text may start with a frontmatter.
    ///
    /// ```
    /// use rustc_lexer::{tokenize, FrontmatterAllowed};
    ///
    /// let mut tokens = tokenize("\na", FrontmatterAllowed::Yes);
    /// tokens.next();
    /// assert_eq!(tokens.frontmatter_allowed(), FrontmatterAllowed::Yes);
    /// tokens.next();
    /// assert_eq!(tokens.frontmatter_allowed(), FrontmatterAllowed::No);
    /// ```
    #[cfg_attr(not(debug_assertions), inline)]
    #[must_use]
    pub fn frontmatter_allowed(&self) -> FrontmatterAllowed {
        self.left.frontmatter_allowed()
    }

    /// Writes the next tokens into the buffer until it is full or no token is left, and returns how many were written.
    ///
    /// These are the tokens that repeated calls of `next` would return.
    ///
    /// ```
    /// use rustc_lexer::{tokenize, FrontmatterAllowed, Token, TokenKind};
    ///
    /// let mut buffer = [Token { kind: TokenKind::Eof, len: 0 }; 256];
    /// let mut tokens = tokenize("let x = 1;", FrontmatterAllowed::No);
    /// let mut spaces = 0;
    /// while !tokens.as_str().is_empty() {
    ///     let count = tokens.fill(&mut buffer);
    ///     for token in &buffer[..count] {
    ///         spaces += usize::from(token.kind == TokenKind::Whitespace);
    ///     }
    /// }
    /// assert_eq!(spaces, 3);
    /// ```
    #[cfg_attr(not(debug_assertions), inline)]
    pub fn fill<R: FromToken>(&mut self, buffer: &mut [R]) -> usize {
        self.left.fill(buffer)
    }

    /// Collects the remaining tokens into a vector.
    ///
    /// ```
    /// use rustc_lexer::{tokenize, FrontmatterAllowed};
    ///
    /// assert_eq!(tokenize("let x;", FrontmatterAllowed::No).into_vec().len(), 4);
    /// ```
    #[cfg(feature = "alloc")]
    #[must_use]
    pub fn into_vec(self) -> Vec<Token> {
        // The copy stays in registers, and `next_classified` is a fast path for the most common tokens.
        let mut tokens = self.left.copy_unclassified();
        let mut list = Vec::new();
        loop {
            if let Some(token) = tokens.next_classified() {
                list.push(token);
                continue;
            }
            let Some(token) = tokens.next() else {
                return list;
            };
            list.push(token);
        }
    }
}

impl Iterator for Tokens<'_> {
    type Item = Token;

    #[cfg_attr(not(debug_assertions), inline(always))]
    fn next(&mut self) -> Option<Token> {
        self.left.next()
    }

    #[cfg_attr(not(debug_assertions), inline)]
    fn size_hint(&self) -> (usize, Option<usize>) {
        token_count_bounds(self.as_str())
    }
}

impl FusedIterator for Tokens<'_> {}

/// Shows the text that has not been lexed yet.
impl fmt::Debug for Tokens<'_> {
    fn fmt(&self, f: &mut fmt::Formatter<'_>) -> fmt::Result {
        f.debug_tuple("Tokens").field(&self.as_str()).finish()
    }
}

/// Returns an iterator over the tokens of a fragment, lexed in the given edition.
///
/// No frontmatter is allowed. With `Edition::NEWEST`, this is [`tokenize`] with `FrontmatterAllowed::No`.
///
/// ```
/// use rustc_lexer::{tokenize_in, Edition, TokenKind};
///
/// let first = |edition| tokenize_in("##", edition).next().map(|token| token.kind);
/// assert_eq!(first(Edition::E2021), Some(TokenKind::Pound));
/// assert_eq!(first(Edition::E2024), Some(TokenKind::GuardedStrPrefix));
/// ```
///
/// # Panics
///
/// Panics if the text is longer than `u32::MAX` bytes.
#[cfg_attr(not(debug_assertions), inline)]
#[track_caller]
pub fn tokenize_in(text: &str, edition: Edition) -> EditionTokens<'_> {
    tokenize_as(text, FrontmatterAllowed::No, edition)
}

/// An alias of [`Tokens`], the return type of [`tokenize_in`].
pub type EditionTokens<'a> = Tokens<'a>;

/// Returns an iterator over the tokens of a text, lexed in the given edition, with or without a frontmatter.
///
/// ```
/// use rustc_lexer::{tokenize_as, Edition, FrontmatterAllowed};
///
/// let script = "---\nedition = 2018\n---\n##";
/// let lens = tokenize_as(script, FrontmatterAllowed::Yes, Edition::E2018).map(|token| token.len);
/// assert!(lens.eq([22, 1, 1, 1]));
/// ```
///
/// # Panics
///
/// Panics if the text is longer than `u32::MAX` bytes.
#[cfg_attr(not(debug_assertions), inline)]
#[track_caller]
pub fn tokenize_as(
    text: &str,
    frontmatter_allowed: FrontmatterAllowed,
    edition: Edition,
) -> Tokens<'_> {
    let left = generated::tokenize_as(fitting(text), frontmatter_allowed, edition);
    let len = text.len();
    Tokens { left, len }
}

/// Returns an iterator over the tokens of a whole file, lexed in the given edition.
///
/// A file may start with a byte order mark (U+FEFF), then a shebang line, then a frontmatter. The mark and the shebang
/// line are not tokens, so the first token starts after them. Offsets are still in bytes from the start of the file:
///
/// ```
/// use rustc_lexer::{tokenize_document, Edition};
///
/// let text = "#!/bin/sh\n---\n[package]\n---\nfn main() {}";
/// let tokens = tokenize_document(text, Edition::NEWEST);
/// assert_eq!(tokens.offset(), 9);
/// let texts = tokens.pieces().map(|piece| piece.text);
/// assert!(texts.take(4).eq(["\n", "---\n[package]\n---", "\n", "fn"]));
///
/// assert_eq!(tokenize_document("\u{feff}fn main() {}", Edition::NEWEST).offset(), 3);
/// ```
///
/// # Panics
///
/// Panics if the text is longer than `u32::MAX` bytes.
#[cfg_attr(not(debug_assertions), inline)]
#[track_caller]
pub fn tokenize_document(text: &str, edition: Edition) -> Tokens<'_> {
    let left = generated::tokenize_document(fitting(text), edition);
    let len = text.len();
    Tokens { left, len }
}

/// Returns bounds on the number of tokens in a text. No token is empty.
fn token_count_bounds(text: &str) -> (usize, Option<usize>) {
    (usize::from(!text.is_empty()), Some(text.len()))
}
