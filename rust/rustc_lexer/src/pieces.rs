//! Tokens with their offsets and texts.

#[cfg(feature = "alloc")]
use crate::Pieces;
use crate::{Piece, Tokens};
use core::fmt;
use core::iter::FusedIterator;
use core::ops::Range;

/// An iterator over the tokens of a text with their offsets and texts, created by [`Tokens::pieces`].
#[derive(Clone)]
#[must_use = "iterators are lazy and do nothing unless consumed"]
pub struct TokenPieces<'a> {
    pub(crate) tokens: Tokens<'a>,
    pub(crate) rest: &'a str,
}

impl<'a> Iterator for TokenPieces<'a> {
    type Item = Piece<'a>;

    #[cfg_attr(not(debug_assertions), inline)]
    fn next(&mut self) -> Option<Piece<'a>> {
        let token = self.tokens.next()?;
        let start = (self.tokens.len - self.rest.len()) as u32;
        let (text, rest) = self.rest.split_at(token.len as usize);
        self.rest = rest;
        Some(Piece { start, token, text })
    }

    #[cfg_attr(not(debug_assertions), inline)]
    fn size_hint(&self) -> (usize, Option<usize>) {
        self.tokens.size_hint()
    }
}

impl FusedIterator for TokenPieces<'_> {}

/// Shows the remaining text.
impl fmt::Debug for TokenPieces<'_> {
    fn fmt(&self, f: &mut fmt::Formatter<'_>) -> fmt::Result {
        f.debug_tuple("TokenPieces").field(&self.rest).finish()
    }
}

#[cfg(feature = "alloc")]
impl FusedIterator for Pieces<'_> {}

/// Shows how many pieces are left.
#[cfg(feature = "alloc")]
impl fmt::Debug for Pieces<'_> {
    fn fmt(&self, f: &mut fmt::Formatter<'_>) -> fmt::Result {
        f.debug_struct("Pieces")
            .field("left", &self.len())
            .finish_non_exhaustive()
    }
}

impl Piece<'_> {
    /// Returns the byte range of the token in the text.
    ///
    /// ```
    /// use rustc_lexer::{FrontmatterAllowed, tokenize};
    ///
    /// let text = "let abc;";
    /// let piece = tokenize(text, FrontmatterAllowed::No).pieces().nth(2).unwrap();
    /// assert_eq!(piece.range(), 4..7);
    /// assert_eq!(&text[piece.range()], piece.text);
    /// ```
    #[doc(alias("end", "offset", "span"))]
    #[cfg_attr(not(debug_assertions), inline)]
    #[must_use]
    pub fn range(&self) -> Range<usize> {
        let start = self.start as usize;
        start..start + self.token.len as usize
    }
}
