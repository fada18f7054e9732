//! A cursor over a text.

use crate::{FrontmatterAllowed, GuardedStr, Token, fitting, generated};
use core::fmt;

/// A cursor that returns the tokens of a text one by one, in [`Edition::NEWEST`](crate::Edition::NEWEST).
///
/// ```
/// use rustc_lexer::{Cursor, FrontmatterAllowed, TokenKind};
///
/// let mut cursor = Cursor::new("a + b", FrontmatterAllowed::No);
/// while cursor.advance_token().kind != TokenKind::Plus {}
/// assert_eq!(cursor.as_str(), " b");
/// ```
#[derive(Clone)]
pub struct Cursor<'a>(generated::Cursor<'a>);

impl<'a> Cursor<'a> {
    /// Creates a cursor at the start of a text.
    ///
    /// ```
    /// use rustc_lexer::{Cursor, FrontmatterAllowed};
    ///
    /// assert_eq!(Cursor::new("a b", FrontmatterAllowed::No).advance_token().len, 1);
    /// ```
    ///
    /// # Panics
    ///
    /// Panics if the text has more than `u32::MAX` bytes.
    #[cfg_attr(not(debug_assertions), inline)]
    #[must_use]
    #[track_caller]
    pub fn new(input: &'a str, frontmatter_allowed: FrontmatterAllowed) -> Cursor<'a> {
        Cursor(generated::Cursor::new(fitting(input), frontmatter_allowed))
    }

    /// Returns the remaining text.
    ///
    /// ```
    /// use rustc_lexer::{Cursor, FrontmatterAllowed};
    ///
    /// let mut cursor = Cursor::new("let x", FrontmatterAllowed::No);
    /// cursor.advance_token();
    /// assert_eq!(cursor.as_str(), " x");
    /// ```
    #[cfg_attr(not(debug_assertions), inline)]
    #[must_use]
    pub fn as_str(&self) -> &'a str {
        self.0.as_str()
    }

    /// Returns the next character without consuming it, or U+0000 at the end of the text.
    ///
    /// ```
    /// use rustc_lexer::{Cursor, FrontmatterAllowed};
    ///
    /// assert_eq!(Cursor::new("é", FrontmatterAllowed::No).first(), 'é');
    /// ```
    #[cfg_attr(not(debug_assertions), inline)]
    #[must_use]
    pub fn first(&self) -> char {
        self.0.first()
    }

    /// Returns the character after the next two without consuming any, or U+0000 if there is none.
    ///
    /// ```
    /// use rustc_lexer::{Cursor, FrontmatterAllowed};
    ///
    /// assert_eq!(Cursor::new("abc", FrontmatterAllowed::No).third(), 'c');
    /// ```
    #[cfg_attr(not(debug_assertions), inline)]
    #[must_use]
    pub fn third(&self) -> char {
        self.0.third()
    }

    /// Consumes and returns the next token. At the end of the text, returns `Eof`, of length 0, and changes nothing.
    ///
    /// Hashes that `guarded_double_quoted_string` consumed without finding a string are part of the token.
    ///
    /// ```
    /// use rustc_lexer::{Cursor, FrontmatterAllowed, TokenKind};
    ///
    /// let mut cursor = Cursor::new("x", FrontmatterAllowed::No);
    /// assert_eq!(cursor.advance_token().kind, TokenKind::Ident);
    /// assert_eq!(cursor.advance_token().kind, TokenKind::Eof);
    /// ```
    #[cfg_attr(not(debug_assertions), inline)]
    pub fn advance_token(&mut self) -> Token {
        self.0.advance_token()
    }

    /// Consumes and returns a guarded string, such as `#"a"#`. If there is none, consumes the next hashes, which become
    /// part of the next token, and returns `None`.
    ///
    /// ```
    /// use rustc_lexer::{Cursor, FrontmatterAllowed};
    ///
    /// let mut cursor = Cursor::new("#\"a\"# ##b", FrontmatterAllowed::No);
    /// assert_eq!(cursor.guarded_double_quoted_string().unwrap().token_len, 5);
    /// cursor.advance_token();
    /// assert_eq!(cursor.guarded_double_quoted_string(), None);
    /// assert_eq!(cursor.advance_token().len, 3);
    /// ```
    #[cfg_attr(not(debug_assertions), inline)]
    pub fn guarded_double_quoted_string(&mut self) -> Option<GuardedStr> {
        self.0.guarded_double_quoted_string()
    }
}

/// Shows the remaining text.
impl fmt::Debug for Cursor<'_> {
    fn fmt(&self, f: &mut fmt::Formatter<'_>) -> fmt::Result {
        f.debug_tuple("Cursor").field(&self.as_str()).finish()
    }
}
