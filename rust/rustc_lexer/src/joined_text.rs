//! A writer that keeps adjacent tokens apart.

use crate::Edition;
use crate::edit_error::unwrap_or_panic;
use crate::generated::{self, JoinError};
use crate::support::Global;
use alloc::string::String;
use core::fmt;

/// A text built from pieces that lexes back to the tokens of those pieces, in order. A piece is a token or any other
/// text.
///
/// If the tokens would change, a separator is inserted before the piece: a space, or a newline after a line comment.
/// Nothing else is ever inserted.
///
/// ```
/// use rustc_lexer::JoinedText;
///
/// let pieces = ["let", "x", "=", "0", "..=", "y", ";", "// all", "r", "\"s\"", ";"];
/// let text: JoinedText = pieces.into_iter().collect();
/// assert_eq!(text.as_str(), "let x=0..=y;// all\nr \"s\";");
/// ```
///
/// - **Whitespace** is a piece like any other: push it where you want it. Note that a parser reads `&&` as one
///   operator, although it is two tokens. Push a space between two `&` that are separate operators.
/// - **Pieces are not buffered.** Each piece is written before the next one is known: `0`, `.` and `.` become `0 ..`,
///   since `0.` is a number, while `0` and `..` become `0..`. If the next piece shows that the last one was wrong, such
///   as whitespace after an unterminated token, remove it with [`truncate`](JoinedText::truncate).
/// - **The text is a fragment.** As a document it has other tokens if it starts with a byte order mark (U+FEFF), with
///   `#!` that is not followed by `[`, or with `---`, even after whitespace. Before writing the text at the start of a
///   file, check that it does not start with U+FEFF, that [`strip_shebang`](crate::strip_shebang) returns `None`, and
///   that no token of [`tokenize_document`](crate::tokenize_document) is a `Frontmatter`. If the file has a head, write
///   `text[..Head::find(text).body]`, a newline, and then the joined body: see [`Head`](crate::incremental::Head).
///
/// [`push`](JoinedText::push), `extend` and `collect` panic if [`try_push`](JoinedText::try_push) would return an
/// error.
///
/// This type does not implement [`fmt::Write`], since a value may write itself in parts that are not whole tokens, such
/// as the opening quote of a string. To push a value, push `format!("{value}")`.
#[derive(Clone)]
pub struct JoinedText(generated::JoinedText);

impl JoinedText {
    /// Creates an empty text whose pieces are lexed in the newest edition.
    #[must_use]
    pub fn new() -> JoinedText {
        JoinedText::new_in(Edition::NEWEST)
    }

    /// Creates an empty text whose pieces are lexed in the given edition.
    ///
    /// ```
    /// use rustc_lexer::{Edition, JoinedText};
    ///
    /// let mut text = JoinedText::new_in(Edition::E2018);
    /// text.extend(["k", "#", "a"]);
    /// assert_eq!(text.as_str(), "k# a");
    /// ```
    #[must_use]
    pub fn new_in(edition: Edition) -> JoinedText {
        JoinedText(generated::JoinedText::new(Global, edition))
    }

    /// Appends a piece without changing any token: directly after the text if possible, otherwise after a space, and
    /// otherwise after a newline.
    ///
    /// ```
    /// use rustc_lexer::JoinedText;
    ///
    /// let mut text = JoinedText::new();
    /// text.push("// a");
    /// text.push("fn");
    /// text.push("b");
    /// assert_eq!(text.as_str(), "// a\nfn b");
    /// ```
    ///
    /// # Panics
    ///
    /// Panics if [`try_push`](JoinedText::try_push) would return an error.
    #[track_caller]
    pub fn push(&mut self, piece: impl AsRef<str>) {
        unwrap_or_panic(self.try_push(piece));
    }

    /// Appends a piece, like [`push`](JoinedText::push), or returns an error. On error nothing has changed.
    ///
    /// ```
    /// use rustc_lexer::{JoinError, JoinedText};
    ///
    /// let mut text = JoinedText::new();
    /// text.push("\"open");
    /// assert_eq!(text.try_push("x"), Err(JoinError::Inseparable));
    /// assert_eq!(text.into_string(), "\"open");
    /// ```
    ///
    /// # Errors
    ///
    /// Returns [`JoinError::Inseparable`] only in two cases: the text contains an unterminated token or a malformed raw
    /// string, or the piece starts with whitespace that would become part of the last token. The last token is then
    /// whitespace itself, or a line comment that no newline ends.
    pub fn try_push(&mut self, piece: impl AsRef<str>) -> Result<(), JoinError> {
        self.0.push(piece.as_ref())
    }

    /// Shortens the text to `len` bytes, and so removes the pieces pushed since [`len`](JoinedText::len) was `len`. If
    /// the text is not longer, nothing changes.
    ///
    /// `len` can be any offset at which the text can be split without changing its tokens.
    ///
    /// ```
    /// use rustc_lexer::JoinedText;
    ///
    /// // A formatter collapses two newlines into one, but not here: `b'`, a newline and `'` are a byte literal.
    /// let mut text = JoinedText::new();
    /// text.push("b'");
    /// let len = text.len();
    /// text.push("\n");
    /// if text.try_push("'r").is_err() {
    ///     text.truncate(len);
    ///     text.extend(["\n\n", "'r"]);
    /// }
    /// assert_eq!(text.as_str(), "b'\n\n'r");
    /// ```
    ///
    /// # Panics
    ///
    /// Panics if the text cannot be split at `len`. In that case nothing has changed.
    #[track_caller]
    pub fn truncate(&mut self, len: usize) {
        let cuts = len >= self.len() || self.0.truncate(len);
        assert!(cuts, "the text does not split into tokens at {len}");
    }

    /// Returns the text.
    #[must_use]
    pub fn as_str(&self) -> &str {
        self.0.as_str()
    }

    /// Returns the length of the text in bytes.
    #[must_use]
    pub fn len(&self) -> usize {
        self.as_str().len()
    }

    /// Returns whether the text is empty.
    #[must_use]
    pub fn is_empty(&self) -> bool {
        self.as_str().is_empty()
    }

    /// Returns the edition in which the pieces are lexed.
    #[must_use]
    pub fn edition(&self) -> Edition {
        self.0.edition()
    }

    /// Returns the text, without copying it.
    #[must_use]
    pub fn into_string(self) -> String {
        self.0.into_string().into()
    }
}

impl AsRef<str> for JoinedText {
    fn as_ref(&self) -> &str {
        self.as_str()
    }
}

impl fmt::Display for JoinedText {
    fn fmt(&self, f: &mut fmt::Formatter<'_>) -> fmt::Result {
        self.as_str().fmt(f)
    }
}

/// Two are equal if their texts and editions are equal.
impl PartialEq for JoinedText {
    fn eq(&self, other: &JoinedText) -> bool {
        self.as_str() == other.as_str() && self.edition() == other.edition()
    }
}

impl Eq for JoinedText {}

impl Default for JoinedText {
    fn default() -> JoinedText {
        JoinedText::new()
    }
}

impl<P: AsRef<str>> Extend<P> for JoinedText {
    /// Pushes every piece.
    ///
    /// # Panics
    ///
    /// Panics if a piece is rejected. The pieces before it have been appended.
    #[track_caller]
    fn extend<I: IntoIterator<Item = P>>(&mut self, pieces: I) {
        for piece in pieces {
            self.push(piece);
        }
    }
}

impl<P: AsRef<str>> FromIterator<P> for JoinedText {
    /// Joins the pieces, which are lexed in the newest edition.
    ///
    /// # Panics
    ///
    /// Panics if a piece is rejected.
    #[track_caller]
    fn from_iter<I: IntoIterator<Item = P>>(pieces: I) -> JoinedText {
        let mut text = JoinedText::new();
        text.extend(pieces);
        text
    }
}

impl fmt::Debug for JoinedText {
    fn fmt(&self, f: &mut fmt::Formatter<'_>) -> fmt::Result {
        f.debug_struct("JoinedText")
            .field("text", &self.as_str())
            .field("edition", &self.edition())
            .finish()
    }
}
