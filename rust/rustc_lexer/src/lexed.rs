//! Incrementally lexed texts: `LexedText` for a fragment of a file, `LexedDocument` for a whole file.

use crate::checked::Checked;
use crate::edit_error::{EditError, FromStringError};
use crate::edit_error::{check_accepted, try_fitting, unwrap_or_panic};
use crate::extent::{Document, Extent, Fragment};
use crate::generated::{self, Edit, EditSequenceError, EditStop};
use crate::support::{self, AllocError, Global};
use crate::{Edition, Piece, Pieces, Relexed, Stepper, Steps, Token, TokenStart};
use alloc::string::String;
use core::fmt;
use core::ops::{self, Range, RangeBounds};

/// Returns the bounds of a range in a text or list of length `len`. They saturate at `usize::MAX`, which is after the
/// end of any text.
fn range_in(range: &impl RangeBounds<usize>, len: usize) -> Range<usize> {
    let start = match range.start_bound() {
        ops::Bound::Included(&at) => at,
        ops::Bound::Excluded(&at) => at.saturating_add(1),
        ops::Bound::Unbounded => 0,
    };
    let stop = match range.end_bound() {
        ops::Bound::Included(&at) => at.saturating_add(1),
        ops::Bound::Excluded(&at) => at,
        ops::Bound::Unbounded => len,
    };
    start..stop
}

/// Returns the token range. Panics if it is out of bounds.
#[track_caller]
fn checked_range(range: &impl RangeBounds<usize>, tokens: &[Token]) -> Range<usize> {
    let range = range_in(range, tokens.len());
    assert!(
        range.start <= range.end && range.end <= tokens.len(),
        "token range {range:?} out of range for {} tokens",
        tokens.len()
    );
    range
}

/// A text whose tokens are kept up to date as it is edited: a [`LexedText`] or a [`LexedDocument`], depending on `E`.
///
/// The tokens come from [`Steps`], which is this crate's lexer, or from a [`Stepper`] of your own.
///
/// ```
/// use rustc_lexer::{Extent, Lexed, LexedDocument, LexedText, Steps};
///
/// fn count<E: Extent>(lexed: &Lexed<Steps, E>) -> usize {
///     lexed.tokens().len()
/// }
///
/// // In a whole file, the first line is a shebang line, which is not a token.
/// assert_eq!(count(&LexedText::new("#!a\nb")), 5);
/// assert_eq!(count(&LexedDocument::new("#!a\nb")), 2);
/// ```
///
/// A constructor, or a method that changes the text once, panics if the text is too long, the range is invalid or an
/// allocation fails, and has a `try_` variant that returns an error; a method that takes a list of edits returns a
/// `Result` under its plain name, since its error contains the index of the edit that failed.
///
/// If a step panics in an edit, the text is poisoned: [`text`](Lexed::text) has the edit, but each method that needs
/// the tokens panics until `set_text` lexes a text again. A clone of it is poisoned too.
#[derive(Clone)]
pub struct Lexed<S: Stepper = Steps, E: Extent = Fragment> {
    kept: generated::Lexed<S, E>,
    /// Whether a step of an edit panicked. It is set while an edit runs, so it stays set if the edit never returns.
    is_poisoned: bool,
}

/// A fragment of a file, with tokens that are kept up to date as it is edited.
///
/// After each edit, the tokens equal a full re-lex of the text. With a stepper of your own, this holds if the stepper
/// follows the rules of [`Stepper`]. An edit re-lexes only the tokens near it and keeps the rest.
///
/// A shebang line or a frontmatter is lexed as code. For a whole file, use [`LexedDocument`](crate::LexedDocument).
///
/// ```
/// use rustc_lexer::LexedText;
///
/// let mut lexed = LexedText::new("let ab = cd + ef;");
/// let relexed = lexed.edit(12..13, "- 1 -");
/// assert_eq!(lexed.text(), "let ab = cd - 1 - ef;");
/// assert_eq!((relexed.kept_front, relexed.lexed, relexed.kept_back), (6, 7, 3));
/// ```
pub type LexedText<S = Steps> = Lexed<S, Fragment>;

/// A whole file, with tokens that are kept up to date as it is edited.
///
/// After each edit, the tokens equal those that [`tokenize_document`](crate::tokenize_document) returns: they start
/// after a byte order mark and a shebang line, and a frontmatter is one token.
///
/// It has the same methods as a [`LexedText`](crate::LexedText), which is for a fragment of a file. Byte order mark,
/// shebang line and frontmatter are the *head*, and the text after them is the *body*. An edit of the body that does
/// not change the head keeps the same tokens of the body that it would keep if the body were a text of its own.
///
/// ```
/// use rustc_lexer::{LexedDocument, TokenKind};
///
/// let mut lexed = LexedDocument::new("#!/bin/sh\n---\n[package]\n---\nfn main() {}");
/// assert!(matches!(lexed.tokens()[1].kind, TokenKind::Frontmatter { .. }));
///
/// // Without its closing fence, the frontmatter extends to the end of the file.
/// lexed.edit(24..27, "");
/// assert_eq!(lexed.tokens().len(), 2);
/// lexed.edit(24..24, "---");
/// assert_eq!(lexed.pieces().nth(3).map(|piece| (piece.start, piece.text)), Some((28, "fn")));
/// ```
///
/// The first piece starts at [`tokens_start`](LexedDocument::tokens_start): a byte order mark (U+FEFF) and a shebang
/// line come before it and are not pieces. If an edit changes them, `kept_front` is 0; repaint the text before the
/// first piece too.
pub type LexedDocument<S = Steps> = Lexed<S, Document>;

impl<E: Extent> Lexed<Steps, E> {
    /// Copies a text and lexes it in the newest edition.
    ///
    /// ```
    /// use rustc_lexer::LexedText;
    ///
    /// assert_eq!(LexedText::new("let x;").tokens().len(), 4);
    /// ```
    ///
    /// # Panics
    ///
    /// Panics if the text is longer than `u32::MAX` bytes, or if an allocation fails.
    #[must_use]
    #[track_caller]
    pub fn new(text: impl AsRef<str>) -> Self {
        Self::new_in(text, Edition::NEWEST)
    }

    /// Copies a text and lexes it in the given edition.
    ///
    /// ```
    /// use rustc_lexer::{Edition, LexedText};
    ///
    /// assert_eq!(LexedText::new_in("'r#a", Edition::E2018).tokens().len(), 3);
    /// ```
    ///
    /// # Panics
    ///
    /// Panics if the text is longer than `u32::MAX` bytes, or if an allocation fails.
    #[must_use]
    #[track_caller]
    pub fn new_in(text: impl AsRef<str>, edition: Edition) -> Self {
        unwrap_or_panic(Self::try_new_in(text, edition))
    }

    /// Copies a text and lexes it in the given edition, or returns an error.
    ///
    /// ```
    /// use rustc_lexer::{Edition, LexedText};
    ///
    /// let lexed = LexedText::try_new_in("let x;", Edition::E2021)?;
    /// assert_eq!(lexed.tokens().len(), 4);
    /// # Ok::<(), rustc_lexer::EditError>(())
    /// ```
    ///
    /// # Errors
    ///
    /// Returns `TooLong` if the text is longer than `u32::MAX` bytes, and `Memory` if an allocation fails.
    pub fn try_new_in(text: impl AsRef<str>, edition: Edition) -> Result<Self, EditError> {
        Ok(Lexed::from_proved(E::lex(text.as_ref(), edition)?))
    }

    /// Lexes a text in the given edition, taking ownership of the `String` without copying it.
    ///
    /// ```
    /// use rustc_lexer::{Edition, LexedText};
    ///
    /// let text = String::from("let x;");
    /// let lexed = LexedText::try_from_string_in(text, Edition::E2021)?;
    /// assert_eq!(lexed.tokens().len(), 4);
    /// # Ok::<(), rustc_lexer::FromStringError>(())
    /// ```
    ///
    /// # Errors
    ///
    /// Returns `TooLong` if the text is longer than `u32::MAX` bytes, and `Memory` if an allocation fails. The error
    /// contains the text.
    pub fn try_from_string_in(text: String, edition: Edition) -> Result<Self, FromStringError> {
        let mut text = text.into();
        Self::try_move_in(&mut text, edition).map_err(|error| FromStringError {
            text: text.into(),
            error,
        })
    }

    /// Implements `try_from_string_in`. On failure, `text` is unchanged.
    fn try_move_in(text: &mut support::String, edition: Edition) -> Result<Self, EditError> {
        try_fitting(text.as_str())?;
        let mut lexed = Lexed::from_proved(E::lex("", edition)?);
        lexed.lex_from_scratch(text)?;
        Ok(lexed)
    }

    /// Returns the edition in which the text is lexed. Edits do not change it.
    ///
    /// ```
    /// use rustc_lexer::{Edition, LexedText};
    ///
    /// assert_eq!(LexedText::new("").edition(), Edition::NEWEST);
    /// ```
    #[must_use]
    pub fn edition(&self) -> Edition {
        self.kept.edition()
    }

    /// Re-lexes the text in another edition, without copying it.
    ///
    /// ```
    /// use rustc_lexer::{Edition, LexedText};
    ///
    /// let mut lexed = LexedText::new("'r#a");
    /// lexed.set_edition(Edition::E2015);
    /// assert_eq!(lexed.tokens().len(), 3);
    /// ```
    ///
    /// # Panics
    ///
    /// Panics if an allocation fails. In that case nothing has changed.
    pub fn set_edition(&mut self, edition: Edition) {
        unwrap_or_panic(self.try_set_edition(edition));
    }

    /// Re-lexes the text in another edition, or returns an error.
    ///
    /// ```
    /// use rustc_lexer::{Edition, LexedText};
    ///
    /// let mut lexed = LexedText::new("'r#a");
    /// lexed.try_set_edition(Edition::E2018)?;
    /// assert_eq!(lexed.tokens().len(), 3);
    /// # Ok::<(), rustc_lexer::AllocError>(())
    /// ```
    ///
    /// # Errors
    ///
    /// Returns an error if an allocation fails. In that case nothing has changed.
    pub fn try_set_edition(&mut self, edition: Edition) -> Result<(), AllocError> {
        self.kept.set_edition(edition)
    }

    /// Returns the stepper that lexed the tokens.
    ///
    /// ```
    /// use rustc_lexer::{LexedText, Stepper};
    ///
    /// let mut steps = LexedText::new("a b").stepper().clone();
    /// assert_eq!(steps.step("let x").len, 3);
    /// ```
    #[must_use]
    pub fn stepper(&self) -> &Steps {
        self.kept.stepper()
    }
}

impl<S: Stepper, E: Extent> Lexed<Checked<S>, E> {
    /// Copies a text and lexes it with a stepper of your own. The stepper does not lex the head of a whole file.
    ///
    /// ```
    /// use rustc_lexer::{LexedText, Steps};
    ///
    /// let lexed = LexedText::try_with("let x;", Steps::new()).unwrap();
    /// assert_eq!(lexed.tokens().len(), 4);
    /// ```
    ///
    /// Every token comes from a call of `step`, and its length is checked. For [`Steps`] itself, `try_new_in` is twice
    /// as fast.
    ///
    /// # Panics
    ///
    /// Panics if `step` panics, or if it returns a token that is empty, longer than the text, or ends inside a
    /// character.
    ///
    /// Edits panic in the same cases. After that, [`text`](Lexed::text) contains the edit, and every method that needs
    /// the tokens panics until [`set_text`](Lexed::set_text) re-lexes the text. A rejected edit does not need the
    /// tokens.
    ///
    /// # Errors
    ///
    /// Returns `TooLong` if the text is longer than `u32::MAX` bytes, and `Memory` if an allocation fails.
    pub fn try_with(text: impl AsRef<str>, stepper: S) -> Result<Self, EditError> {
        let text = try_fitting(text.as_ref())?;
        Ok(Lexed::from_proved(generated::Lexed::with(
            Global,
            text,
            Checked(stepper),
        )?))
    }

    /// Returns the stepper that lexed the tokens.
    ///
    /// ```
    /// use rustc_lexer::{LexedText, Stepper, Steps};
    ///
    /// let lexed = LexedText::try_with("a b", Steps::new()).unwrap();
    /// let mut steps = lexed.stepper().clone();
    /// assert_eq!(steps.step("let x").len, 3);
    /// ```
    #[must_use]
    pub fn stepper(&self) -> &S {
        &self.kept.stepper().0
    }
}

impl<S: Stepper, E: Extent> Lexed<S, E> {
    fn from_proved(kept: generated::Lexed<S, E>) -> Self {
        Lexed {
            kept,
            is_poisoned: false,
        }
    }

    /// Returns the lexed text. Panics if a step panicked during an edit, since the tokens then do not match the text.
    #[track_caller]
    fn unpoisoned(&self) -> &generated::Lexed<S, E> {
        assert!(
            !self.is_poisoned,
            "a panic in `Stepper::step` left this text without tokens"
        );
        &self.kept
    }

    /// Applies edits. If a step panics on the way, the text is poisoned: it has no tokens.
    #[track_caller]
    fn apply<T>(&mut self, edits: impl FnOnce(&mut generated::Lexed<S, E>) -> T) -> T {
        self.unpoisoned();
        self.is_poisoned = true;
        let result = edits(&mut self.kept);
        self.is_poisoned = false;
        result
    }

    /// Moves `text` in and lexes it with the current stepper. If an allocation fails, `text` is unchanged.
    fn lex_from_scratch(&mut self, text: &mut support::String) -> Result<Relexed, AllocError> {
        self.kept.lex_from_scratch(text)?;
        self.is_poisoned = false;
        Ok(Relexed::none(self.tokens().len()))
    }

    /// Returns the text. If a step panicked, it contains the edit that panicked and, in a list, the edits before it.
    ///
    /// ```
    /// use rustc_lexer::LexedText;
    ///
    /// assert_eq!(LexedText::new("#!/bin/sh\n").text(), "#!/bin/sh\n");
    /// ```
    #[must_use]
    pub fn text(&self) -> &str {
        self.kept.text()
    }

    /// Returns the tokens, in order. A byte order mark and a shebang line of a whole file are not tokens.
    ///
    /// ```
    /// use rustc_lexer::{LexedText, TokenKind};
    ///
    /// let lexed = LexedText::new("a + b");
    /// assert_eq!(lexed.tokens()[2].kind, TokenKind::Plus);
    /// ```
    #[must_use]
    #[track_caller]
    pub fn tokens(&self) -> &[Token] {
        self.unpoisoned().tokens()
    }

    /// Returns the text, like [`text`](Lexed::text), and drops the tokens. Nothing is copied.
    ///
    /// ```
    /// use rustc_lexer::LexedText;
    ///
    /// let mut lexed = LexedText::new("let x;");
    /// lexed.edit(4..5, "y");
    /// assert_eq!(lexed.into_string(), "let y;");
    /// ```
    #[must_use]
    pub fn into_string(self) -> String {
        self.kept.into_string().into()
    }

    /// Returns an iterator over the pieces, which are the tokens with their offsets and texts, in order. It is
    /// double-ended.
    ///
    /// ```
    /// use rustc_lexer::LexedText;
    ///
    /// let lexed = LexedText::new("a + b");
    /// assert_eq!(lexed.pieces().nth(2).map(|piece| (piece.start, piece.text)), Some((2, "+")));
    /// assert_eq!(lexed.pieces().next_back().map(|piece| (piece.start, piece.text)), Some((4, "b")));
    /// ```
    #[track_caller]
    pub fn pieces(&self) -> Pieces<'_> {
        self.unpoisoned().pieces()
    }

    /// Returns the pieces of a range of tokens, by index. After an edit, repaint the range `relexed.changed_tokens()`.
    ///
    /// ```
    /// use rustc_lexer::LexedText;
    ///
    /// let mut lexed = LexedText::new("a + b + c + d");
    /// let relexed = lexed.edit(8..8, "x");
    /// let painted: Vec<&str> = lexed.pieces_by_index(relexed.changed_tokens()).map(|piece| piece.text).collect();
    /// assert_eq!(painted, ["+", " ", "xc"]);
    /// ```
    ///
    /// # Panics
    ///
    /// Panics if the range is out of bounds.
    #[track_caller]
    pub fn pieces_by_index(&self, range: impl RangeBounds<usize>) -> Pieces<'_> {
        let range = checked_range(&range, self.tokens());
        self.unpoisoned().pieces_by_index(range.start, range.end)
    }

    /// Returns the index and the start of the token that contains the byte at `offset`. Returns `None` at and after the
    /// end of the text, and in a byte order mark and a shebang line, which are not tokens.
    ///
    /// Only a few tokens are read, especially near the last edit.
    ///
    /// ```
    /// use rustc_lexer::{LexedText, TokenStart};
    ///
    /// let lexed = LexedText::new("let abc;");
    /// assert_eq!(lexed.token_start_at(6), Some(TokenStart { index: 2, offset: 4 }));
    /// assert_eq!(lexed.token_start_at(8), None);
    /// ```
    #[must_use]
    #[track_caller]
    pub fn token_start_at(&self, offset: usize) -> Option<TokenStart> {
        self.unpoisoned().token_start_at(offset)
    }

    /// Returns the piece that contains the byte at `offset`, for example the one under a caret. Returns `None` at and
    /// after the end of the text, and in a byte order mark and a shebang line.
    ///
    /// ```
    /// use rustc_lexer::LexedText;
    ///
    /// let lexed = LexedText::new("let abc;");
    /// assert_eq!(lexed.piece_at(6).map(|piece| (piece.start, piece.text)), Some((4, "abc")));
    /// assert_eq!(lexed.piece_at(8), None);
    /// ```
    #[doc(alias("caret", "cursor", "offset"))]
    #[must_use]
    #[track_caller]
    pub fn piece_at(&self, offset: usize) -> Option<Piece<'_>> {
        self.unpoisoned().piece_at(offset)
    }

    /// Returns the pieces of the tokens that contain a byte of the range, for example of the visible lines.
    ///
    /// The range may end anywhere, even after the end of the text. An empty range contains no pieces.
    ///
    /// ```
    /// use rustc_lexer::LexedText;
    ///
    /// let lexed = LexedText::new("let abc = 1;");
    /// let seen: Vec<&str> = lexed.pieces_in_bytes(5..9).map(|piece| piece.text).collect();
    /// assert_eq!(seen, ["abc", " ", "="]);
    /// ```
    ///
    /// To search backwards from a caret:
    ///
    /// ```
    /// use rustc_lexer::LexedText;
    ///
    /// let lexed = LexedText::new("f(a, b");
    /// let opens = lexed.pieces_in_bytes(..6).rev().find(|piece| piece.text == "(");
    /// assert_eq!(opens.map(|piece| piece.start), Some(1));
    /// ```
    #[track_caller]
    pub fn pieces_in_bytes(&self, range: impl RangeBounds<usize>) -> Pieces<'_> {
        let range = range_in(&range, self.text().len());
        self.unpoisoned().pieces_in_bytes(range.start, range.end)
    }

    /// Returns whether an edit is valid: the range is in bounds and on char boundaries, and the new text has at most
    /// `u32::MAX` bytes.
    ///
    /// ```
    /// use rustc_lexer::LexedText;
    ///
    /// let lexed = LexedText::new("é");
    /// assert!(lexed.accepts(0..2, "e") && !lexed.accepts(1..2, "e"));
    /// ```
    #[must_use]
    pub fn accepts(&self, range: impl RangeBounds<usize>, insert: &str) -> bool {
        let range = range_in(&range, self.text().len());
        self.kept.accepts(range.start, range.end, insert)
    }

    /// Replaces the bytes in the range with `insert`.
    ///
    /// ```
    /// use rustc_lexer::LexedText;
    ///
    /// let mut lexed = LexedText::new("let x = 1;");
    /// lexed.edit(8..9, "\"one\"");
    /// assert_eq!((lexed.text(), lexed.tokens().len()), ("let x = \"one\";", 8));
    /// ```
    ///
    /// # Panics
    ///
    /// Panics if [`try_edit`](Lexed::try_edit) would return an error. Text and tokens are then unchanged.
    #[track_caller]
    pub fn edit(&mut self, range: impl RangeBounds<usize>, insert: &str) -> Relexed {
        let range = range_in(&range, self.text().len());
        match self.try_edit(range.clone(), insert) {
            Ok(relexed) => relexed,
            Err(error) => panic!("the edit of {range:?}: {error}"),
        }
    }

    /// Replaces the bytes in the range with `insert`, or returns an error.
    ///
    /// ```
    /// use rustc_lexer::{EditError, LexedText};
    ///
    /// let mut lexed = LexedText::new("let é;");
    /// assert_eq!(lexed.try_edit(4..5, "e"), Err(EditError::Range));
    /// assert_eq!(lexed.try_edit(4..6, "e").map(|relexed| relexed.lexed), Ok(3));
    /// assert_eq!(lexed.text(), "let e;");
    /// ```
    ///
    /// # Errors
    ///
    /// Returns `Range` if the range is out of bounds or not on char boundaries, `TooLong` if the new text would be
    /// longer than `u32::MAX` bytes, and `Memory` if an allocation fails. Text and tokens are then unchanged.
    #[track_caller]
    pub fn try_edit(
        &mut self,
        range: impl RangeBounds<usize>,
        insert: &str,
    ) -> Result<Relexed, EditError> {
        let range = range_in(&range, self.text().len());
        check_accepted(|insert| self.accepts(range.clone(), insert), insert)?;
        Ok(self.apply(|kept| kept.edit(range.start, range.end, insert))?)
    }

    /// Applies the edits in order, each to the text that the edits before it leave.
    ///
    /// ```
    /// use rustc_lexer::{Edit, EditStop, LexedText};
    ///
    /// let mut lexed = LexedText::new("a");
    /// let edits = [Edit { start: 1, stop: 1, insert: "+b" }, Edit { start: 9, stop: 9, insert: "" }];
    /// assert_eq!(lexed.edit_all(&edits), Err(EditStop::Range { at: 1 }));
    /// assert_eq!(lexed.text(), "a+b");
    /// ```
    ///
    /// # Errors
    ///
    /// Returns which edit failed first, and why. The edits before it have been applied.
    #[track_caller]
    pub fn edit_all(&mut self, edits: &[Edit<'_>]) -> Result<(), EditStop> {
        self.apply(|kept| kept.edit_all(edits))
    }

    /// Applies the edits like [`edit_all`](Lexed::edit_all), and returns which tokens all of them kept. The tokens to
    /// repaint are in between.
    ///
    /// ```
    /// use rustc_lexer::{Edit, LexedText, Relexed};
    ///
    /// let mut lexed = LexedText::new("a b c d e f g");
    /// let edits = [Edit { start: 8, stop: 9, insert: "+" }, Edit { start: 4, stop: 5, insert: "-" }];
    /// let relexed = lexed.edit_sequence(&edits)?;
    /// assert_eq!(relexed, Relexed { kept_front: 2, lexed: 7, kept_back: 4 });
    /// assert_eq!(lexed.text(), "a b - d + f g");
    /// # Ok::<(), rustc_lexer::EditSequenceError>(())
    /// ```
    ///
    /// # Errors
    ///
    /// Returns which edit failed first, why, and which tokens the edits before it kept. Those edits have been applied.
    #[track_caller]
    pub fn edit_sequence(&mut self, edits: &[Edit<'_>]) -> Result<Relexed, EditSequenceError> {
        self.apply(|kept| kept.edit_sequence(edits))
    }

    /// Applies several edits at once, for example to rename a variable or to type at several carets. All offsets refer
    /// to the current text. The edits must be in order and must not overlap, but they may touch.
    ///
    /// They are applied as one edit, from the start of the first to the end of the last, and its counts are returned.
    /// An empty list keeps all tokens at the front.
    ///
    /// ```
    /// use rustc_lexer::{Edit, EditStop, LexedText, Relexed};
    ///
    /// let mut lexed = LexedText::new("a b c b d");
    /// let edits = [Edit { start: 2, stop: 3, insert: "new" }, Edit { start: 6, stop: 7, insert: "new" }];
    /// let relexed = lexed.edit_batch(&edits)?;
    /// assert_eq!(relexed, Relexed { kept_front: 0, lexed: 7, kept_back: 2 });
    /// assert_eq!(lexed.text(), "a new c new d");
    /// assert_eq!(lexed.edit_batch(&[edits[1], edits[0]]), Err(EditStop::Range { at: 1 }));
    /// # Ok::<(), EditStop>(())
    /// ```
    ///
    /// # Errors
    ///
    /// Returns `Range` with the first edit that is out of bounds, is not on char boundaries, or starts before the
    /// previous edit ends. `TooLong` and `Memory` name the last edit. Text and tokens are then unchanged.
    #[track_caller]
    pub fn edit_batch(&mut self, edits: &[Edit<'_>]) -> Result<Relexed, EditStop> {
        self.apply(|kept| kept.edit_batch(edits))
    }

    /// Replaces the text, for example with a formatter's output, and re-lexes only the part that differs.
    ///
    /// The common prefix of both texts is stripped, then their common suffix, and the rest is applied as one edit,
    /// whose counts are returned. If the text is the same, all tokens are kept at the front. If a step panicked before,
    /// the whole text is lexed, and no token is kept.
    ///
    /// ```
    /// use rustc_lexer::{LexedText, Relexed};
    ///
    /// let mut lexed = LexedText::new("let x=1;let y = 2;");
    /// let relexed = lexed.set_text("let x = 1;let y = 2;");
    /// assert_eq!(relexed, Relexed { kept_front: 1, lexed: 5, kept_back: 10 });
    /// assert_eq!(lexed.text(), "let x = 1;let y = 2;");
    /// ```
    ///
    /// # Panics
    ///
    /// Panics if [`try_set_text`](Lexed::try_set_text) would return an error. Text and tokens are then unchanged.
    #[track_caller]
    pub fn set_text(&mut self, text: impl AsRef<str>) -> Relexed {
        unwrap_or_panic(self.try_set_text(text))
    }

    /// Replaces the text, like [`set_text`](Lexed::set_text), or returns an error.
    ///
    /// ```
    /// use rustc_lexer::LexedText;
    ///
    /// let mut lexed = LexedText::new("let x;");
    /// assert_eq!(lexed.try_set_text("let x;")?.lexed, 0);
    /// # Ok::<(), rustc_lexer::EditError>(())
    /// ```
    ///
    /// # Errors
    ///
    /// Returns `TooLong` if the new text is longer than `u32::MAX` bytes, and `Memory` if an allocation fails. Text and
    /// tokens are then unchanged.
    pub fn try_set_text(&mut self, text: impl AsRef<str>) -> Result<Relexed, EditError> {
        let text = try_fitting(text.as_ref())?;
        if self.is_poisoned {
            let mut text = support::String::from_str(Global, text)?;
            return Ok(self.lex_from_scratch(&mut text)?);
        }
        Ok(self.apply(|kept| kept.set_text(text))?)
    }

    /// Frees the memory that edits have left unused, by copying the text and the tokens. If an allocation fails, the
    /// unused memory is kept. Text, tokens and stepper do not change.
    ///
    /// ```
    /// use rustc_lexer::LexedText;
    ///
    /// let mut lexed = LexedText::new("a ".repeat(1000));
    /// lexed.edit(0..0, "\"");
    /// lexed.shrink_to_fit();
    /// assert_eq!(lexed.tokens().len(), 1);
    /// ```
    pub fn shrink_to_fit(&mut self) {
        self.kept.shrink_to_fit();
    }
}

impl<S: Stepper, E: Extent> fmt::Debug for Lexed<S, E> {
    fn fmt(&self, f: &mut fmt::Formatter<'_>) -> fmt::Result {
        let mut shown = f.debug_struct(E::NAME);
        shown.field("text", &self.text());
        if !self.is_poisoned {
            shown.field("tokens", &self.tokens());
        }
        shown.finish_non_exhaustive()
    }
}

/// Two are equal if their texts, tokens and steppers are equal. Two [`Steps`] are equal if they have the same edition.
///
/// If the texts are equal, the tokens are compared, which panics if a step panicked.
///
/// ```
/// use rustc_lexer::{Edition, LexedText};
///
/// let mut lexed = LexedText::new("a");
/// assert_ne!(lexed, LexedText::new_in("a", Edition::E2015));
/// lexed.edit(1..1, "b");
/// assert_eq!(lexed, LexedText::new("ab"));
/// ```
impl<S: Stepper + PartialEq, E: Extent> PartialEq for Lexed<S, E> {
    #[track_caller]
    fn eq(&self, other: &Self) -> bool {
        self.text() == other.text()
            && self.tokens() == other.tokens()
            && self.kept.stepper() == other.kept.stepper()
    }
}

impl<S: Stepper + Eq, E: Extent> Eq for Lexed<S, E> {}

/// Lexes a text in the newest edition, taking ownership of the `String` without copying it.
///
/// ```
/// use rustc_lexer::LexedText;
///
/// let mut lexed = LexedText::from(String::from("let x;"));
/// lexed.edit(4..5, "y");
/// assert_eq!(lexed.into_string(), "let y;");
/// ```
///
/// # Panics
///
/// Panics if the text is longer than `u32::MAX` bytes, or if an allocation fails.
impl<E: Extent> From<String> for Lexed<Steps, E> {
    #[track_caller]
    fn from(text: String) -> Self {
        unwrap_or_panic(Self::try_from_string_in(text, Edition::NEWEST))
    }
}

/// Creates an empty text.
impl<E: Extent> Default for Lexed<Steps, E> {
    fn default() -> Self {
        Self::new("")
    }
}

impl<S: Stepper> Lexed<S, Fragment> {
    /// Returns the byte offset up to which tokens are final, whatever is appended to the text, or 0 if none are.
    ///
    /// A token is final once at least two characters follow it. To lex a stream, append each chunk with an edit. This
    /// call lexes nothing and reads only the last tokens.
    ///
    /// ```
    /// use rustc_lexer::LexedText;
    ///
    /// let mut lexed = LexedText::new("let va");
    /// assert_eq!(lexed.settled(), 4);
    /// lexed.edit(6.., "lue = x;");
    /// assert_eq!(lexed.settled(), 12);
    /// ```
    #[must_use]
    #[track_caller]
    pub fn settled(&self) -> usize {
        self.unpoisoned().settled()
    }
}

impl<S: Stepper> Lexed<S, Document> {
    /// Returns the offset of the first token, in bytes: only a byte order mark and a shebang line come before it.
    ///
    /// ```
    /// use rustc_lexer::LexedDocument;
    ///
    /// assert_eq!(LexedDocument::new("#!/bin/sh\nfn").tokens_start(), 9);
    /// assert_eq!(LexedDocument::new("\u{feff}#!/bin/sh\nfn").tokens_start(), 12);
    /// assert_eq!(LexedDocument::new("#![no_std]").tokens_start(), 0);
    /// ```
    #[must_use]
    #[track_caller]
    pub fn tokens_start(&self) -> usize {
        self.unpoisoned().tokens_start()
    }

    /// Returns the start of the body, which is the text after the head: its offset and the number of tokens before it.
    ///
    /// ```
    /// use rustc_lexer::LexedDocument;
    ///
    /// let body = LexedDocument::new("#!/bin/sh\n---\n---\nfn").body_start();
    /// assert_eq!((body.index, body.offset), (2, 17));
    /// ```
    #[must_use]
    #[track_caller]
    pub fn body_start(&self) -> TokenStart {
        self.unpoisoned().body_start()
    }
}

impl Relexed {
    /// Returns the indices of the tokens that were lexed, in the list of tokens after the edit.
    ///
    /// The end saturates if no edit can have these counts.
    ///
    /// ```
    /// use rustc_lexer::LexedText;
    ///
    /// let mut lexed = LexedText::new("a + b + c + d");
    /// let relexed = lexed.edit(8..8, "x");
    /// let written: u32 = lexed.tokens()[relexed.changed_tokens()].iter().map(|token| token.len).sum();
    /// assert_eq!(written, 4);
    /// ```
    #[must_use]
    pub fn changed_tokens(&self) -> Range<usize> {
        self.kept_front..self.kept_front.saturating_add(self.lexed)
    }
}
