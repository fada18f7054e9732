//! The errors of lexed texts.

use crate::AllocError;
use crate::generated::{EditSequenceError, EditStop};
use alloc::string::String;
use core::error::Error;
use core::fmt;

/// The error of a failed edit, or of lexing a text. A failed edit leaves text and tokens unchanged.
///
/// ```
/// use rustc_lexer::{EditError, LexedText};
///
/// let mut lexed = LexedText::new("é");
/// assert_eq!(lexed.try_edit(1..2, ""), Err(EditError::Range));
/// assert_eq!(lexed.text(), "é");
/// ```
///
/// The other errors of a lexed text add what the caller cannot know otherwise, and `?` converts each to this one:
/// [`EditStop`] names an edit of a list, [`EditSequenceError`] also has the counts of the edits before it, and
/// [`FromStringError`] returns the text.
///
/// ```
/// use rustc_lexer::{Edit, EditError, Edition, LexedText};
///
/// fn edited(text: String, edits: &[Edit<'_>]) -> Result<LexedText, EditError> {
///     let mut lexed = LexedText::try_from_string_in(text, Edition::E2024)?;
///     lexed.edit_sequence(edits)?;
///     lexed.edit_batch(edits)?;
///     Ok(lexed)
/// }
///
/// let edit = Edit { start: 3, stop: 3, insert: "" };
/// assert_eq!(edited("é".into(), &[edit]).map(|_| ()), Err(EditError::Range));
/// ```
#[derive(Clone, Copy, Debug, PartialEq, Eq, Hash)]
#[non_exhaustive]
pub enum EditError {
    /// The range is out of bounds or not on char boundaries.
    Range,
    /// The text is longer than `u32::MAX` bytes, or would be after the edit.
    TooLong,
    /// An allocation failed.
    Memory,
}

impl fmt::Display for EditError {
    fn fmt(&self, f: &mut fmt::Formatter<'_>) -> fmt::Result {
        f.write_str(match self {
            EditError::Range => "range out of bounds or not on a char boundary",
            EditError::TooLong => "the text has more than u32::MAX bytes",
            EditError::Memory => "memory allocation failed",
        })
    }
}

impl Error for EditError {}

impl From<AllocError> for EditError {
    fn from(_: AllocError) -> EditError {
        EditError::Memory
    }
}

impl From<EditStop> for EditError {
    fn from(stop: EditStop) -> EditError {
        match stop {
            EditStop::Range { .. } => EditError::Range,
            EditStop::TooLong { .. } => EditError::TooLong,
            EditStop::Memory { .. } => EditError::Memory,
        }
    }
}

impl From<EditSequenceError> for EditError {
    fn from(stopped: EditSequenceError) -> EditError {
        stopped.stop.into()
    }
}

/// The error of [`try_from_string_in`](crate::Lexed::try_from_string_in), which contains the text.
#[derive(Clone, PartialEq, Eq)]
pub struct FromStringError {
    pub(crate) text: String,
    pub(crate) error: EditError,
}

impl FromStringError {
    /// Returns the text that was passed.
    #[must_use]
    pub fn into_string(self) -> String {
        self.text
    }

    /// Returns why the text could not be lexed.
    #[must_use]
    pub fn error(&self) -> EditError {
        self.error
    }
}

// The text is left out: it may be long, and the caller has it.
impl fmt::Debug for FromStringError {
    fn fmt(&self, f: &mut fmt::Formatter<'_>) -> fmt::Result {
        let mut shown = f.debug_struct("FromStringError");
        shown.field("error", &self.error).finish_non_exhaustive()
    }
}

impl fmt::Display for FromStringError {
    fn fmt(&self, f: &mut fmt::Formatter<'_>) -> fmt::Result {
        self.error.fmt(f)
    }
}

impl Error for FromStringError {}

impl From<FromStringError> for EditError {
    fn from(refused: FromStringError) -> EditError {
        refused.error
    }
}

/// Returns the `Ok` value, or panics with the error. The panic location is the caller's, which it would not be in a
/// closure.
#[track_caller]
pub(crate) fn unwrap_or_panic<T>(result: Result<T, impl fmt::Display>) -> T {
    match result {
        Ok(value) => value,
        Err(error) => panic!("{error}"),
    }
}

/// Returns the text, or `TooLong`.
pub(crate) fn try_fitting(text: &str) -> Result<&str, EditError> {
    if crate::fits(text) {
        Ok(text)
    } else {
        Err(EditError::TooLong)
    }
}

/// Checks whether an edit that inserts this text is accepted, and returns why if not.
pub(crate) fn check_accepted(
    accepts: impl Fn(&str) -> bool,
    insert: &str,
) -> Result<(), EditError> {
    if accepts(insert) {
        Ok(())
    } else if accepts("") {
        // A deletion cannot make the text too long, so the range is valid.
        Err(EditError::TooLong)
    } else {
        Err(EditError::Range)
    }
}

#[cfg(test)]
mod tests {
    use super::*;

    /// In a text of the maximum length only deletions are accepted, and other edits fail with `TooLong`.
    #[test]
    fn a_text_that_is_full() {
        let takes_nothing = |insert: &str| insert.is_empty();
        assert_eq!(check_accepted(takes_nothing, ""), Ok(()));
        assert_eq!(check_accepted(takes_nothing, "a"), Err(EditError::TooLong));
        assert_eq!(check_accepted(|_| false, "a"), Err(EditError::Range));
    }
}
