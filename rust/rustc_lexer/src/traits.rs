//! Traits of `core` that the proved source does not implement.

use crate::incremental::{Relexer, TextLen};
use crate::{Edition, FrontmatterAllowed, Steps};
use core::fmt;

impl fmt::Debug for FrontmatterAllowed {
    fn fmt(&self, f: &mut fmt::Formatter<'_>) -> fmt::Result {
        f.write_str(match self {
            FrontmatterAllowed::Yes => "Yes",
            FrontmatterAllowed::No => "No",
        })
    }
}

/// The year, such as `2021`, which `FromStr` reads.
impl fmt::Display for Edition {
    fn fmt(&self, f: &mut fmt::Formatter<'_>) -> fmt::Result {
        self.year().fmt(f)
    }
}

/// Creates the lexer of the newest edition, like [`Steps::new`].
impl Default for Steps {
    fn default() -> Steps {
        Steps::new()
    }
}

/// Two are equal if they have the same edition.
impl PartialEq for Steps {
    fn eq(&self, other: &Steps) -> bool {
        self.edition() == other.edition()
    }
}

impl Eq for Steps {}

impl<T: TextLen> fmt::Debug for Relexer<'_, T> {
    fn fmt(&self, f: &mut fmt::Formatter<'_>) -> fmt::Result {
        f.debug_struct("Relexer")
            .field("state", &self.state())
            .finish_non_exhaustive()
    }
}

impl fmt::Debug for Steps {
    fn fmt(&self, f: &mut fmt::Formatter<'_>) -> fmt::Result {
        f.debug_struct("Steps").finish_non_exhaustive()
    }
}
