//! How much of a file a text contains.

pub use crate::generated::head::{Document, Fragment};

use crate::EditError;
use crate::edit_error::try_fitting;
use crate::generated::{Edition, Lexed, Steps, head};
use crate::support::Global;

/// How much of a file a text contains: [`Fragment`] or [`Document`]. This trait is sealed.
pub trait Extent: Sealed {}

impl Extent for Fragment {}
impl Extent for Document {}

/// The trait of the generated code. [`Extent`] only seals it.
pub trait Sealed: head::Extent {
    /// The name of a lexed text of this extent.
    const NAME: &'static str;

    /// Lexes a text. Nothing here is generic, so it is compiled in this crate and not in the caller's.
    fn lex(text: &str, edition: Edition) -> Result<Lexed<Steps, Self>, EditError>;
}

impl Sealed for Fragment {
    const NAME: &'static str = "LexedText";

    #[cfg_attr(not(debug_assertions), inline)]
    fn lex(text: &str, edition: Edition) -> Result<Lexed<Steps, Fragment>, EditError> {
        Ok(Lexed::new_in(Global, try_fitting(text)?, edition)?)
    }
}

impl Sealed for Document {
    const NAME: &'static str = "LexedDocument";

    #[cfg_attr(not(debug_assertions), inline)]
    fn lex(text: &str, edition: Edition) -> Result<Lexed<Steps, Document>, EditError> {
        Ok(Lexed::new_in(Global, try_fitting(text)?, edition)?)
    }
}
