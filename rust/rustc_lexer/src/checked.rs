//! A stepper whose tokens are checked.

use crate::Token;
use crate::generated::Stepper;

/// A [`Stepper`] of your own, inside a lexed text that checks where each of its tokens ends.
///
/// [`LexedText::try_with`](crate::LexedText::try_with) creates it. You need its name to store such a text:
///
/// ```
/// use rustc_lexer::{Checked, LexedText, Stepper, Token, TokenKind};
///
/// struct Letters;
///
/// impl Stepper for Letters {
///     fn step(&mut self, rest: &str) -> Token {
///         let len = rest.chars().next().map_or(0, char::len_utf8) as u32;
///         Token { kind: TokenKind::Unknown, len }
///     }
/// }
///
/// struct Page {
///     lexed: LexedText<Checked<Letters>>,
/// }
///
/// let page = Page { lexed: LexedText::try_with("ab", Letters).unwrap() };
/// assert_eq!(page.lexed.tokens().len(), 2);
/// ```
#[derive(Clone, Debug, PartialEq, Eq, Hash)]
pub struct Checked<S>(pub(crate) S);

impl<S: Stepper> Stepper for Checked<S> {
    fn step(&mut self, rest: &str) -> Token {
        let token = self.0.step(rest);
        assert!(
            token.len > 0 && rest.is_char_boundary(token.len as usize),
            "`Stepper::step` returned a token of {} bytes for a text of {}: \
             a token is neither empty nor longer than the text, and ends between characters",
            token.len,
            rest.len()
        );
        token
    }
}
