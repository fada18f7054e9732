//! Errors and warnings of files, as rustc reports them in each edition.

use crate::rustc_tokens::RustcTokens;
use rustc_lexer::{Edition, TokenKind};
use rustc_lexer_errors::{EscapeErrorsInFile, literal_contents, token_error};
use rustc_literal_escaper::EscapeError;
use std::io;
use std::ops::Range;

pub use rustc_lexer_errors::TokenError;

/// Calls a function for each error and warning of a file in order, with its byte range.
///
/// This is the range of the token or, for an error in the contents of a literal, of the escape or character.
pub fn for_each_error(
    text: &str,
    edition: Edition,
    mut report: impl FnMut(Range<usize>, TokenError) -> io::Result<()>,
) -> io::Result<()> {
    let mut has_no_break_space = false;
    RustcTokens::new(text, edition).for_each(|start, kind, token| {
        let range = start..start + token.len();
        // rustc reads such a lifetime and the quote as a character literal.
        if kind == TokenKind::RawLifetime && text[range.end..].starts_with('\'') {
            let error = TokenError::InLiteral(EscapeError::MoreThanOneChar);
            report(range.clone(), error)?;
        }
        match token_error(kind, token, edition) {
            // After the first one, rustc reads no-break spaces as whitespace.
            Some(TokenError::UnknownCharacter) if token == "\u{a0}" && has_no_break_space => {}
            Some(TokenError::TextDirectionCodepoint) if has_wrong_contents(kind, token) => {}
            Some(error) => report(range, error)?,
            None => {}
        }
        has_no_break_space |= token == "\u{a0}";
        if let Some((mode, contents)) = literal_contents(kind, token) {
            let start = start + contents.start;
            for (range, error) in EscapeErrorsInFile::new(&token[contents], mode) {
                let range = start + range.start..start + range.end;
                report(range, TokenError::InLiteral(error))?;
            }
        }
        Ok(())
    })
}

/// Returns whether the contents of a literal have an error. Then rustc does not look for characters that change the
/// direction of text.
fn has_wrong_contents(kind: TokenKind, token: &str) -> bool {
    literal_contents(kind, token).is_some_and(|(mode, contents)| {
        EscapeErrorsInFile::new(&token[contents], mode).any(|(_, error)| error.is_fatal())
    })
}

/// Returns whether this is a warning. A file with warnings is valid.
pub fn is_warning(error: TokenError) -> bool {
    matches!(error, TokenError::InLiteral(error) if !error.is_fatal())
}

/// Returns the message for an error in this text.
pub fn message_of(error: TokenError, text: &str) -> String {
    match (error, text.chars().next()) {
        (TokenError::UnknownCharacter, Some(c)) => {
            let code_point = u32::from(c);
            format!("unexpected character U+{code_point:04X}: no token starts with it")
        }
        _ => error.to_string(),
    }
}

/// Returns the stable name of an error: the name of its variant, such as `EmptyNumber`, in kebab case.
pub fn code_of(error: TokenError) -> String {
    let variant = match error {
        TokenError::InLiteral(error) => format!("{error:?}"),
        error => format!("{error:?}"),
    };
    let mut code = String::new();
    // The fields of the variant follow after a space.
    for c in variant.chars().take_while(|c| *c != ' ') {
        if c.is_uppercase() && !code.is_empty() {
            code.push('-');
        }
        code.push(c.to_ascii_lowercase());
    }
    code
}
