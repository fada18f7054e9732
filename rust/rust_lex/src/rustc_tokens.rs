//! The tokens of a file in the way rustc reads them.

use rustc_lexer::{
    Cursor, Edition, FrontmatterAllowed, LiteralKind, TokenKind, tokenize_document, tokenize_in,
};
use std::io;

/// A file in an edition.
///
/// rustc reads some tokens of the lexer as a shorter or a longer token, and then the rest of the file as a fragment.
pub struct RustcTokens<'a> {
    text: &'a str,
    edition: Edition,
    /// No guarded string starts before this offset.
    searched: usize,
}

impl<'a> RustcTokens<'a> {
    pub fn new(text: &'a str, edition: Edition) -> RustcTokens<'a> {
        RustcTokens {
            text,
            edition,
            searched: 0,
        }
    }

    /// Calls a function for the offset, the kind and the text of each token except for names and whitespace, which have
    /// no errors.
    pub fn for_each(
        mut self,
        mut call: impl FnMut(usize, TokenKind, &'a str) -> io::Result<()>,
    ) -> io::Result<()> {
        let mut tokens = tokenize_document(self.text, self.edition);
        let mut start = 0;
        loop {
            let mut end = None;
            for piece in tokens.pieces() {
                // Most tokens are one of these.
                if matches!(piece.token.kind, TokenKind::Ident | TokenKind::Whitespace) {
                    continue;
                }
                let (mut kind, mut text) = (piece.token.kind, piece.text);
                let offset = start + piece.start as usize;
                if let Some((other, len)) = self.other_token(kind, offset) {
                    (kind, text) = (other, &self.text[offset..offset + len]);
                    end = Some(offset + len);
                }
                call(offset, kind, text)?;
                if end.is_some() {
                    break;
                }
            }
            let Some(end) = end else {
                return Ok(());
            };
            tokens = tokenize_in(&self.text[end..], self.edition);
            start = end;
        }
    }

    /// Returns the kind and the length of the token that rustc reads in place of a token, or `None` if it is the same.
    fn other_token(&mut self, kind: TokenKind, start: usize) -> Option<(TokenKind, usize)> {
        let has_c_strings = self.edition >= Edition::E2021;
        match kind {
            TokenKind::Literal { kind, .. } => match kind {
                LiteralKind::CStr { .. } if !has_c_strings => Some((TokenKind::Ident, 1)),
                LiteralKind::RawCStr { .. } if !has_c_strings => Some((TokenKind::Ident, 2)),
                _ => None,
            },
            // rustc 1.95 has no forced keywords.
            TokenKind::ForcedKeywordIdent => Some((kind, 1)),
            TokenKind::GuardedStrPrefix => self.guarded_string(start),
            _ => None,
        }
    }

    /// Returns the kind and the length of a guarded string, or of the hashes before it if it is unterminated. Returns
    /// `None` if there are only hashes.
    fn guarded_string(&mut self, start: usize) -> Option<(TokenKind, usize)> {
        if start < self.searched {
            return None;
        }
        let mut cursor = Cursor::new(&self.text[start..], FrontmatterAllowed::No);
        let string = cursor.guarded_double_quoted_string();
        self.searched = self.text.len() - cursor.as_str().len();
        match string? {
            string if string.terminated => {
                Some((TokenKind::GuardedStrPrefix, string.token_len as usize))
            }
            string => Some((TokenKind::Pound, string.n_hashes as usize)),
        }
    }
}
