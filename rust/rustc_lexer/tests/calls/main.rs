//! The hand-written calls, beyond the test vectors.

mod characters;
mod guarded_strings;
mod heads;
mod iterators;
mod kinds;
mod lengths;
mod types;

use rustc_lexer::{GuardedStr, Token, TokenKind, Tokens};

fn guarded(n_hashes: u32, terminated: bool, token_len: u32) -> Option<GuardedStr> {
    Some(GuardedStr {
        n_hashes,
        terminated,
        token_len,
    })
}

fn token(kind: TokenKind, len: u32) -> Token {
    Token { kind, len }
}

fn lens(tokens: Tokens<'_>) -> Vec<u32> {
    tokens.map(|token| token.len).collect()
}
