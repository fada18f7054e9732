//! Short constructors for tests.
#![allow(dead_code)] // not each test uses all of it

use rustc_lexer::{Edit, Relexed, Token, TokenKind};

pub fn token(kind: TokenKind, len: u32) -> Token {
    Token { kind, len }
}

pub fn edit(start: usize, stop: usize, insert: &str) -> Edit<'_> {
    Edit {
        start,
        stop,
        insert,
    }
}

pub fn counts(kept_front: usize, lexed: usize, kept_back: usize) -> Relexed {
    Relexed {
        kept_front,
        lexed,
        kept_back,
    }
}
