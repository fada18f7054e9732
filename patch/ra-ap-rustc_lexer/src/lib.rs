//! `rustc_lexer` under the name and version of the original crate, for `[patch]`.

#![no_std]

pub use rustc_lexer::*;
