//! A call with a text that is too long panics at the caller's line with the same message, also in release builds.
#![cfg(target_pointer_width = "64")]

#[macro_use]
#[path = "../../rustc_lexer/tests/panics/mod.rs"]
mod panics;

use panics::{panic_message, too_long};
use rustc_lexer::{Edition, TokenKind};
use rustc_lexer_errors::token_error;

#[test]
fn texts_that_are_too_long() {
    let long = too_long();
    panics_here!(token_error(TokenKind::Ident, &long, Edition::E2024));
    assert_eq!(
        panic_message(|| token_error(TokenKind::Unknown, &long, Edition::E2024)),
        "the text has more than u32::MAX bytes"
    );
}
