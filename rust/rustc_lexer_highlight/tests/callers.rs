//! A call with a text that is too long panics at the caller's line with the same message, also in release builds.
#![cfg(target_pointer_width = "64")]

#[macro_use]
#[path = "../../rustc_lexer/tests/panics/mod.rs"]
mod panics;

use panics::{panic_message, too_long};
use rustc_lexer_highlight::{Edition, Format, write_first_tokens, write_highlighted};

#[test]
fn texts_that_are_too_long() {
    let (html, newest) = (Format::Html, Edition::NEWEST);
    let long = too_long();
    let mut output = String::new();
    panics_here!(write_highlighted(html, newest, &long, &mut output));
    for count in [0, 1] {
        panics_here!(write_first_tokens(html, newest, count, &long, &mut output));
    }
    assert_eq!(output, "");
}

#[test]
fn messages() {
    let (html, newest) = (Format::Html, Edition::NEWEST);
    let long = too_long();
    let mut output = String::new();
    let messages = [
        panic_message(|| write_highlighted(html, newest, &long, &mut output)),
        panic_message(|| write_first_tokens(html, newest, 0, &long, &mut output)),
        panic_message(|| write_first_tokens(html, newest, 1, &long, &mut output)),
    ];
    assert_eq!(messages, ["the text has more than u32::MAX bytes"; 3]);
    // A text of `u32::MAX` bytes fits. This call reads only its start.
    assert!(write_first_tokens(html, newest, 0, &long[1..], &mut output).is_ok());
}
