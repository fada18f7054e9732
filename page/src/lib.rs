//! The functions that the page calls. A text is passed in the buffer at `room()`. A function returns the length of its
//! result, which is at `answer()`. An edition is passed as its index in `Edition::ALL`.

#![deny(missing_docs)]

mod editions;
mod json;
mod listing;
mod seen;
mod source;
#[cfg(test)]
mod tests;
mod value;
mod window;

use source::Source;

use std::cell::RefCell;

struct Page {
    room: Vec<u8>,
    answer: String,
    source: Source,
}

thread_local! {
    static PAGE: RefCell<Page> = RefCell::new(Page {
        room: Vec::new(),
        answer: String::new(),
        source: Source::new(),
    });
}

/// Stores a result, and returns its length.
fn answered(call: impl FnOnce(&mut Source, &[u8]) -> String) -> usize {
    PAGE.with_borrow_mut(|page| {
        page.answer = call(&mut page.source, &page.room);
        page.answer.len()
    })
}

/// Returns a buffer for a text of `len` bytes.
#[unsafe(no_mangle)]
pub extern "C" fn room(len: usize) -> *mut u8 {
    PAGE.with_borrow_mut(|page| {
        page.room.resize(len, 0);
        page.room.as_mut_ptr()
    })
}

/// Returns the address of the last result.
#[unsafe(no_mangle)]
pub extern "C" fn answer() -> *const u8 {
    PAGE.with_borrow(|page| page.answer.as_ptr())
}

/// Replaces the text by the first `len` bytes of the buffer, as a fragment or a whole document. The result says how
/// many tokens were kept, as JSON.
#[unsafe(no_mangle)]
pub extern "C" fn change(len: usize, document: bool, edition: usize) -> usize {
    answered(|source, room| {
        source.change(&String::from_utf8_lossy(&room[..len]), document);
        seen::kept(source, edition)
    })
}

/// Returns some highlighted lines, their tokens, and the token at the caret, as JSON. `caret` is an offset in UTF-16
/// code units.
#[unsafe(no_mangle)]
pub extern "C" fn show(first_line: usize, count: usize, caret: usize, edition: usize) -> usize {
    answered(|source, _| seen::show(source, first_line, count, caret, edition))
}

/// Returns the years of the editions, in the order of `Edition::ALL`, as JSON.
#[unsafe(no_mangle)]
pub extern "C" fn years() -> usize {
    answered(|_, _| editions::years())
}

/// Returns the number of tokens in each edition and their differences, as JSON.
#[unsafe(no_mangle)]
pub extern "C" fn editions() -> usize {
    answered(|source, _| editions::write(source))
}

/// Returns the tokens of the text as `lexdump` prints them. In a whole document, offsets count from the end of the
/// shebang line.
#[unsafe(no_mangle)]
pub extern "C" fn listing(edition: usize) -> usize {
    answered(|source, _| listing::write(source, 0..source.tokens(edition).len(), edition))
}

/// Checks that each line has the same highlighting alone as with all lines, so that `show` can draw any part of the
/// text. Returns the number of the first line with a difference, or an empty result.
#[unsafe(no_mangle)]
pub extern "C" fn parts_alike(edition: usize) -> usize {
    answered(|source, _| seen::parts_alike(source, edition))
}

/// Compares the tokens with a full re-lex in each edition. Returns `yes`, or the first year with a difference.
#[unsafe(no_mangle)]
pub extern "C" fn as_lexed_anew() -> usize {
    answered(|source, _| source.as_lexed_anew())
}
