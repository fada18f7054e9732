//! The calls of `unicode-ident`, by a look into blocks of 256 characters, each of which is kept once.
#![no_std]
mod tables;

use tables::{BLOCKS, WORDS};
pub use tables::UNICODE_VERSION;

pub fn is_xid_start(c: char) -> bool {
    if c.is_ascii() {
        return c.is_ascii_alphabetic();
    }
    is_in(0, c)
}

pub fn is_xid_continue(c: char) -> bool {
    if c.is_ascii() {
        return c.is_ascii_alphanumeric() || c == '_';
    }
    is_in(BLOCKS.len() / 2, c)
}

/// Whether a character is in the table that begins at this block.
fn is_in(table: usize, c: char) -> bool {
    let c = c as usize;
    let words = &WORDS[BLOCKS[table + c / 256] as usize];
    words[c / 64 % 4] >> (c % 64) & 1 == 1
}
