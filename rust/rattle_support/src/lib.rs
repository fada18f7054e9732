//! The parts of Rattle's `std` that libraries use and Rust's `core` does not have. This crate is hand-written and
//! trusted: each item must meet the contract of the item with the same name in Rattle.

#![no_std]
#![allow(
    clippy::missing_errors_doc,
    reason = "the only errors are failed allocations and `from_utf8`'s"
)]
#![cfg_attr(feature = "portable", forbid(unsafe_code))]

#[cfg(feature = "alloc")]
extern crate alloc;
#[cfg(test)]
extern crate std;

pub mod simd;

#[cfg(feature = "alloc")]
mod lists;
#[cfg(not(feature = "alloc"))]
#[path = "no_lists.rs"]
#[allow(
    missing_docs,
    clippy::must_use_candidate,
    reason = "`lists.rs` has the documentation"
)]
mod lists;

pub use lists::{String, Vec};

use core::fmt;
use core::ops::{Deref, DerefMut};

impl<T> Deref for Vec<T> {
    type Target = [T];

    fn deref(&self) -> &[T] {
        self.as_slice()
    }
}

impl<T> DerefMut for Vec<T> {
    fn deref_mut(&mut self) -> &mut [T] {
        self.as_mut_slice()
    }
}

impl Deref for String {
    type Target = str;

    fn deref(&self) -> &str {
        self.as_str()
    }
}

/// Appends the text. If an allocation fails, it appends nothing and returns an error.
impl fmt::Write for String {
    fn write_str(&mut self, text: &str) -> fmt::Result {
        self.push_str(text).map_err(|_| fmt::Error)
    }
}

/// The allocator of the program. In Rattle, it is passed to every function that allocates.
#[derive(Clone, Copy, Debug, Default, PartialEq, Eq)]
pub struct Global;

/// An allocation failed.
#[derive(Clone, Copy, Debug, PartialEq, Eq)]
pub struct AllocError;

impl fmt::Display for AllocError {
    fn fmt(&self, f: &mut fmt::Formatter<'_>) -> fmt::Result {
        f.write_str("memory allocation failed")
    }
}

impl core::error::Error for AllocError {}
