//! `Vec` and `String` whose methods return an error, and change nothing, if an allocation fails.

use super::{AllocError, Global};
use alloc::collections::TryReserveError;
use core::ops::Range;

impl From<TryReserveError> for AllocError {
    fn from(_: TryReserveError) -> AllocError {
        AllocError
    }
}

/// A list, with the contracts of `std::vec::Vec` in Rattle, which define `items` after each call.
#[derive(Clone, Debug, PartialEq, Eq)]
pub struct Vec<T>(alloc::vec::Vec<T>);

impl<T> Vec<T> {
    /// Creates an empty list.
    #[must_use]
    pub fn new(_: Global) -> Vec<T> {
        Vec(alloc::vec::Vec::new())
    }

    /// Returns the items as a slice.
    #[must_use]
    pub fn as_slice(&self) -> &[T] {
        &self.0
    }

    /// Returns the items as a mutable slice.
    pub fn as_mut_slice(&mut self) -> &mut [T] {
        &mut self.0
    }

    /// Appends an item.
    #[inline]
    pub fn push(&mut self, value: T) -> Result<(), AllocError> {
        self.0.try_reserve(1)?;
        self.0.push(value);
        Ok(())
    }

    /// Returns how many items fit without another allocation.
    #[must_use]
    pub fn capacity(&self) -> usize {
        self.0.capacity()
    }

    /// Reserves capacity for exactly `more` items.
    pub fn reserve_exact(&mut self, more: usize) -> Result<(), AllocError> {
        Ok(self.0.try_reserve_exact(more)?)
    }

    /// Keeps the first `len` items, or all if there are fewer.
    pub fn truncate(&mut self, len: usize) {
        self.0.truncate(len);
    }

    /// Moves the items to a buffer of their size. If the allocation fails, nothing changes, whereas Rust's own method
    /// aborts.
    pub fn shrink_to_fit(&mut self) {
        let mut fitting = alloc::vec::Vec::new();
        if self.0.len() < self.0.capacity() && fitting.try_reserve_exact(self.0.len()).is_ok() {
            fitting.append(&mut self.0);
            self.0 = fitting;
        }
    }
}

impl<T> IntoIterator for Vec<T> {
    type Item = T;
    type IntoIter = alloc::vec::IntoIter<T>;

    fn into_iter(self) -> alloc::vec::IntoIter<T> {
        self.0.into_iter()
    }
}

impl<'a, T> IntoIterator for &'a Vec<T> {
    type Item = &'a T;
    type IntoIter = core::slice::Iter<'a, T>;

    fn into_iter(self) -> core::slice::Iter<'a, T> {
        self.0.iter()
    }
}

impl<T: Copy> Vec<T> {
    /// Appends the items of a slice.
    pub fn extend_from_slice(&mut self, more: &[T]) -> Result<(), AllocError> {
        self.0.try_reserve(more.len())?;
        self.0.extend_from_slice(more);
        Ok(())
    }

    /// Sets the length: drops the last items, or appends copies of `value`.
    pub fn resize(&mut self, len: usize, value: T) -> Result<(), AllocError> {
        self.0.try_reserve(len.saturating_sub(self.0.len()))?;
        self.0.resize(len, value);
        Ok(())
    }
}

/// A text, with the contracts of `std::string::String` in Rattle, which define its bytes after each call.
#[derive(Clone, Debug, PartialEq, Eq)]
pub struct String(alloc::string::String);

impl String {
    /// Creates an empty text.
    #[must_use]
    pub fn new(_: Global) -> String {
        String(alloc::string::String::new())
    }

    /// Copies a text.
    pub fn from_str(_: Global, text: &str) -> Result<String, AllocError> {
        let mut held = alloc::string::String::new();
        held.try_reserve_exact(text.len())?;
        held.push_str(text);
        Ok(String(held))
    }

    /// Returns the text as a slice.
    #[must_use]
    pub fn as_str(&self) -> &str {
        &self.0
    }

    /// Appends a character.
    #[inline]
    pub fn push(&mut self, c: char) -> Result<(), AllocError> {
        self.0.try_reserve(c.len_utf8())?;
        self.0.push(c);
        Ok(())
    }

    /// Appends a text.
    #[inline]
    pub fn push_str(&mut self, text: &str) -> Result<(), AllocError> {
        self.0.try_reserve(text.len())?;
        self.0.push_str(text);
        Ok(())
    }

    /// Keeps the first `len` bytes.
    pub fn truncate(&mut self, len: usize) {
        self.0.truncate(len);
    }

    /// Moves the text to a buffer of its size, like [`Vec::shrink_to_fit`].
    pub fn shrink_to_fit(&mut self) {
        let mut fitting = alloc::string::String::new();
        if self.0.len() < self.0.capacity() && fitting.try_reserve_exact(self.0.len()).is_ok() {
            fitting.push_str(&self.0);
            self.0 = fitting;
        }
    }

    /// Reserves capacity for at least `more` bytes.
    #[inline]
    pub fn reserve(&mut self, more: usize) -> Result<(), AllocError> {
        Ok(self.0.try_reserve(more)?)
    }

    /// Replaces the bytes of the range with a text.
    pub fn replace_range(&mut self, range: Range<usize>, with: &str) -> Result<(), AllocError> {
        self.0.try_reserve(with.len().saturating_sub(range.len()))?;
        // `String::replace_range` inserts byte by byte, and each costs as much as moving about 32 bytes after it.
        let behind = self.0.len().saturating_sub(range.end);
        if range.is_empty() || with.len() > behind / 32 {
            let start = range.start;
            drop(self.0.drain(range));
            self.0.insert_str(start, with);
        } else {
            self.0.replace_range(range, with);
        }
        Ok(())
    }
}

/// Methods that only programs use.
impl String {
    /// Returns the text of these bytes, or an error if they are not UTF-8.
    pub fn from_utf8(bytes: Vec<u8>) -> Result<String, core::str::Utf8Error> {
        let text = alloc::string::String::from_utf8(bytes.0);
        text.map(String).map_err(|error| error.utf8_error())
    }
}

impl core::fmt::Display for String {
    fn fmt(&self, f: &mut core::fmt::Formatter<'_>) -> core::fmt::Result {
        core::fmt::Display::fmt(&self.0, f)
    }
}

impl From<alloc::string::String> for String {
    fn from(text: alloc::string::String) -> String {
        String(text)
    }
}

impl From<String> for alloc::string::String {
    fn from(text: String) -> alloc::string::String {
        text.0
    }
}
