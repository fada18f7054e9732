//! Lists and texts without an allocator: each allocation fails, so they stay empty.

use super::{AllocError, Global};
use core::marker::PhantomData;
use core::ops::Range;

/// A list with no items.
#[derive(Clone, Debug, PartialEq, Eq)]
pub struct Vec<T>(PhantomData<T>);

impl<T> Vec<T> {
    pub fn new(_: Global) -> Vec<T> {
        Vec(PhantomData)
    }

    pub fn as_slice(&self) -> &[T] {
        &[]
    }

    pub fn as_mut_slice(&mut self) -> &mut [T] {
        &mut []
    }

    pub fn push(&mut self, _: T) -> Result<(), AllocError> {
        Err(AllocError)
    }

    pub fn capacity(&self) -> usize {
        0
    }

    pub fn reserve_exact(&mut self, more: usize) -> Result<(), AllocError> {
        refused_but_for(more)
    }

    pub fn truncate(&mut self, _: usize) {}

    pub fn shrink_to_fit(&mut self) {}

    pub fn extend_from_slice(&mut self, more: &[T]) -> Result<(), AllocError> {
        refused_but_for(more.len())
    }

    pub fn resize(&mut self, len: usize, _: T) -> Result<(), AllocError> {
        refused_but_for(len)
    }
}

/// Returns an error unless `len` is 0, which needs no memory.
fn refused_but_for(len: usize) -> Result<(), AllocError> {
    if len == 0 { Ok(()) } else { Err(AllocError) }
}

/// The empty text.
#[derive(Clone, Debug, PartialEq, Eq)]
pub struct String(());

impl String {
    pub fn new(_: Global) -> String {
        String(())
    }

    pub fn from_str(_: Global, text: &str) -> Result<String, AllocError> {
        refused_but_for(text.len()).map(|()| String(()))
    }

    pub fn as_str(&self) -> &str {
        ""
    }

    pub fn push(&mut self, _: char) -> Result<(), AllocError> {
        Err(AllocError)
    }

    pub fn push_str(&mut self, text: &str) -> Result<(), AllocError> {
        refused_but_for(text.len())
    }

    pub fn truncate(&mut self, _: usize) {}

    pub fn shrink_to_fit(&mut self) {}

    pub fn reserve(&mut self, more: usize) -> Result<(), AllocError> {
        refused_but_for(more)
    }

    pub fn replace_range(&mut self, _: Range<usize>, with: &str) -> Result<(), AllocError> {
        refused_but_for(with.len())
    }
}
