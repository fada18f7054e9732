//! Readers and writers.

/// `ErrorKind::BrokenPipe` means that the other end of a pipe is closed.
pub use std::io::{Error, ErrorKind, Result};

/// A source of bytes.
pub trait Read {
    /// Reads the next bytes into the buffer, and returns how many were read. 0 means the end.
    fn read(&mut self, buf: &mut [u8]) -> Result<usize>;
}

/// A sink for bytes.
pub trait Write {
    /// Writes bytes from the front of the buffer, and returns how many. If it returns an error, none were written.
    fn write(&mut self, buf: &[u8]) -> Result<usize>;

    /// Passes on all bytes that were written.
    fn flush(&mut self) -> Result<()>;
}
