//! Escaping of texts and bytes for the inside of double quotes. The compiler's crate has no such functions.

pub use crate::generated::EscapeCStrError;

use crate::generated;
use crate::support;
use crate::support::AllocError;
use alloc::string::String;
use core::error::Error;
use core::fmt;
use core::mem::take;

impl fmt::Display for EscapeCStrError {
    fn fmt(&self, f: &mut fmt::Formatter<'_>) -> fmt::Result {
        f.write_str(match self {
            EscapeCStrError::Nul => "NUL in a C string: it would end the string",
            EscapeCStrError::Memory => "memory allocation failed",
        })
    }
}

impl Error for EscapeCStrError {}

/// Calls a function with the text as a `support::String`, without copying it.
fn lent<T>(out: &mut String, call: impl FnOnce(&mut support::String) -> T) -> T {
    let mut held = support::String::from(take(out));
    let answer = call(&mut held);
    *out = held.into();
    answer
}

/// Appends `text` to `out` as the contents of a string literal.
///
/// Each character is escaped by `char::escape_default`, so the output is ASCII. [`unescape_str`](crate::unescape_str)
/// reads the characters of `text` back from it.
///
/// # Examples
///
/// ```
/// let mut out = String::new();
/// rustc_literal_escaper::escape_str("a\"é\n", &mut out).unwrap();
/// assert_eq!(out, r#"a\"\u{e9}\n"#);
/// ```
///
/// # Errors
///
/// Returns `AllocError` if an allocation fails. Then `out` is unchanged.
pub fn escape_str(text: &str, out: &mut String) -> Result<(), AllocError> {
    lent(out, |out| generated::escape_str(text, out))
}

/// Appends `bytes` to `out` as the contents of a byte string literal.
///
/// Each byte is escaped by `u8::escape_ascii`, so the output is ASCII. [`unescape_byte_str`](crate::unescape_byte_str)
/// reads the bytes back from it.
///
/// # Examples
///
/// ```
/// let mut out = String::new();
/// rustc_literal_escaper::escape_byte_str(b"a\"\xff", &mut out).unwrap();
/// assert_eq!(out, r#"a\"\xff"#);
/// ```
///
/// # Errors
///
/// Returns `AllocError` if an allocation fails. Then `out` is unchanged.
pub fn escape_byte_str(bytes: &[u8], out: &mut String) -> Result<(), AllocError> {
    lent(out, |out| generated::escape_byte_str(bytes, out))
}

/// Appends `bytes` to `out` as the contents of a C string literal.
///
/// `bytes` does not include the NUL at the end.
///
/// # Examples
///
/// ```
/// use rustc_literal_escaper::{escape_c_str, EscapeCStrError};
///
/// let mut out = String::new();
/// escape_c_str(b"a\xff", &mut out).unwrap();
/// assert_eq!(out, r"a\xff");
/// assert_eq!(escape_c_str(b"\0", &mut out), Err(EscapeCStrError::Nul));
/// ```
///
/// # Errors
///
/// Returns `Nul` if a byte is 0, which a C string cannot contain, and `Memory` if an allocation fails. Then `out` is
/// unchanged.
pub fn escape_c_str(bytes: &[u8], out: &mut String) -> Result<(), EscapeCStrError> {
    lent(out, |out| generated::escape_c_str(bytes, out))
}
