//! The units of C strings, with `NonZero` of the standard library. The proved source has its own types instead.

use crate::EscapeError;
use crate::generated::{self, NonZeroChar};
use core::num::NonZero;
use core::ops::Range;

/// A unit of a C string: a character, or a byte that is not part of a character.
#[derive(Clone, Copy, Debug, PartialEq, Eq, Hash)]
pub enum MixedUnit {
    /// A character, written unescaped, as `\u{..}`, or as an escape for a byte below 128. In the C string, it is
    /// encoded as UTF-8.
    Char(NonZero<char>),
    /// A byte of 128 or more, written as `\x80` to `\xff`.
    HighByte(NonZero<u8>),
}

#[inline(always)]
fn nonzero(c: NonZeroChar) -> NonZero<char> {
    NonZero::new(c.get()).expect("it is not U+0000")
}

#[inline(always)]
fn mixed(unit: generated::MixedUnit) -> MixedUnit {
    match unit {
        generated::MixedUnit::Char(c) => MixedUnit::Char(nonzero(c)),
        generated::MixedUnit::HighByte(byte) => {
            MixedUnit::HighByte(NonZero::new(byte.get()).expect("it is not 0"))
        }
    }
}

/// Calls `callback` with each unit of a C string, or an error or warning, and its byte range.
///
/// The calls are in text order, like the calls of [`unescape_str`](crate::unescape_str).
///
/// # Examples
///
/// ```
/// use rustc_literal_escaper::{MixedUnit, unescape_c_str};
///
/// let mut units = Vec::new();
/// unescape_c_str(r"a\xff", |_, unit| units.push(unit));
/// assert_eq!(units, [MixedUnit::try_from('a'), MixedUnit::try_from(255)]);
/// ```
#[inline]
pub fn unescape_c_str(
    src: &str,
    mut callback: impl FnMut(Range<usize>, Result<MixedUnit, EscapeError>),
) {
    generated::unescape_c_str(src, |range, unit| callback(range, unit.map(mixed)));
}

/// Calls `callback` with each character of a raw C string, or an error, and its byte range.
///
/// The calls are in text order. A carriage return or U+0000 is an error.
///
/// # Examples
///
/// ```
/// use rustc_literal_escaper::{EscapeError, check_raw_c_str};
///
/// let mut escape_errors = Vec::new();
/// check_raw_c_str("a\0", |range, unit| escape_errors.extend(unit.err().map(|error| (range, error))));
/// assert_eq!(escape_errors, [(1..2, EscapeError::NulInCStr)]);
/// ```
#[inline]
pub fn check_raw_c_str(
    src: &str,
    mut callback: impl FnMut(Range<usize>, Result<NonZero<char>, EscapeError>),
) {
    generated::check_raw_c_str(src, |range, c| callback(range, c.map(nonzero)));
}

impl From<NonZero<char>> for MixedUnit {
    fn from(c: NonZero<char>) -> MixedUnit {
        MixedUnit::Char(c)
    }
}

impl From<NonZero<u8>> for MixedUnit {
    fn from(byte: NonZero<u8>) -> MixedUnit {
        let unit = generated::MixedUnit::try_from(byte.get());
        mixed(unit.expect("the byte is not 0"))
    }
}

impl TryFrom<char> for MixedUnit {
    type Error = EscapeError;

    fn try_from(c: char) -> Result<MixedUnit, EscapeError> {
        generated::MixedUnit::try_from(c).map(mixed)
    }
}

impl TryFrom<u8> for MixedUnit {
    type Error = EscapeError;

    fn try_from(byte: u8) -> Result<MixedUnit, EscapeError> {
        generated::MixedUnit::try_from(byte).map(mixed)
    }
}
