//! Reads the contents of Rust literals: their values, escapes and errors. The names, types and signatures are the same
//! as in the compiler's own crate `rustc_literal_escaper`.
//!
//! A lexer reads `"\q"` as one token. Pass the text between the quotes of a literal to the functions here. They return
//! its value unit by unit, and its errors.
//!
//! ```
//! use rustc_literal_escaper::{unescape_str, EscapeError};
//!
//! let mut escape_errors = Vec::new();
//! let mut value = String::new();
//! unescape_str(r"a\n\q", |range, unit| match unit {
//!     Ok(c) => value.push(c),
//!     Err(error) => escape_errors.push((range, error)),
//! });
//! assert_eq!(value, "a\n");
//! assert_eq!(escape_errors, [(3..5, EscapeError::InvalidEscape)]);
//! ```
//!
//! The modules in `generated` are generated from a verified source in Rattle, which is Rust with contracts, by deleting
//! the contracts. The rest is hand-written. `docs/GENERATED.md` in the repository lists the guarantees and the trusted
//! computing base.

#![no_std]
#![cfg_attr(docsrs, feature(doc_cfg))]
#![forbid(unsafe_code)]

#[cfg(feature = "alloc")]
extern crate alloc;
#[cfg(test)]
extern crate std;

/// The proved source without its contracts, generated from `crates/rustc_literal_escaper`.
///
/// Only for packages that are generated in the same way, like `rustc_lexer_errors`. The module has its own types for
/// the units of C strings, and it can change with the source. Other callers use the functions at the crate's root.
// Only contracts use some of its imports and variables.
#[allow(missing_docs, unused_imports, unused_variables, dead_code)]
#[allow(
    clippy::missing_errors_doc,
    clippy::missing_panics_doc,
    clippy::must_use_candidate
)]
#[allow(clippy::assign_op_pattern, clippy::collapsible_if)]
#[allow(clippy::question_mark)]
#[doc(hidden)]
pub mod generated;
mod unit;
#[cfg(feature = "alloc")]
mod written;

#[doc(inline)]
pub use generated::{
    EscapeError, Mode, check_for_errors, check_raw_byte_str, check_raw_str, unescape_byte,
    unescape_byte_str, unescape_char, unescape_str,
};
use rattle_support as support;
#[cfg(feature = "alloc")]
pub use rattle_support::AllocError;
pub use unit::{MixedUnit, check_raw_c_str, unescape_c_str};
#[cfg(feature = "alloc")]
pub use written::{EscapeCStrError, escape_byte_str, escape_c_str, escape_str};

// The program of the README.
#[cfg(doctest)]
#[doc = include_str!("../README.md")]
mod readme {}
