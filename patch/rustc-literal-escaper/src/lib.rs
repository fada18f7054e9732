//! `rustc_literal_escaper` under the name and version of the original crate, for `[patch]`.

#![no_std]

pub use rustc_literal_escaper::*;
