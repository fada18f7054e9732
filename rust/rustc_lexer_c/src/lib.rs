//! The lexer for C, and for any language that can call C: the static and the shared library of `rustc_lexer.h`.
//!
//! The modules in `generated` are generated from a proved source in Rattle, which is Rust with contracts, by deleting
//! the contracts. `border` is hand-written. The repository's `docs/GENERATED.md` describes what is proved and what is
//! trusted.

#![no_std]
#![deny(unsafe_op_in_unsafe_fn)]

mod border;
// Some of its imports and variables are used only in contracts.
#[allow(unused_imports, unused_variables, dead_code)]
// The proofs refer to the arms of a `let .. else`.
#[allow(clippy::question_mark)]
mod generated;
