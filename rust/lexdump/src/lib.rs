//! The library of the program `lexdump`: prints the tokens of a Rust source, one per line, for any reader and writers.
//!
//! The modules in `generated` are generated from a verified source in Rattle, which is Rust with contracts, by deleting
//! the contracts. `rattle_std` and `itoa` are hand-written. `docs/GENERATED.md` in the repository lists the guarantees
//! and the trusted computing base.

#![deny(unsafe_code)]

// The prover needs a `while let` for a loop over the rest of an iterator.
#[allow(clippy::while_let_on_iterator)]
#[allow(
    missing_docs,
    clippy::must_use_candidate,
    reason = "only the program and its tests use it"
)]
mod generated;
mod itoa;
#[allow(
    clippy::missing_errors_doc,
    clippy::must_use_candidate,
    reason = "Rattle's `std` has the contracts"
)]
pub mod rattle_std;

pub use generated::{Fault, Job, Watched, program, read_job, report, run, status, write_listing};
