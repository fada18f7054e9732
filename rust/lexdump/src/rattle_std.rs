//! The parts of Rattle's `std` that `lexdump` uses, on top of Rust's. This module is hand-written and trusted: each item
//! must meet the contract of the item with the same name in Rattle, which its comment here describes.
//!
//! Lists and texts come from `rattle_support`, and their methods return an error if an allocation fails. If an
//! allocation of Rust's own `std` fails, the process aborts. These allocations happen at the start, before any input is
//! read: in [`env::args`], and for the buffers of the standard streams, which are never used.

pub mod env;
pub mod io;
pub mod rt;

/// The same as in Rust.
pub use std::{error, fmt, str};

/// Memory allocation.
pub mod alloc {
    /// The allocator, and the error of a failed allocation.
    pub use rattle_support::{AllocError, Global};

    /// The error of a failed allocation, with the value that it was for.
    pub struct AllocFailed<T>(pub T);
}

/// The process.
pub mod process {
    /// The exit status of the process.
    pub use std::process::ExitCode;
}

/// The prelude of Rattle: the names that each source file uses without an import.
pub mod prelude {
    /// Lists and texts.
    pub use rattle_support::{String, Vec};
}
