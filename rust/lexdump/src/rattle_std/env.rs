//! The arguments of the command line.

use super::io::{Error, ErrorKind, Result};
use super::prelude::String;
use super::rt::HostRuntime;

/// The arguments of the command line, in order. The first is the program's name.
pub type Args = std::vec::IntoIter<String>;

/// Returns all arguments, or an error if one is not UTF-8.
pub fn args(_: &HostRuntime) -> Result<Args> {
    let words = std::env::args_os().map(|word| word.into_string().map(String::from));
    match words.collect::<std::result::Result<Vec<_>, _>>() {
        Ok(words) => Ok(words.into_iter()),
        Err(_) => Err(Error::from(ErrorKind::InvalidData)),
    }
}
