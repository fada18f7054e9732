//! Shared by the examples: input by name, buffered output, and errors.
#![allow(dead_code, reason = "some examples read no text")]

use std::error::Error;
use std::io::{self, BufWriter, StdoutLock, Write};
use std::{fs, process::ExitCode};

pub type Output = BufWriter<StdoutLock<'static>>;

/// Runs an example, and prints its error. A closed pipe, as after `| head -1`, is not an error.
pub fn run(example: impl FnOnce(&mut Output) -> Result<(), Box<dyn Error>>) -> ExitCode {
    let mut output = BufWriter::new(io::stdout().lock());
    match example(&mut output).and_then(|()| Ok(output.flush()?)) {
        Err(error) if !is_closed_pipe(&*error) => {
            eprintln!("error: {error}");
            ExitCode::FAILURE
        }
        _ => ExitCode::SUCCESS,
    }
}

fn is_closed_pipe(error: &(dyn Error + 'static)) -> bool {
    let error = error.downcast_ref::<io::Error>();
    error.is_some_and(|error| error.kind() == io::ErrorKind::BrokenPipe)
}

/// Reads a file, or standard input if no path is given. The error names it.
pub fn read(path: Option<&str>) -> Result<String, String> {
    let text = match path {
        Some(path) => fs::read_to_string(path),
        None => io::read_to_string(io::stdin()),
    };
    text.map_err(|error| format!("{}: {error}", path.unwrap_or("standard input")))
}
