//! Prints tokens, one per line of the input, with only the separators that they need: `cargo run --example print <
//! TOKENS`. Reports the number of a line that is not one token or is rejected.
mod common;

use rustc_lexer::{Edition, JoinedText, tokenize_in};
use std::io::Write;
use std::process::ExitCode;

fn print(lines: &str) -> Result<String, String> {
    let mut text = JoinedText::new_in(Edition::E2021);
    for (number, line) in (1..).zip(lines.lines()) {
        if tokenize_in(line, text.edition()).count() != 1 {
            return Err(format!("line {number}: {line:?} is not one token"));
        }
        text.try_push(line)
            .map_err(|error| format!("line {number}: {error}"))?;
    }
    Ok(text.into_string())
}

fn main() -> ExitCode {
    common::run(|output| {
        let text = print(&common::read(None)?)?;
        Ok(writeln!(output, "{text}")?)
    })
}
