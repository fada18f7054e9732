//! Prints the ranges of characters that can start and continue an identifier in this build, by the tables of the crate
//! `unicode-ident` in the version that Cargo picked.
mod common;

use rustc_lexer::{is_id_continue, is_id_start};
use std::io::Write;
use std::process::ExitCode;

fn main() -> ExitCode {
    common::run(|output| {
        let starts = |c| c != '_' && is_id_start(c);
        for (name, is_in) in [
            ("xid_start", &starts as &dyn Fn(char) -> bool),
            ("xid_continue", &is_id_continue),
        ] {
            let mut inside = false;
            write!(output, "{name}")?;
            for number in 0..0x11_0000 {
                if char::from_u32(number).is_some_and(is_in) != inside {
                    inside = !inside;
                    write!(output, " {number:x}")?;
                }
            }
            writeln!(output)?;
        }
        Ok(())
    })
}
