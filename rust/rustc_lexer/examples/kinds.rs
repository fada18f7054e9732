//! Counts the tokens of standard input by kind, and literals by their own kind, such as `Str`:
//! `cargo run --example kinds < FILE`.
mod common;

use rustc_lexer::{Edition, TokenKind, tokenize_document};
use std::collections::BTreeMap;
use std::io::Write;
use std::process::ExitCode;

fn main() -> ExitCode {
    common::run(|output| {
        let text = common::read(None)?;
        let mut counts = BTreeMap::new();
        for token in tokenize_document(&text, Edition::E2024) {
            let name = match token.kind {
                TokenKind::Literal { kind, .. } => kind.name(),
                kind => kind.name(),
            };
            *counts.entry(name).or_insert(0) += 1;
        }
        for (name, count) in counts {
            writeln!(output, "{count} {name}")?;
        }
        Ok(())
    })
}
