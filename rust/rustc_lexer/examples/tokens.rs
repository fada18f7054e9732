//! Prints the tokens of a Rust file, one per line: offset, length in bytes, kind and text. `cargo run --example tokens
//! FILE`; `cargo run --example tokens -- --help` lists its options.
mod common;

use rustc_lexer::{Edition, fits, tokenize_document, tokenize_in};
use std::error::Error;
use std::io::Write;
use std::{env, process::ExitCode};

const HELP: &str = "\
Prints the tokens of a Rust file, one per line: offset, length in bytes, kind and text. A byte order mark and a shebang
line are not tokens.

usage: cargo run --example tokens -- [--edition YEAR] [--part] [FILE]

  --edition YEAR   2015, 2018, 2021 or 2024 (default: the newest)
  --part           FILE is a fragment, without byte order mark, shebang line and frontmatter
  FILE             the file (default: standard input)
";

const NO_YEAR: &str = "--edition needs a year: cargo run --example tokens -- --edition 2018 FILE";

fn tokens(output: &mut common::Output) -> Result<(), Box<dyn Error>> {
    let (mut edition, mut is_part, mut file) = (Edition::NEWEST, false, None);
    let mut words = env::args().skip(1);
    while let Some(word) = words.next() {
        match word.as_str() {
            "--help" | "-h" => return Ok(write!(output, "{HELP}")?),
            "--edition" => edition = words.next().ok_or(NO_YEAR)?.parse()?,
            "--part" => is_part = true,
            _ if !word.starts_with('-') && file.is_none() => file = Some(word),
            _ => return Err(format!("unexpected {word}: see --help").into()),
        }
    }
    let text = common::read(file.as_deref())?;
    if !fits(&text) {
        return Err("a text of more than 4,294,967,295 bytes".into());
    }
    let tokens = match is_part {
        true => tokenize_in(&text, edition),
        false => tokenize_document(&text, edition),
    };
    for piece in tokens.pieces() {
        let (start, token, text) = (piece.start, piece.token, piece.text);
        writeln!(output, "{start} {} {:?} {text:?}", token.len, token.kind)?;
    }
    Ok(())
}

fn main() -> ExitCode {
    common::run(tokens)
}
