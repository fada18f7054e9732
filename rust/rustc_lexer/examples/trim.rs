//! Removes spaces and tabs at the ends of lines: `cargo run --example trim < FILE > TRIMMED`. Then it lexes the result,
//! and prints only a message if a token other than whitespace differs.
//!
//! Only whitespace between tokens is trimmed: a shebang line, a frontmatter, comments and literals are not changed.
mod common;

use rustc_lexer::{Edition, TokenKind, tokenize_document};
use std::io::Write;
use std::process::ExitCode;

/// Returns the tokens after the shebang line, except whitespace, with their texts.
fn words(text: &str) -> impl Iterator<Item = (TokenKind, &str)> {
    let pieces = tokenize_document(text, Edition::E2024).pieces();
    let pieces = pieces.map(|piece| (piece.token.kind, piece.text));
    pieces.filter(|(kind, _)| *kind != TokenKind::Whitespace)
}

fn trim(text: &str) -> String {
    let tokens = tokenize_document(text, Edition::E2024);
    let mut trimmed = text[..tokens.offset()].to_string();
    for piece in tokens.pieces() {
        if piece.token.kind == TokenKind::Whitespace {
            let is_last = piece.range().end == text.len();
            trim_space(piece.text, is_last, &mut trimmed);
        } else {
            trimmed.push_str(piece.text);
        }
    }
    trimmed
}

fn trim_space(space: &str, is_last: bool, trimmed: &mut String) {
    for line in space.split_inclusive('\n') {
        let blanks = line.trim_end_matches(['\r', '\n']);
        // The part after the last newline is the indentation of the next token.
        if is_last || line.ends_with('\n') {
            trimmed.push_str(blanks.trim_end_matches([' ', '\t']));
        } else {
            trimmed.push_str(blanks);
        }
        trimmed.push_str(&line[blanks.len()..]);
    }
}

fn main() -> ExitCode {
    common::run(|output| {
        let text = common::read(None)?;
        let trimmed = trim(&text);
        if !words(&text).eq(words(&trimmed)) {
            return Err("a token would change".into());
        }
        Ok(write!(output, "{trimmed}")?)
    })
}
