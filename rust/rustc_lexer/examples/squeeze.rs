//! Removes comments, except doc comments, and unnecessary whitespace: `cargo run --example squeeze < FILE > SQUEEZED`.
//! Then it lexes the result, and prints only a message if a token differs.
mod common;

use rustc_lexer::incremental::Head;
use rustc_lexer::{
    Edition, JoinError, JoinedText, Piece, TokenKind, tokenize_document, tokenize_in,
};
use std::io::Write;
use std::process::ExitCode;

/// An unterminated comment is kept, since it is an error.
fn is_dropped(kind: TokenKind) -> bool {
    let is_open = matches!(kind, TokenKind::BlockComment { terminated, .. } if !terminated);
    kind.is_trivia() && !is_open
}

fn squeeze(text: &str) -> Result<String, JoinError> {
    // The head is kept. The body is a fragment, on a line of its own unless only a byte order mark precedes it.
    let (head, body) = text.split_at(Head::find(text).body);
    let is_line = !matches!(head, "" | "\u{feff}") && !body.is_empty();
    let mut joined = JoinedText::new();
    let pieces: Vec<Piece<'_>> = tokenize_in(body, Edition::E2024).pieces().collect();
    // Tokens with nothing between them are one piece, so `0..n` is not separated.
    for pieces in pieces.split(|piece| is_dropped(piece.token.kind)) {
        joined.try_push(pieces.iter().map(|piece| piece.text).collect::<String>())?;
    }
    Ok(head.to_owned() + if is_line { "\n" } else { "" } + joined.as_str())
}

/// Returns the byte order mark and the shebang line, and the tokens after them that are kept, with their texts.
fn kept(text: &str) -> (&str, Vec<(TokenKind, &str)>) {
    let tokens = tokenize_document(text, Edition::E2024);
    let start = &text[..tokens.offset()];
    let with_text = tokens.pieces().map(|piece| (piece.token.kind, piece.text));
    (
        start,
        with_text.filter(|(kind, _)| !is_dropped(*kind)).collect(),
    )
}

fn main() -> ExitCode {
    common::run(|output| {
        let text = common::read(None)?;
        let squeezed = squeeze(&text)?;
        if kept(&text) != kept(&squeezed) {
            return Err("a token would change".into());
        }
        Ok(write!(output, "{squeezed}")?)
    })
}
