//! Highlights a file while it is edited, with its shebang line and its frontmatter: `cargo run --example highlight --
//! FILE`. Each line of standard input is an edit: START STOP TEXT. Prints the tokens that are repainted, and at the end
//! the whole file.

mod common;

use rustc_lexer::{LexedDocument, Piece, TokenKind};
use std::error::Error;
use std::io::Write;
use std::{env, io, process::ExitCode};

fn paint(piece: Piece<'_>) -> String {
    let colour = match piece.token.kind {
        TokenKind::LineComment { .. } | TokenKind::BlockComment { .. } => "32",
        TokenKind::Literal { .. } => "35",
        TokenKind::Ident => "34",
        TokenKind::Frontmatter { .. } => "36",
        _ => "0",
    };
    format!("\x1b[{colour}m{}\x1b[0m", piece.text)
}

fn highlight(output: &mut common::Output) -> Result<(), Box<dyn Error>> {
    let path = env::args().nth(1);
    let path = path.ok_or("usage: cargo run --example highlight -- FILE")?;
    let mut lexed = LexedDocument::new(common::read(Some(&path))?);
    // Each token, in its colour.
    let mut shown: Vec<String> = lexed.pieces().map(paint).collect();
    for line in io::stdin().lines() {
        let line = line?;
        let mut words = line.splitn(3, ' ');
        let mut place = || words.next().and_then(|word| word.parse::<usize>().ok());
        let (Some(start), Some(stop)) = (place(), place()) else {
            continue;
        };
        let insert = words.next().unwrap_or("");
        if !lexed.accepts(start..stop, insert) {
            continue;
        }
        let relexed = lexed.edit(start..stop, insert);
        let painted: Vec<String> = lexed
            .pieces_by_index(relexed.changed_tokens())
            .map(paint)
            .collect();
        let kept = relexed.kept_front + relexed.kept_back;
        writeln!(output, "{}  ({kept} tokens kept)", painted.concat())?;
        output.flush()?;
        shown.splice(relexed.kept_front..shown.len() - relexed.kept_back, painted);
    }
    // A byte order mark and a shebang line are not tokens.
    let start = &lexed.text()[..lexed.tokens_start()];
    write!(output, "\x1b[32m{start}\x1b[0m{}", shown.concat())?;
    Ok(())
}

fn main() -> ExitCode {
    common::run(highlight)
}
