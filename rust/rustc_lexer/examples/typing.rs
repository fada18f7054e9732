//! Updates the tokens of a file while you type: `cargo run --example typing -- FILE`. Inserts each line of standard
//! input at the end of the file's first line, and prints the tokens that were re-lexed.
use rustc_lexer::LexedDocument;
use std::error::Error;
use std::io::{self, Write};
use std::{env, fs};

fn update(mut lexed: LexedDocument, mut output: impl Write) -> io::Result<()> {
    let mut cursor = lexed.text().find('\n').unwrap_or(lexed.text().len());
    for typed in io::stdin().lines() {
        let typed = typed?;
        let relexed = lexed.edit(cursor..cursor, &typed);
        cursor += typed.len();
        for piece in lexed.pieces_by_index(relexed.changed_tokens()) {
            let kind = piece.token.kind;
            writeln!(output, "{} {kind:?} {:?}", piece.start, piece.text)?;
        }
        writeln!(output, "{} kept", relexed.kept_front + relexed.kept_back)?;
    }
    Ok(())
}

fn main() -> Result<(), Box<dyn Error>> {
    let path = env::args().nth(1);
    let path = path.ok_or("usage: cargo run --example typing -- FILE")?;
    let text = fs::read_to_string(&path).map_err(|error| format!("{path}: {error}"))?;
    match update(LexedDocument::new(text), io::stdout()) {
        // as after `| head -1`
        Err(error) if error.kind() == io::ErrorKind::BrokenPipe => Ok(()),
        ended => Ok(ended?),
    }
}
