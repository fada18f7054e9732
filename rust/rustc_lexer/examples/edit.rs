//! Prints the tokens of a file, and then the tokens that an edit changes: `cargo run --example edit` in a package with
//! `src/main.rs`.
use rustc_lexer::LexedDocument;

fn main() -> std::io::Result<()> {
    let mut file = LexedDocument::from(std::fs::read_to_string("src/main.rs")?);
    for piece in file.pieces() {
        println!("{} {:?} {:?}", piece.start, piece.token.kind, piece.text);
    }
    let change = file.edit(0..0, "// Hello\n");
    let kept = change.kept_front + change.kept_back;
    println!("{kept} tokens were kept. These were lexed:");
    for piece in file.pieces_by_index(change.changed_tokens()) {
        println!("{:?} {:?}", piece.token.kind, piece.text);
    }
    Ok(())
}
