//! Prints the value of each string literal and the text of each doc comment in a file, with the offset of its token.

use rustc_lexer::{Edition, tokenize_document};
use rustc_lexer_errors::{doc_comment_contents, literal_contents};
use rustc_literal_escaper::{Mode, unescape_str};
use std::{env, fs, io};

/// Returns the values in order. Invalid escapes are left out.
pub fn values(text: &str) -> Vec<(u32, String)> {
    let mut values = Vec::new();
    for piece in tokenize_document(text, Edition::NEWEST).pieces() {
        let (kind, text) = (piece.token.kind, piece.text);
        if let Some(range) = doc_comment_contents(kind, text) {
            values.push((piece.start, text[range].to_string()));
        }
        match literal_contents(kind, text) {
            Some((Mode::RawStr, range)) => values.push((piece.start, text[range].to_string())),
            Some((Mode::Str, range)) => {
                let mut value = String::new();
                unescape_str(&text[range], |_, unit| value.extend(unit.ok()));
                values.push((piece.start, value));
            }
            _ => {}
        }
    }
    values
}

fn main() -> io::Result<()> {
    let path = env::args_os().nth(1).expect("usage: values FILE");
    // Like the compiler, this reads CRLF as a newline.
    let text = fs::read_to_string(path)?.replace("\r\n", "\n");
    for (start, value) in values(&text) {
        println!("{start} {value:?}");
    }
    Ok(())
}
