//! Prints the tokens of a document on standard input as soon as they are final, one per line: `tail -c +1 -f FILE |
//! cargo run --example stream`. The document can arrive in chunks of any size, which can end inside a character. For a
//! fragment, `LexedText::settled` returns where its final tokens end.

#![allow(
    clippy::missing_errors_doc,
    clippy::must_use_candidate,
    reason = "an example has no public interface"
)]

mod common;

use rustc_lexer::incremental::Head;
use rustc_lexer::{Edition, LexedDocument, is_whitespace, tokenize_in};
use std::io::{self, Read, Write};
use std::process::ExitCode;
use std::str;

/// Returns whether the head of a document is final, whatever is appended. The head is its byte order mark, shebang line
/// and frontmatter, or their absence.
pub fn is_head_final(text: &str) -> bool {
    let head = Head::find(text);
    let unmarked = text.strip_prefix('\u{feff}').unwrap_or(text);
    let is_start_final = match unmarked.strip_prefix("#!") {
        // `#!` starts an attribute if the first token other than whitespace and comments is a bracket.
        Some(rest) => tokenize_in(rest, Edition::NEWEST)
            .pieces()
            .find(|piece| !piece.token.kind.is_trivia())
            .is_some_and(|piece| two_follow(rest, piece.range().end)),
        None => unmarked != "#",
    };
    let front = text[head.tokens_start..].trim_start_matches(is_whitespace);
    is_start_final
        && match head.frontmatter {
            // A frontmatter can follow. So can a byte order mark or the rest of a shebang line if the text ends here.
            None => !"--".starts_with(front),
            Some(_) => head.body < text.len() && is_closed(front),
        }
}

/// Returns whether a later line starts with the opening fence. Otherwise the end of the frontmatter can still move.
fn is_closed(frontmatter: &str) -> bool {
    let rest = frontmatter.trim_start_matches('-');
    let fence = &frontmatter[..frontmatter.len() - rest.len()];
    rest.contains(&format!("\n{fence}"))
}

/// Returns whether at least two characters follow an offset. Then a token of the body that ends there is final.
fn two_follow(text: &str, offset: usize) -> bool {
    text[offset..].chars().nth(1).is_some()
}

/// Returns how many tokens of a document are final, whatever is appended.
pub fn final_tokens(lexed: &LexedDocument) -> usize {
    if !is_head_final(lexed.text()) {
        return 0;
    }
    let last = lexed.pieces().rev();
    let open = last.take_while(|piece| !two_follow(lexed.text(), piece.range().end));
    let followed = lexed.tokens().len() - open.count();
    followed.max(lexed.body_start().index)
}

/// A document that is still arriving.
#[derive(Default)]
pub struct Stream {
    lexed: LexedDocument,
    /// How many tokens have been printed.
    printed: usize,
    /// The first bytes of a character that is still incomplete.
    cut: Vec<u8>,
}

impl Stream {
    /// Appends the next bytes, and writes the tokens that are now final.
    pub fn take(&mut self, bytes: &[u8], output: &mut impl Write) -> io::Result<()> {
        self.cut.extend_from_slice(bytes);
        let text = match str::from_utf8(&self.cut) {
            Err(error) if error.error_len().is_none() => {
                str::from_utf8(&self.cut[..error.valid_up_to()])
            }
            all => all,
        };
        let text = text.map_err(|_| not_utf8())?;
        let taken = text.len();
        let end = self.lexed.text().len();
        self.lexed.try_edit(end.., text).map_err(io::Error::other)?;
        self.cut.drain(..taken);
        self.print(final_tokens(&self.lexed), output)
    }

    /// Writes the remaining tokens at the end of the input.
    pub fn finish(mut self, output: &mut impl Write) -> io::Result<()> {
        if !self.cut.is_empty() {
            return Err(not_utf8());
        }
        self.print(self.lexed.tokens().len(), output)
    }

    fn print(&mut self, end: usize, output: &mut impl Write) -> io::Result<()> {
        for piece in self.lexed.pieces_by_index(self.printed..end) {
            let kind = piece.token.kind;
            writeln!(output, "{} {kind:?} {:?}", piece.start, piece.text)?;
        }
        self.printed = end;
        output.flush()
    }
}

fn not_utf8() -> io::Error {
    io::Error::new(io::ErrorKind::InvalidData, "standard input is not UTF-8")
}

fn main() -> ExitCode {
    common::run(|output| {
        let (mut input, mut stream) = (io::stdin().lock(), Stream::default());
        let mut buffer = vec![0; 1 << 16];
        loop {
            match input.read(&mut buffer)? {
                0 => return Ok(stream.finish(output)?),
                count => stream.take(&buffer[..count], output)?,
            }
        }
    })
}
