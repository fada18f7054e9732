//! Incrementally lexed documents.

use crate::same;
use crate::texts::Random;
use rustc_lexer::{Edition, LexedDocument, tokenize_document};
use std::fmt::{Debug, Write};
use std::ops::Range;

/// A document in each edition, the newest one last.
pub struct Documents(Vec<LexedDocument>);

impl Documents {
    /// Returns a document, which can start with a shebang line or a frontmatter.
    pub fn new(random: &mut Random) -> Documents {
        let text = random.document();
        let lexed = |edition: &Edition| LexedDocument::new_in(&text, *edition);
        Documents(Edition::ALL.iter().map(lexed).collect())
    }

    /// Returns the text.
    pub fn text(&self) -> &str {
        self.0[0].text()
    }

    /// Applies an edit in each edition, and compares the tokens with a full re-lex, and in the newest edition with the
    /// original. Returns the number of compared lines, or the first lines that differ.
    pub fn edit(&mut self, range: Range<usize>, insert: &str) -> Result<usize, [String; 2]> {
        let mut made = self.text().to_owned();
        made.replace_range(range.clone(), insert);
        let mut count = 0;
        for lexed in &mut self.0 {
            lexed.edit(range.clone(), insert);
            let full = tokenize_document(&made, lexed.edition());
            let start = made.len() - full.as_str().len();
            let kept = answers(lexed.text(), lexed.tokens_start(), lexed.tokens().iter());
            count += same(&[answers(&made, start, full), kept.clone()])?;
            if lexed.edition() == Edition::NEWEST {
                let mark = if made.starts_with('\u{feff}') { 3 } else { 0 };
                let start = mark + original::strip_shebang(&made[mark..]).unwrap_or(0);
                let tokens = original::tokenize(&made[start..], original::FrontmatterAllowed::Yes);
                count += same(&[answers(&made, start, tokens), kept])?;
            }
        }
        Ok(count)
    }
}

/// Returns a text, the start of its tokens, and its tokens, as lines.
fn answers(text: &str, start: usize, tokens: impl Iterator<Item = impl Debug>) -> String {
    let mut lines = format!("text {text:?}\nstart {start}\n");
    for token in tokens {
        writeln!(lines, "{token:?}").expect("a String takes all that is written");
    }
    lines
}
