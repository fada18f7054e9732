//! The text of the page, with its tokens in each edition.

use rustc_lexer::{
    Edition, FrontmatterAllowed, LexedDocument, LexedText, Pieces, Relexed, Token, TokenKind,
    tokenize, tokenize_document, tokenize_in,
};
use std::array::from_fn;
use std::ops::Range;

/// The number of editions.
pub const EDITIONS: usize = Edition::ALL.len();

/// The text, with its tokens in each edition.
pub struct Source {
    held: LexedModel,
    /// The offset at which each line starts.
    lines: Vec<usize>,
    last: Option<[Relexed; EDITIONS]>,
}

/// A text in each edition.
enum LexedModel {
    Fragment([LexedText; EDITIONS]),
    Document([LexedDocument; EDITIONS]),
}

impl LexedModel {
    fn new(text: &str, document: bool) -> LexedModel {
        if document {
            LexedModel::Document(from_fn(|at| LexedDocument::new_in(text, Edition::ALL[at])))
        } else {
            LexedModel::Fragment(from_fn(|at| LexedText::new_in(text, Edition::ALL[at])))
        }
    }

    fn edit(&mut self, range: Range<usize>, insert: &str) -> [Relexed; EDITIONS] {
        let range = || range.clone();
        match self {
            LexedModel::Fragment(texts) => texts.each_mut().map(|it| it.edit(range(), insert)),
            LexedModel::Document(texts) => texts.each_mut().map(|it| it.edit(range(), insert)),
        }
    }
}

#[cfg(test)]
impl Source {
    /// Returns a text whose tokens are lexed in these editions instead of those of `Edition::ALL`.
    pub fn in_editions(text: &str, document: bool, editions: [Edition; EDITIONS]) -> Source {
        let mut source = Source::new();
        source.change(text, document);
        source.held = match source.held {
            LexedModel::Fragment(_) => LexedModel::Fragment(editions.map(|it| LexedText::new_in(text, it))),
            LexedModel::Document(_) => LexedModel::Document(editions.map(|it| LexedDocument::new_in(text, it))),
        };
        source
    }
}

impl Source {
    pub fn new() -> Source {
        Source {
            held: LexedModel::new("", false),
            lines: vec![0],
            last: None,
        }
    }

    pub fn text(&self) -> &str {
        match &self.held {
            LexedModel::Fragment(texts) => texts[0].text(),
            LexedModel::Document(texts) => texts[0].text(),
        }
    }

    /// Returns the tokens in an edition, from `begin` on.
    pub fn tokens(&self, edition: usize) -> &[Token] {
        match &self.held {
            LexedModel::Fragment(texts) => texts[edition].tokens(),
            LexedModel::Document(texts) => texts[edition].tokens(),
        }
    }

    /// Returns the pieces of a range of tokens, by index.
    pub fn pieces_by_index(&self, edition: usize, numbers: Range<usize>) -> Pieces<'_> {
        match &self.held {
            LexedModel::Fragment(texts) => texts[edition].pieces_by_index(numbers),
            LexedModel::Document(texts) => texts[edition].pieces_by_index(numbers),
        }
    }

    /// Returns the offset of the first token: after a shebang line.
    pub fn begin(&self) -> usize {
        match &self.held {
            LexedModel::Fragment(_) => 0,
            LexedModel::Document(texts) => texts[0].tokens_start(),
        }
    }

    /// Returns whether the text is a whole document.
    pub fn is_document(&self) -> bool {
        matches!(self.held, LexedModel::Document(_))
    }

    /// Returns the counts of the last change in an edition, or `None` if it was a full re-lex.
    pub fn last(&self, edition: usize) -> Option<Relexed> {
        self.last.map(|last| last[edition])
    }

    pub fn line_count(&self) -> usize {
        self.lines.len()
    }

    /// Returns the offset at which a line starts, or the length of the text if there are fewer lines.
    pub fn line_start(&self, line: usize) -> usize {
        self.lines.get(line).copied().unwrap_or(self.text().len())
    }

    /// Returns the line and the column of an offset, from 1. Columns count characters.
    pub fn place(&self, at: usize) -> (usize, usize) {
        let line = self.lines.partition_point(|start| *start <= at);
        let before = &self.text()[self.lines[line - 1]..at];
        (line, before.chars().count() + 1)
    }

    /// Converts an offset in UTF-16 code units to one in bytes.
    pub fn byte_of(&self, units: usize) -> usize {
        let mut left = units;
        let found = self.text().char_indices().find(|(_, c)| {
            let past = left < c.len_utf16();
            left = left.saturating_sub(c.len_utf16());
            past
        });
        found.map_or(self.text().len(), |(at, _)| at)
    }

    /// Returns the index and the start of the first token that ends after an offset.
    pub fn token_start_at(&self, edition: usize, byte: usize) -> (usize, usize) {
        let byte = byte.max(self.begin());
        let found = match &self.held {
            LexedModel::Fragment(texts) => texts[edition].token_start_at(byte),
            LexedModel::Document(texts) => texts[edition].token_start_at(byte),
        };
        found.map_or((self.tokens(edition).len(), self.text().len()), |at| {
            (at.index, at.offset)
        })
    }

    /// Returns whether neither a shebang line nor a frontmatter can be at a token, so that the text from there on can
    /// be lexed as a fragment.
    pub fn is_part(&self, edition: usize, number: usize) -> bool {
        let mut before = self.tokens(edition)[..number].iter();
        !self.is_document() || before.any(|token| token.kind != TokenKind::Whitespace)
    }

    /// Replaces the text, and re-lexes only the part that differs. Strips the common prefix, then the common suffix,
    /// and applies the rest as one edit.
    pub fn change(&mut self, new: &str, document: bool) {
        let old = self.text();
        let front = shared_front(old, new);
        let back = shared_back(&old[front..], &new[front..]);
        let (range, insert) = (front..old.len() - back, &new[front..new.len() - back]);
        if document != self.is_document() {
            self.last = None;
            self.held = LexedModel::new(new, document);
        } else if !(range.is_empty() && insert.is_empty()) {
            self.last = Some(self.held.edit(range, insert));
        }
        let ends = new.bytes().enumerate().filter(|(_, byte)| *byte == b'\n');
        let starts = ends.map(|(at, _)| at + 1);
        self.lines = std::iter::once(0).chain(starts).collect();
    }

    /// Returns `yes`, or the first year whose tokens differ from a full re-lex.
    pub fn as_lexed_anew(&self) -> String {
        let text = self.text();
        for (number, &edition) in Edition::ALL.iter().enumerate() {
            let held = || self.tokens(number).iter().copied();
            let same = match self.held {
                LexedModel::Document(_) => tokenize_document(text, edition).eq(held()),
                LexedModel::Fragment(_) if edition == Edition::NEWEST => {
                    tokenize(text, FrontmatterAllowed::No).eq(held())
                }
                LexedModel::Fragment(_) => tokenize_in(text, edition).eq(held()),
            };
            if !same {
                return edition.year().to_string();
            }
        }
        "yes".to_string()
    }
}

/// Returns the length of the common prefix of two texts, in whole characters.
fn shared_front(old: &str, new: &str) -> usize {
    let pairs = old.bytes().zip(new.bytes());
    let mut front = pairs.take_while(|(a, b)| a == b).count();
    while !old.is_char_boundary(front) || !new.is_char_boundary(front) {
        front -= 1;
    }
    front
}

/// Returns the length of the common suffix of two texts, in whole characters.
fn shared_back(old: &str, new: &str) -> usize {
    let pairs = old.bytes().rev().zip(new.bytes().rev());
    let mut back = pairs.take_while(|(a, b)| a == b).count();
    while !old.is_char_boundary(old.len() - back) || !new.is_char_boundary(new.len() - back) {
        back -= 1;
    }
    back
}
