//! A document of a language server. It applies changes at UTF-16 positions and answers requests for semantic tokens:
//! all of them, the changes since the last answer, or the visible ones.
//!
//! `cargo run -p verified-rustc-lexer-highlight --example lsp -- FILE` prints all tokens. Then it reads changes from
//! standard input, one per line, as LINE CHARACTER LINE CHARACTER TEXT, and prints how the tokens change.

#![allow(
    missing_docs,
    clippy::missing_errors_doc,
    clippy::must_use_candidate,
    reason = "an example has no public interface"
)]

use rustc_lexer::{EditError, LexedDocument, Piece, Pieces, Relexed};
use rustc_lexer_highlight::{Class, Edition, KeywordKind, class_of, keyword_kind};
use std::error::Error;
use std::io::{self, Write};
use std::ops::Range;
use std::{env, fs};

/// The token types by number. A server announces them when it starts, with the modifiers by bit.
pub const TYPES: [&str; 6] = ["comment", "keyword", "type", "string", "number", "lifetime"];
pub const MODIFIERS: [&str; 1] = ["documentation"];

/// A line, and an offset in it in UTF-16 units. Both count from 0.
pub type Position = (usize, usize);

/// A change to the numbers that were sent last: replaces `deleted` of them, from the index `start` on, with `data`.
#[derive(Debug, PartialEq, Eq)]
pub struct Delta {
    pub start: usize,
    pub deleted: usize,
    pub data: Vec<u32>,
}

/// A document, and the state of its client.
pub struct Document {
    lexed: LexedDocument,
    /// The offset of each line, and the end of the last one.
    lines: Vec<usize>,
    /// How many numbers were last sent for each token.
    counts: Vec<usize>,
    /// Which of these tokens all changes since then have kept.
    changes: Relexed,
}

impl Document {
    pub fn open(text: &str, edition: Edition) -> Result<Document, EditError> {
        let lexed = LexedDocument::try_new_in(text, edition)?;
        Ok(Document {
            changes: Relexed::none(lexed.tokens().len()),
            lexed,
            lines: lines(text),
            counts: Vec::new(),
        })
    }

    /// Replaces a range, or the whole text if `at` is `None`. Positions refer to the text after all previous changes.
    pub fn change(&mut self, at: Option<Range<Position>>, insert: &str) -> Result<(), EditError> {
        let relexed = match at.map(|at| self.offset(at.start)..self.offset(at.end)) {
            Some(range) => self.lexed.try_edit(range, insert)?,
            None => self.lexed.try_set_text(insert)?,
        };
        self.lines = lines(self.lexed.text());
        self.changes = self.changes.then(relexed, self.counts.len());
        Ok(())
    }

    /// Returns five numbers for each line of each highlighted token: the distance in lines from the previous one, the
    /// distance from the previous one on the same line or from the start of the line, the length, the type, and the
    /// modifiers. Distances in a line and lengths are in UTF-16 units.
    pub fn full(&mut self) -> Vec<u32> {
        self.counts.clear();
        self.changes = Relexed::none(self.lexed.tokens().len());
        self.delta().data
    }

    /// Returns the change from the numbers that were sent last to the numbers of the current text.
    pub fn delta(&mut self) -> Delta {
        let (front, back) = (self.changes.kept_front, self.changes.kept_back);
        // Positions are relative to the previous token, so the first highlighted one at the back is sent again.
        let mut old = self.counts[self.counts.len() - back..].iter();
        let back = back - old.position(|&count| count > 0).map_or(0, |at| at + 1);
        let (end, old_end) = (self.lexed.tokens().len() - back, self.counts.len() - back);
        let place = self.place_before(front).unwrap_or(0);
        let (data, counts) = self.encode(place, self.lexed.pieces_by_index(front..end));
        let delta = Delta {
            start: self.counts[..front].iter().sum(),
            deleted: self.counts.splice(front..old_end, counts).sum(),
            data,
        };
        self.changes = Relexed::all(self.counts.len());
        delta
    }

    /// Returns the offset of the last highlighted part before a token.
    fn place_before(&self, number: usize) -> Option<usize> {
        let shown = self.counts[..number].iter().rposition(|&count| count > 0)?;
        let last = self.lexed.pieces_by_index(shown..).next()?;
        Some(parts(last).last()?.start)
    }

    /// Returns the numbers of all tokens with a part in the range, for example in the visible lines.
    pub fn viewport(&self, range: Range<Position>) -> Vec<u32> {
        let range = self.offset(range.start)..self.offset(range.end);
        self.encode(0, self.lexed.pieces_in_bytes(range)).0
    }

    /// Returns the offset of a position, or the end of its line or of the text if the position is after it.
    fn offset(&self, (line, character): Position) -> usize {
        let Some(&[start, stop]) = self.lines.windows(2).nth(line) else {
            return self.lexed.text().len();
        };
        let line = self.lexed.text()[start..stop].trim_end_matches(['\r', '\n']);
        let mut units = 0;
        let before = line.chars().take_while(|c| {
            units += c.len_utf16();
            units <= character
        });
        start + before.map(char::len_utf8).sum::<usize>()
    }

    /// Returns the numbers of the pieces, the first one relative to the offset `last`, and how many numbers each piece
    /// has.
    fn encode(&self, mut last: usize, pieces: Pieces<'_>) -> (Vec<u32>, Vec<usize>) {
        let units = |range: Range<usize>| self.lexed.text()[range].encode_utf16().count() as u32;
        let line_of = |at: usize| self.lines.partition_point(|&start| start <= at) - 1;
        let (mut data, mut counts) = (Vec::new(), Vec::new());
        for piece in pieces {
            let before = data.len();
            if let Some([kind, modifiers]) = paint(piece, self.lexed.edition()) {
                for part in parts(piece) {
                    let line = line_of(part.start);
                    let lines = (line - line_of(last)) as u32;
                    let place = units(last.max(self.lines[line])..part.start);
                    last = part.start;
                    data.extend([lines, place, units(part), kind, modifiers]);
                }
            }
            counts.push(data.len() - before);
        }
        (data, counts)
    }
}

/// Returns the part of a piece on each of its lines, without line endings.
fn parts(piece: Piece<'_>) -> impl Iterator<Item = Range<usize>> {
    let mut at = piece.range().start;
    let parts = piece.text.split(['\r', '\n']).map(move |part| {
        let start = at;
        at += part.len() + 1;
        start..at - 1
    });
    parts.filter(|part| !part.is_empty())
}

/// Returns the type and the modifiers of a token. Whitespace, symbols and plain names have none: the client colours
/// them.
fn paint(piece: Piece<'_>, edition: Edition) -> Option<[u32; 2]> {
    let word = keyword_kind(piece.text, edition);
    match class_of(piece.token.kind, piece.text, edition) {
        Class::Comment => Some([0, 0]),
        Class::Doc => Some([0, 1]),
        Class::TypeName => Some([2, 0]),
        Class::Text => Some([3, 0]),
        Class::Number => Some([4, 0]),
        Class::Lifetime => Some([5, 0]),
        _ => matches!(word, Some(KeywordKind::Strict | KeywordKind::Reserved)).then_some([1, 0]),
    }
}

/// Returns the offsets of the lines of a text, and its end. A line ends with `\n`, `\r\n` or `\r`.
fn lines(text: &str) -> Vec<usize> {
    let ends = text.match_indices(['\r', '\n']).map(|(at, _)| at + 1);
    let starts = ends.filter(|&at| !text[at - 1..].starts_with("\r\n"));
    [0].into_iter().chain(starts).chain([text.len()]).collect()
}

fn answer(mut document: Document, mut output: impl Write) -> Result<(), Box<dyn Error>> {
    writeln!(output, "{:?}", document.full())?;
    for line in io::stdin().lines() {
        let line = line?;
        let mut words = line.splitn(5, ' ');
        let mut number = || words.next().unwrap_or("").parse::<usize>();
        let range = (number()?, number()?)..(number()?, number()?);
        document.change(Some(range), words.next().unwrap_or(""))?;
        writeln!(output, "{:?}", document.delta())?;
    }
    Ok(())
}

fn main() -> Result<(), Box<dyn Error>> {
    let usage = "usage: cargo run -p verified-rustc-lexer-highlight --example lsp -- FILE";
    let path = env::args().nth(1).ok_or(usage)?;
    let text = fs::read_to_string(&path).map_err(|error| format!("{path}: {error}"))?;
    let ended = answer(Document::open(&text, Edition::NEWEST)?, io::stdout());
    let is_closed = |error: &io::Error| error.kind() == io::ErrorKind::BrokenPipe;
    match ended {
        // The reader has closed the pipe, for example `head -1`.
        Err(error) if error.downcast_ref().is_some_and(is_closed) => Ok(()),
        ended => ended,
    }
}
