//! Lines and columns.

use std::fmt;
use std::ops::Range;

/// A position in a file, which moves from the start to the end. Its `Display` is `LINE:COLUMN`.
///
/// Lines and columns count like in rustc: from 1, with columns in characters. A line ends after a newline, and a byte
/// order mark at the start of the file has no column.
pub struct Position<'a> {
    /// The text after the position.
    rest: &'a str,
    offset: usize,
    pub line: usize,
    pub column: usize,
}

impl<'a> Position<'a> {
    /// Returns the position at the start of a file, after its byte order mark.
    pub fn start_of(text: &'a str) -> Position<'a> {
        let rest = text.strip_prefix('\u{feff}').unwrap_or(text);
        Position {
            rest,
            offset: text.len() - rest.len(),
            line: 1,
            column: 1,
        }
    }

    /// Returns the position and the byte range of the first invalid bytes of a file that is not UTF-8.
    pub fn of_invalid_utf8(bytes: &'a [u8]) -> (Position<'a>, Range<usize>) {
        let (valid, invalid) = match bytes.utf8_chunks().next() {
            Some(chunk) => (chunk.valid(), chunk.invalid()),
            None => ("", &[][..]),
        };
        let mut position = Position::start_of(valid);
        position.advance_to(valid.len());
        (position, valid.len()..valid.len() + invalid.len())
    }

    /// Moves forward to a byte offset.
    pub fn advance_to(&mut self, offset: usize) {
        let (passed, rest) = self.rest.split_at(offset - self.offset);
        for c in passed.chars() {
            if c == '\n' {
                self.line += 1;
                self.column = 1;
            } else {
                self.column += 1;
            }
        }
        (self.rest, self.offset) = (rest, offset);
    }
}

impl fmt::Display for Position<'_> {
    fn fmt(&self, f: &mut fmt::Formatter<'_>) -> fmt::Result {
        write!(f, "{}:{}", self.line, self.column)
    }
}
