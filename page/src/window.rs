//! Highlighted lines of a text: the output of `rustc_lexer_highlight`, parsed into runs of characters with a class.

use crate::source::Source;
use rustc_lexer_highlight::{Format, write_first_tokens, write_highlighted};
use rustc_lexer::Edition;
use std::fmt;
use std::ops::Range;

/// The maximum number of highlighted bytes in a line, and of messages next to it.
const LONG: usize = 4000;
const MOST_SAID: usize = 10;

/// A run of characters with the same style.
#[derive(Clone, Debug, Default, PartialEq, Eq)]
pub struct Run {
    /// The class, such as `keyword`; empty for plain text.
    pub class: String,
    /// Whether it is highlighted as an error.
    pub wrong: bool,
    /// Whether the last edit lexed it.
    pub fresh: bool,
    pub text: String,
}

/// A line: its runs, and the messages of the errors that start there.
#[derive(Clone, Debug, Default, PartialEq, Eq)]
pub struct Line {
    /// The runs, without the newline.
    pub runs: Vec<Run>,
    pub said: Vec<String>,
}

/// Returns the lines in a range of bytes, which ends at the end of a line. `fresh` is the range that the last edit
/// lexed.
pub fn lines_of(
    source: &Source,
    range: Range<usize>,
    fresh: Range<usize>,
    edition: usize,
) -> Vec<Line> {
    let (number, start) = source.token_start_at(edition, range.start);
    let mut window = Window {
        range,
        fresh,
        at: start,
        ..Window::default()
    };
    window.lines.push(Line::default());
    let year = Edition::ALL[edition];
    // writing fails at the end of the window, which is not an error
    let _ = if source.is_part(edition, number) {
        let (count, rest) = (
            source.tokens(edition).len() - number,
            &source.text()[start..],
        );
        write_first_tokens(Format::Html, year, count, rest, &mut window)
    } else {
        window.at = 0;
        write_highlighted(Format::Html, year, source.text(), &mut window)
    };
    window.lines
}

/// Parses the HTML while it is written.
#[derive(Default)]
struct Window {
    range: Range<usize>,
    fresh: Range<usize>,
    /// The offset in the text of the next character.
    at: usize,
    class: String,
    wrong: bool,
    /// The number of bytes in the line so far.
    in_line: usize,
    /// An incomplete tag or entity.
    held: String,
    lines: Vec<Line>,
}

impl fmt::Write for Window {
    fn write_str(&mut self, written: &str) -> fmt::Result {
        for c in written.chars() {
            match (self.held.chars().next(), c) {
                (None, '<' | '&') => self.held.push(c),
                (None, _) => self.put(c),
                (Some('<'), '>') => self.tag(),
                (Some('&'), ';') => self.entity(),
                (Some(_), _) => self.held.push(c),
            }
        }
        if self.at < self.range.end {
            Ok(())
        } else {
            Err(fmt::Error)
        }
    }
}

impl Window {
    /// Handles a complete tag.
    fn tag(&mut self) {
        let tag = std::mem::take(&mut self.held);
        let value = tag.split('"').nth(1).unwrap_or("");
        match tag.as_str() {
            "</mark" => self.wrong = false,
            "</span" => self.class.clear(),
            _ if tag.starts_with("<mark") => {
                self.wrong = true;
                if self.range.contains(&self.at) && self.line().said.len() < MOST_SAID {
                    self.line().said.push(value.to_string());
                }
            }
            _ => self.class = value.to_string(),
        }
    }

    fn line(&mut self) -> &mut Line {
        self.lines.last_mut().expect("there is always a line")
    }

    /// Handles a complete entity.
    fn entity(&mut self) {
        let entity = std::mem::take(&mut self.held);
        self.put(match &entity[1..] {
            "amp" => '&',
            "lt" => '<',
            "#13" => '\r',
            "#0" => '\0',
            _ => '>',
        });
    }

    /// Appends a character of the text.
    fn put(&mut self, c: char) {
        let at = self.at;
        self.at += c.len_utf8();
        if !self.range.contains(&at) {
            return;
        }
        if c == '\n' {
            self.in_line = 0;
            return self.lines.push(Line::default());
        }
        self.in_line += c.len_utf8();
        let (class, wrong, fresh) = match self.in_line {
            ..=LONG => (self.class.clone(), self.wrong, self.fresh.contains(&at)),
            _ => (String::new(), false, false),
        };
        match self.line().runs.last_mut() {
            Some(run) if run.class == class && run.wrong == wrong && run.fresh == fresh => {
                run.text.push(c)
            }
            _ => self.line().runs.push(Run {
                class,
                wrong,
                fresh,
                text: c.to_string(),
            }),
        }
    }
}
