//! Prints files in colours, or one file as a web page.

use crate::page::{FOOT, HEAD};
use rustc_lexer_highlight::{Edition, Format, STYLE_SHEET, write_highlighted};
use std::env;
use std::fmt;
use std::io::{self, IsTerminal, Write};

/// When to print colours.
#[derive(Clone, Copy, Default)]
pub enum Color {
    /// Usually on a terminal, but environment variables can change that.
    #[default]
    Auto,
    Always,
    Never,
}

impl Color {
    pub const NAMES: [(&str, Color); 3] = [
        ("auto", Color::Auto),
        ("always", Color::Always),
        ("never", Color::Never),
    ];

    fn is_wanted(self) -> bool {
        match self {
            Color::Always => true,
            Color::Never => false,
            Color::Auto => {
                let value = |name| env::var_os(name).filter(|value| !value.is_empty());
                if value("NO_COLOR").is_some() {
                    false
                } else if value("CLICOLOR_FORCE").is_some_and(|value| value != "0") {
                    true
                } else {
                    value("CLICOLOR").is_none_or(|value| value != "0")
                        && value("TERM").is_some_and(|value| value != "dumb")
                        && io::stdout().is_terminal()
                }
            }
        }
    }
}

/// A form of output without colours.
#[derive(Clone, Copy, PartialEq, Eq)]
pub enum Markup {
    /// A web page.
    Page,
    /// The part of a web page that is the file.
    Fragment,
    /// The style sheet of the page.
    Css,
    /// Plain text with control characters as they are.
    Raw,
}

impl Markup {
    /// Returns the option that selects it.
    pub fn option(self) -> &'static str {
        match self {
            Markup::Page | Markup::Fragment => "--html",
            Markup::Css => "--css",
            Markup::Raw => "--raw",
        }
    }
}

/// Returns the output format for the options.
pub fn format(markup: Option<Markup>, color: Color) -> Format {
    match markup {
        Some(Markup::Page | Markup::Fragment | Markup::Css) => Format::Html,
        Some(Markup::Raw) => Format::Raw,
        None if color.is_wanted() => Format::Colours,
        None => Format::NoColours,
    }
}

/// Writes a file, or a whole page.
pub fn write(
    text: &str,
    markup: Option<Markup>,
    format: Format,
    edition: Edition,
    output: &mut impl Write,
) -> io::Result<()> {
    if markup != Some(Markup::Page) {
        return write_text(text, format, edition, output);
    }
    let [start, end] = HEAD;
    write!(output, "{start}{STYLE_SHEET}{end}")?;
    write_text(text, format, edition, output)?;
    output.write_all(FOOT.as_bytes())
}

fn write_text(
    text: &str,
    format: Format,
    edition: Edition,
    output: &mut impl Write,
) -> io::Result<()> {
    let mut output = TextOutput {
        output,
        error: Ok(()),
    };
    let written = if format == Format::Colours {
        let mut lines = ColoursOfLines {
            output: &mut output,
            colour: String::new(),
        };
        write_highlighted(format, edition, text, &mut lines)
    } else {
        write_highlighted(format, edition, text, &mut output)
    };
    written.or(output.error)
}

/// Writes text to a writer of bytes, and keeps its error.
struct TextOutput<'a, W> {
    output: &'a mut W,
    error: io::Result<()>,
}

impl<W: Write> fmt::Write for TextOutput<'_, W> {
    fn write_str(&mut self, text: &str) -> fmt::Result {
        self.error = self.output.write_all(text.as_bytes());
        if self.error.is_err() {
            Err(fmt::Error)
        } else {
            Ok(())
        }
    }
}

/// Repeats the colour of a token on each of its lines: pagers such as `less -R` reset it at the end of a line.
///
/// Highlighted text has no other escape sequences, since control characters are shown as symbols.
struct ColoursOfLines<W> {
    output: W,
    /// The escape sequences since the last reset.
    colour: String,
}

impl<W: fmt::Write> ColoursOfLines<W> {
    fn write_sequence(&mut self, sequence: &str) -> fmt::Result {
        if sequence == RESET {
            self.colour.clear();
        } else {
            self.colour.push_str(sequence);
        }
        self.output.write_str(sequence)
    }

    /// Writes text without escape sequences.
    fn write_shown(&mut self, text: &str) -> fmt::Result {
        if self.colour.is_empty() {
            return self.output.write_str(text);
        }
        let mut rest = text;
        while let Some((line, next)) = rest.split_once('\n') {
            self.output.write_str(line)?;
            self.output.write_str(RESET)?;
            self.output.write_char('\n')?;
            self.output.write_str(&self.colour)?;
            rest = next;
        }
        self.output.write_str(rest)
    }
}

const RESET: &str = "\x1b[0m";

impl<W: fmt::Write> fmt::Write for ColoursOfLines<W> {
    /// Writes text in which each escape sequence is complete.
    fn write_str(&mut self, text: &str) -> fmt::Result {
        let mut rest = text;
        while !rest.is_empty() {
            if rest.starts_with('\x1b') {
                let end = rest.bytes().position(|byte| byte == b'm');
                let end = end.map_or(rest.len(), |at| at + 1);
                self.write_sequence(&rest[..end])?;
                rest = &rest[end..];
            } else {
                let end = rest.find('\x1b').unwrap_or(rest.len());
                self.write_shown(&rest[..end])?;
                rest = &rest[end..];
            }
        }
        Ok(())
    }
}
