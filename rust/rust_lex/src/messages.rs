//! Messages of `check` in each format.

use crate::inputs::{Input, printable, without_dot};
use std::fmt::{self, Write as _};
use std::io::{self, Write};
use std::ops::Range;

/// The form of the messages.
#[derive(Clone, Copy, Default)]
pub enum MessageFormat {
    /// `FILE:LINE:COLUMN: error: MESSAGE`
    #[default]
    Short,
    /// Workflow commands of GitHub.
    GitHub,
    /// An object on each line.
    Json,
}

impl MessageFormat {
    pub const NAMES: [(&str, MessageFormat); 3] = [
        ("short", MessageFormat::Short),
        ("github", MessageFormat::GitHub),
        ("json", MessageFormat::Json),
    ];
}

/// An error or a warning in a file.
pub struct Finding<'a> {
    pub input: &'a Input,
    pub line: usize,
    pub column: usize,
    pub range: Range<usize>,
    pub severity: &'static str,
    pub code: &'a str,
    pub message: &'a str,
}

impl Finding<'_> {
    pub fn write(&self, format: MessageFormat, output: &mut impl Write) -> io::Result<()> {
        let (input, severity, code) = (self.input, self.severity, self.code);
        let (line, column, message) = (self.line, self.column, self.message);
        match format {
            MessageFormat::Short => {
                writeln!(output, "{input}:{line}:{column}: {severity}: {message}")
            }
            MessageFormat::GitHub => {
                let place = format!("line={line},col={column},");
                let title = format!("rust-lex ({code})");
                let message = format!("{line}:{column}: {message}");
                write_command(severity, input, &place, &title, &message, output)
            }
            MessageFormat::Json => {
                let file = match input {
                    Input::Stdin => "<stdin>".into(),
                    Input::Path(path) => path.to_string_lossy(),
                };
                let (file, message) = (JsonString(&file), JsonString(message));
                let Range { start, end } = self.range;
                write!(
                    output,
                    r#"{{"file":{file},"line":{line},"column":{column},"#
                )?;
                write!(
                    output,
                    r#""start":{start},"end":{end},"severity":"{severity}","#
                )?;
                writeln!(output, r#""code":"{code}","message":{message}}}"#)
            }
        }
    }
}

/// Writes a workflow command of GitHub for an input that cannot be read.
pub fn write_failure(input: &Input, error: &io::Error, output: &mut impl Write) -> io::Result<()> {
    write_command("error", input, "", "rust-lex", &format!(" {error}"), output)
}

/// Writes a workflow command. For standard input, it has no file and no place.
fn write_command(
    severity: &str,
    input: &Input,
    place: &str,
    title: &str,
    message: &str,
    output: &mut impl Write,
) -> io::Result<()> {
    let (place, name) = match input {
        Input::Stdin => (String::new(), input.to_string()),
        Input::Path(path) => {
            let path = without_dot(path).to_string_lossy();
            let file = escape(&path, "%\r\n:,");
            (format!("file={file},{place}"), printable(&path))
        }
    };
    let message = escape(&format!("{name}:{message}"), "%\r\n");
    writeln!(output, "::{severity} {place}title={title}::{message}")
}

/// Replaces the reserved characters of a workflow command by `%` and two hexadecimal digits.
fn escape(text: &str, reserved: &str) -> String {
    let mut escaped = String::new();
    for c in text.chars() {
        if reserved.contains(c) {
            escaped += &format!("%{:02X}", u32::from(c));
        } else {
            escaped.push(c);
        }
    }
    escaped
}

/// A text whose `Display` is a string in JSON.
struct JsonString<'a>(&'a str);

impl fmt::Display for JsonString<'_> {
    fn fmt(&self, f: &mut fmt::Formatter<'_>) -> fmt::Result {
        f.write_char('"')?;
        for c in self.0.chars() {
            match c {
                '"' | '\\' => write!(f, "\\{c}")?,
                '\0'..' ' => write!(f, "\\u{:04x}", u32::from(c))?,
                _ => f.write_char(c)?,
            }
        }
        f.write_char('"')
    }
}
