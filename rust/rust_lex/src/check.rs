//! Checks files: malformed tokens, and errors and warnings in literals.

use crate::arguments::Options;
use crate::errors::{TokenError, code_of, for_each_error, is_warning, message_of};
use crate::inputs::{Failure, Source};
use crate::messages::{Finding, MessageFormat, write_failure};
use crate::position::Position;
use std::io::{self, Write};
use std::path::PathBuf;

/// What a check has found so far.
#[derive(Default)]
pub struct Checker {
    options: Options,
    files: usize,
    failures: usize,
    errors: usize,
    warnings: usize,
}

impl Checker {
    pub fn new(options: Options) -> Checker {
        Checker {
            options,
            ..Checker::default()
        }
    }

    /// Writes a message for each error and warning of a file.
    pub fn check(&mut self, source: &Source, output: &mut impl Write) -> io::Result<()> {
        self.files += 1;
        let Source { input, text } = source;
        let mut position = Position::start_of(text);
        for_each_error(text, self.options.edition(), |range, error| {
            if error == TokenError::TextDirectionCodepoint && self.options.allows_text_direction {
                return Ok(());
            }
            position.advance_to(range.start);
            let severity = if is_warning(error) && !self.options.denies_warnings {
                self.warnings += 1;
                "warning"
            } else {
                self.errors += 1;
                "error"
            };
            let finding = Finding {
                input,
                line: position.line,
                column: position.column,
                severity,
                code: &code_of(error),
                message: &message_of(error, &text[range.clone()]),
                range,
            };
            finding.write(self.format(), output)
        })
    }

    /// Adds an input that is not checked. Writes a message if it is not UTF-8, or if the format has messages for files
    /// that cannot be read.
    pub fn add_failure(&mut self, failure: &Failure, output: &mut impl Write) -> io::Result<()> {
        self.failures += 1;
        match failure {
            Failure::NotUtf8(input, bytes) => {
                self.errors += 1;
                let (position, range) = Position::of_invalid_utf8(bytes);
                let finding = Finding {
                    input,
                    line: position.line,
                    column: position.column,
                    range,
                    severity: "error",
                    code: "invalid-utf8",
                    message: "invalid UTF-8",
                };
                finding.write(self.format(), output)
            }
            Failure::Unreadable(input, error) => match self.format() {
                MessageFormat::GitHub => write_failure(input, error, output),
                MessageFormat::Short | MessageFormat::Json => Ok(()),
            },
        }
    }

    /// Returns the files and folders that are not checked.
    pub fn excluded(&self) -> &[PathBuf] {
        &self.options.excluded
    }

    fn format(&self) -> MessageFormat {
        self.options.format.unwrap_or_default()
    }

    pub fn has_errors(&self) -> bool {
        self.errors > 0
    }

    /// Returns the summary, such as `2 files checked: 1 error, 0 warnings`.
    pub fn summary(&self) -> String {
        let not_checked = match self.failures {
            0 => String::new(),
            failures => format!(", {failures} not checked"),
        };
        let (files, errors) = (count(self.files, "file"), count(self.errors, "error"));
        let warnings = count(self.warnings, "warning");
        format!("{files} checked{not_checked}: {errors}, {warnings}")
    }
}

/// Returns a number and a noun, such as `1 file` or `2 files`.
fn count(number: usize, noun: &str) -> String {
    let plural = if number == 1 { "" } else { "s" };
    format!("{number} {noun}{plural}")
}
