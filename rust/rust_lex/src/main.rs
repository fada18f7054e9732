//! Lists, checks and highlights the tokens of Rust files.
#![forbid(unsafe_code)]

mod arguments;
mod check;
mod errors;
mod help;
mod highlight;
mod inputs;
mod messages;
mod page;
mod position;
mod rustc_tokens;
mod tokens;

use arguments::{Command, Options, Request};
use check::Checker;
use highlight::Markup;
use inputs::{Failure, Input, Source, files_of, printable};
use rustc_lexer_highlight::STYLE_SHEET;
use std::env;
use std::fmt::Display;
use std::io::{self, BufWriter, ErrorKind, StdoutLock, Write};
use std::process::ExitCode;

/// The exit status. If several apply, the highest wins.
#[derive(Clone, Copy, PartialEq, Eq, PartialOrd, Ord)]
enum Status {
    Success = 0,
    /// `check` has found errors.
    Errors = 1,
    /// The arguments are wrong, an input cannot be read, or a write failed.
    Failure = 2,
}

fn main() -> ExitCode {
    let mut run = Run {
        output: BufWriter::with_capacity(1 << 16, io::stdout().lock()),
        status: Status::Success,
    };
    let done = match arguments::parse(env::args_os().skip(1)) {
        Ok(request) => run.execute(request),
        Err(message) => run.fail(printable(&message)),
    };
    match done.and_then(|()| run.output.flush()) {
        Ok(()) => {}
        // The reader has closed the pipe, for example `head`.
        Err(error) if error.kind() == ErrorKind::BrokenPipe => {}
        Err(error) => {
            run.status = Status::Failure;
            print_message(format_args!("standard output: {error}"));
        }
    }
    ExitCode::from(run.status as u8)
}

/// Prints a message on standard error. If that fails, the exit status still reports a failure.
fn print_message(message: impl Display) {
    // One write, since messages of processes that run at the same time can mix.
    let _ = io::stderr().write_all(format!("rust-lex: {message}\n").as_bytes());
}

/// A run of the program. Its methods return an error only if a write to the output fails.
struct Run {
    output: BufWriter<StdoutLock<'static>>,
    status: Status,
}

impl Run {
    fn execute(&mut self, request: Request) -> io::Result<()> {
        match request {
            Request::Help(text) => self.output.write_all(text.as_bytes()),
            Request::Version => writeln!(self.output, "rust-lex {}", env!("CARGO_PKG_VERSION")),
            Request::Run(Command::Tokens, options, inputs) => self.list(&options, inputs),
            Request::Run(Command::Check, options, inputs) => self.check(options, inputs),
            Request::Run(Command::Highlight, options, inputs) => self.highlight(&options, inputs),
        }
    }

    fn list(&mut self, options: &Options, inputs: Vec<Input>) -> io::Result<()> {
        let has_titles = inputs.len() > 1;
        self.for_each(inputs, |Source { input, text }, output| {
            if has_titles {
                writeln!(output, "==> {input} <==")?;
            }
            tokens::list(&text, options.edition(), output)
        })
    }

    fn highlight(&mut self, options: &Options, inputs: Vec<Input>) -> io::Result<()> {
        if options.markup == Some(Markup::Css) {
            return self.output.write_all(STYLE_SHEET.as_bytes());
        }
        let format = highlight::format(options.markup, options.color.unwrap_or_default());
        self.for_each(inputs, |Source { text, .. }, output| {
            highlight::write(&text, options.markup, format, options.edition(), output)
        })
    }

    /// Calls a function for each input, and reports those that cannot be read.
    fn for_each(
        &mut self,
        inputs: Vec<Input>,
        mut write: impl FnMut(Source, &mut BufWriter<StdoutLock>) -> io::Result<()>,
    ) -> io::Result<()> {
        for input in inputs {
            match input.read() {
                Ok(source) => write(source, &mut self.output)?,
                Err(failure) => self.fail(failure)?,
            }
        }
        Ok(())
    }

    fn check(&mut self, options: Options, inputs: Vec<Input>) -> io::Result<()> {
        let mut checker = Checker::new(options);
        let checked = self.check_inputs(inputs, &mut checker);
        // Also if nobody reads the output any more, as after `| head`.
        if checker.has_errors() {
            self.status = self.status.max(Status::Errors);
        }
        checked?;
        self.report(checker.summary())
    }

    fn check_inputs(&mut self, inputs: Vec<Input>, checker: &mut Checker) -> io::Result<()> {
        for input in inputs {
            let files = files_of(&input, checker.excluded());
            if files.is_empty() && input.is_folder() {
                self.report(format_args!("warning: no Rust files in {input}"))?;
            }
            for file in files {
                match file.and_then(Input::read) {
                    Ok(source) => checker.check(&source, &mut self.output)?,
                    Err(failure) => {
                        checker.add_failure(&failure, &mut self.output)?;
                        match failure {
                            Failure::Unreadable(..) => self.fail(failure)?,
                            Failure::NotUtf8(..) => self.status = Status::Failure,
                        }
                    }
                }
            }
        }
        Ok(())
    }

    /// Writes all output so far, and then reports a failure.
    fn fail(&mut self, message: impl Display) -> io::Result<()> {
        self.report(message)?;
        self.status = Status::Failure;
        Ok(())
    }

    /// Writes all output so far, and then prints a message.
    fn report(&mut self, message: impl Display) -> io::Result<()> {
        self.output.flush()?;
        print_message(message);
        Ok(())
    }
}
