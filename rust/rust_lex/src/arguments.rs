//! Parses the arguments.

use crate::help;
use crate::highlight::{Color, Markup};
use crate::inputs::Input;
use crate::messages::MessageFormat;
use rustc_lexer::Edition;
use std::ffi::OsString;
use std::path::PathBuf;

/// What the arguments request.
pub enum Request {
    Help(&'static str),
    Version,
    Run(Command, Options, Vec<Input>),
}

#[derive(Clone, Copy, PartialEq, Eq)]
pub enum Command {
    Tokens,
    Check,
    Highlight,
}

const COMMANDS: [(&str, Command, &str); 3] = [
    ("tokens", Command::Tokens, help::TOKENS),
    ("check", Command::Check, help::CHECK),
    ("highlight", Command::Highlight, help::HIGHLIGHT),
];

/// The options that were given.
#[derive(Default)]
pub struct Options {
    edition: Option<Edition>,
    pub format: Option<MessageFormat>,
    pub denies_warnings: bool,
    pub allows_text_direction: bool,
    pub excluded: Vec<PathBuf>,
    pub color: Option<Color>,
    pub markup: Option<Markup>,
}

/// Parses the arguments after the program's name. The error is a message about an invalid argument.
pub fn parse(mut words: impl Iterator<Item = OsString>) -> Result<Request, String> {
    let Some(word) = words.next() else {
        return Err("no command: see 'rust-lex --help'".to_string());
    };
    match &*word.to_string_lossy() {
        "--help" | "-h" => Ok(Request::Help(help::PROGRAM)),
        "--version" | "-V" => Ok(Request::Version),
        "help" => match (words.next(), words.next()) {
            (None, _) => Ok(Request::Help(help::PROGRAM)),
            (Some(name), None) => Ok(Request::Help(command(&name.to_string_lossy())?.2)),
            (Some(_), Some(_)) => Err("help takes at most one command".to_string()),
        },
        name => parse_command(command(name)?, words),
    }
}

/// Returns the command with this name, and its help.
fn command(name: &str) -> Result<(&'static str, Command, &'static str), String> {
    let noun = if name.starts_with('-') {
        "option"
    } else {
        "command"
    };
    let command = COMMANDS.into_iter().find(|it| it.0 == name);
    command.ok_or_else(|| format!("unknown {noun} '{name}': see 'rust-lex --help'"))
}

/// Parses the arguments after a command.
fn parse_command(
    (name, command, help): (&str, Command, &'static str),
    mut words: impl Iterator<Item = OsString>,
) -> Result<Request, String> {
    let see_help = format!("see 'rust-lex {name} --help'");
    let (mut options, mut inputs) = (Options::default(), Vec::new());
    while let Some(word) = words.next() {
        if word == "-" || !word.as_encoded_bytes().starts_with(b"-") {
            inputs.push(Input::new(word));
            continue;
        }
        match &*word.to_string_lossy() {
            "--" => inputs.extend(words.by_ref().map(Input::new)),
            "--help" | "-h" => return Ok(Request::Help(help)),
            word => {
                let (name, value) = match word.split_once('=') {
                    Some((name, value)) => (name, Some(value)),
                    None => (word, None),
                };
                let words = &mut words;
                if !options.add(command, &mut Given { name, value, words })? {
                    return Err(format!("unknown option '{word}': {see_help}"));
                }
            }
        }
    }
    match (command, options.markup, inputs.len()) {
        (Command::Check, _, 0) => return Err(format!("no files: {see_help}")),
        (_, Some(Markup::Css), 1..) => return Err("--css takes no file".to_string()),
        (_, Some(Markup::Page | Markup::Fragment), 2..) => {
            return Err("--html takes at most one file".to_string());
        }
        (_, _, 0) => inputs.push(Input::Stdin),
        _ => {}
    }
    Ok(Request::Run(command, options, inputs))
}

impl Options {
    pub fn edition(&self) -> Edition {
        self.edition.unwrap_or(Edition::NEWEST)
    }

    /// Adds an option. Returns whether the command has it.
    fn add(&mut self, command: Command, given: &mut Given) -> Result<bool, String> {
        match (command, given.name) {
            (_, "--edition") => {
                let years: Vec<_> = Edition::ALL.iter().map(|it| (it.year(), *it)).collect();
                given.set(&mut self.edition, &years)?;
                Ok(true)
            }
            (Command::Tokens, _) => Ok(false),
            (Command::Check, _) => self.add_to_check(given),
            (Command::Highlight, _) => self.add_to_highlight(given),
        }
    }

    fn add_to_check(&mut self, given: &mut Given) -> Result<bool, String> {
        match given.name {
            "--format" => given.set(&mut self.format, &MessageFormat::NAMES)?,
            "-D" => self.denies_warnings = given.choice(&[("warnings", true)])?,
            "-Dwarnings" | "--deny-warnings" => self.denies_warnings = given.flag()?,
            "--allow" => self.allows_text_direction = given.choice(&[("text-direction", true)])?,
            "--exclude" => match given.value() {
                Some(path) => self.excluded.push(path.into()),
                None => return Err("--exclude needs a value: a file or a folder".to_string()),
            },
            _ => return Ok(false),
        }
        Ok(true)
    }

    fn add_to_highlight(&mut self, given: &mut Given) -> Result<bool, String> {
        let markup = match (given.name, given.value) {
            ("--color", _) => {
                given.set(&mut self.color, &Color::NAMES)?;
                return Ok(true);
            }
            ("--html", None) => Markup::Page,
            ("--html", Some(_)) => given.choice(&[("fragment", Markup::Fragment)])?,
            ("--css", _) => given.flag().map(|_| Markup::Css)?,
            ("--raw", _) => given.flag().map(|_| Markup::Raw)?,
            _ => return Ok(false),
        };
        match self.markup.replace(markup).map(Markup::option) {
            None => Ok(true),
            Some(earlier) if earlier == given.name => Err(format!("{earlier} is given twice")),
            Some(earlier) => Err(format!("{earlier} and {} exclude each other", given.name)),
        }
    }
}

/// An option in the arguments.
struct Given<'a> {
    name: &'a str,
    /// The value after `=`.
    value: Option<&'a str>,
    /// The next arguments.
    words: &'a mut dyn Iterator<Item = OsString>,
}

impl Given<'_> {
    /// Returns the value after `=` or, without that, the next argument.
    fn value(&mut self) -> Option<OsString> {
        let value = self.value.map(OsString::from);
        value.or_else(|| self.words.next())
    }

    /// Returns `true` for an option that takes no value.
    fn flag(&self) -> Result<bool, String> {
        match self.value {
            None => Ok(true),
            Some(_) => Err(format!("{} takes no value", self.name)),
        }
    }

    /// Returns the choice whose name is the value.
    fn choice<T: Copy>(&mut self, choices: &[(impl ToString, T)]) -> Result<T, String> {
        let option = self.name;
        let names: Vec<String> = choices.iter().map(|(name, _)| name.to_string()).collect();
        let expected = match &names[..] {
            [others @ .., last] if !others.is_empty() => format!("{} or {last}", others.join(", ")),
            _ => names.concat(),
        };
        let value = self.value();
        let value = value.ok_or_else(|| format!("{option} needs a value: {expected}"))?;
        let value = value.to_string_lossy();
        match names.iter().position(|name| *name == value) {
            Some(at) => Ok(choices[at].1),
            None => Err(format!(
                "invalid value '{value}' for {option}: expected {expected}"
            )),
        }
    }

    /// Sets an option to a choice, unless it is already set.
    fn set<T: Copy>(
        &mut self,
        option: &mut Option<T>,
        choices: &[(impl ToString, T)],
    ) -> Result<(), String> {
        match option.replace(self.choice(choices)?) {
            None => Ok(()),
            Some(_) => Err(format!("{} is given twice", self.name)),
        }
    }
}
