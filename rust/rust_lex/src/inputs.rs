//! The inputs: files, standard input, and the files in folders.

use crate::position::Position;
use std::ffi::{OsStr, OsString};
use std::fmt;
use std::fs::{self, File};
use std::io::{self, Read};
use std::path::{MAIN_SEPARATOR, Path, PathBuf};

/// The maximum length of a text in bytes.
const MAX_LEN: u64 = u32::MAX as u64;

/// An input. Its `Display` is the name for messages.
#[derive(Clone)]
pub enum Input {
    Stdin,
    /// A file or a folder.
    Path(PathBuf),
}

impl Input {
    pub fn new(argument: OsString) -> Input {
        if argument == "-" {
            Input::Stdin
        } else {
            Input::Path(argument.into())
        }
    }

    pub fn is_folder(&self) -> bool {
        matches!(self, Input::Path(path) if path.is_dir())
    }

    /// Reads the whole text.
    pub fn read(self) -> Result<Source, Failure> {
        let bytes = match &self {
            Input::Stdin => read_all(io::stdin().lock(), 0),
            Input::Path(path) => File::open(path).and_then(|file| {
                let len = file.metadata()?.len();
                read_all(file, len)
            }),
        };
        match bytes.map(String::from_utf8) {
            Ok(Ok(text)) => Ok(Source { input: self, text }),
            Ok(Err(error)) => Err(Failure::NotUtf8(self, error.into_bytes())),
            Err(error) => Err(Failure::Unreadable(self, error)),
        }
    }
}

impl fmt::Display for Input {
    fn fmt(&self, f: &mut fmt::Formatter<'_>) -> fmt::Result {
        match self {
            Input::Stdin => f.write_str("<stdin>"),
            Input::Path(path) => f.write_str(&printable(&path.to_string_lossy())),
        }
    }
}

/// A text of at most `MAX_LEN` bytes.
pub struct Source {
    pub input: Input,
    pub text: String,
}

/// An input without a text. Its `Display` is a message.
pub enum Failure {
    Unreadable(Input, io::Error),
    /// These are the bytes.
    NotUtf8(Input, Vec<u8>),
}

impl fmt::Display for Failure {
    fn fmt(&self, f: &mut fmt::Formatter<'_>) -> fmt::Result {
        match self {
            Failure::Unreadable(input, error) => write!(f, "{input}: {error}"),
            Failure::NotUtf8(input, bytes) => {
                let (position, _) = Position::of_invalid_utf8(bytes);
                write!(f, "{input}:{position}: invalid UTF-8")
            }
        }
    }
}

/// Reads to the end, or fails if there are too many bytes. `len` is their number, or 0 if it is not known.
fn read_all(source: impl Read, len: u64) -> io::Result<Vec<u8>> {
    let mut bytes = Vec::new();
    if len <= MAX_LEN {
        bytes.try_reserve_exact(len as usize)?;
        source.take(MAX_LEN + 1).read_to_end(&mut bytes)?;
    }
    if len.max(bytes.len() as u64) > MAX_LEN {
        return Err(io::Error::other(format!("more than {MAX_LEN} bytes")));
    }
    Ok(bytes)
}

/// Returns a name or an argument without characters that a terminal obeys: they are escaped. A backslash is escaped
/// too, so that the result is unambiguous, except where it separates folders.
pub fn printable(text: &str) -> String {
    let mut printable = String::new();
    for c in text.chars() {
        let changes_direction = matches!(c, '\u{202a}'..='\u{202e}' | '\u{2066}'..='\u{2069}');
        if c.is_control() || changes_direction || c == '\\' && MAIN_SEPARATOR != '\\' {
            printable.extend(c.escape_default());
        } else {
            printable.push(c);
        }
    }
    printable
}

/// Returns the input if it is a file or standard input, and for a folder the `*.rs` files in it and in the folders
/// below, ordered by name, with the folders that cannot be read. Excluded files and folders are left out.
pub fn files_of(input: &Input, excluded: &[PathBuf]) -> Vec<Result<Input, Failure>> {
    let mut files = Vec::new();
    match input {
        Input::Path(path) if is_excluded(path, excluded) => {}
        Input::Path(path) if path.is_dir() => add_files_in(path, excluded, &mut files),
        _ => files.push(Ok(input.clone())),
    }
    files
}

fn add_files_in(folder: &Path, excluded: &[PathBuf], files: &mut Vec<Result<Input, Failure>>) {
    let entries = match entries(folder) {
        Ok(entries) => entries,
        Err(error) => {
            files.push(Err(Failure::Unreadable(Input::Path(folder.into()), error)));
            return;
        }
    };
    for (path, is_folder) in entries {
        if is_excluded(&path, excluded) {
            continue;
        }
        if is_folder {
            add_files_in(&path, excluded, files);
        } else {
            files.push(Ok(Input::Path(path)));
        }
    }
}

/// Returns the files to check and the folders to visit in a folder, ordered by name, and for each whether it is a
/// folder. Symbolic links are not followed.
fn entries(folder: &Path) -> io::Result<Vec<(PathBuf, bool)>> {
    let mut entries = Vec::new();
    for entry in fs::read_dir(folder)? {
        let entry = entry?;
        let (path, kind) = (entry.path(), entry.file_type()?);
        let is_source = kind.is_file() && path.extension() == Some(OsStr::new("rs"));
        if is_source || kind.is_dir() && !is_skipped(&path) {
            entries.push((path, kind.is_dir()));
        }
    }
    entries.sort();
    Ok(entries)
}

/// Returns whether a folder is hidden, or is a folder `target` that Cargo has marked as a cache.
fn is_skipped(folder: &Path) -> bool {
    let name = folder.file_name().unwrap_or_default();
    let is_hidden = name.as_encoded_bytes().starts_with(b".");
    is_hidden || name == "target" && folder.join("CACHEDIR.TAG").exists()
}

/// Returns whether a path is one of the excluded paths, or is below one.
fn is_excluded(path: &Path, excluded: &[PathBuf]) -> bool {
    let path = without_dot(path);
    excluded.iter().any(|it| path.starts_with(without_dot(it)))
}

/// Returns a path without `./` in front of it.
pub fn without_dot(path: &Path) -> &Path {
    path.strip_prefix(".").unwrap_or(path)
}
