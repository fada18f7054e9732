//! Runs the program on the files of a test, in a folder of its own.
#![allow(dead_code, reason = "not every test uses everything")]

use std::fs;
use std::io::Write;
use std::path::{Path, PathBuf};
use std::process::{Command, Output, Stdio};

/// Returns an empty folder with this name, in Cargo's folder for files of tests.
pub fn empty_folder(name: &str) -> PathBuf {
    let folder = PathBuf::from(env!("CARGO_TARGET_TMPDIR")).join(name);
    if folder.exists() {
        fs::remove_dir_all(&folder).unwrap();
    }
    fs::create_dir_all(&folder).unwrap();
    folder
}

/// Returns the program with these arguments, in this folder.
pub fn rust_lex(folder: &Path, arguments: &[&str]) -> Command {
    let mut command = Command::new(env!("CARGO_BIN_EXE_rust-lex"));
    command.current_dir(folder).args(arguments);
    without_colour_variables(&mut command).stdin(Stdio::null());
    command
}

fn without_colour_variables(command: &mut Command) -> &mut Command {
    let command = command.env_remove("NO_COLOR");
    command.env_remove("CLICOLOR").env_remove("CLICOLOR_FORCE")
}

/// Runs a command with this text on standard input.
pub fn run_with_input(command: &mut Command, input: &[u8]) -> Output {
    command.stdin(Stdio::piped());
    command.stdout(Stdio::piped()).stderr(Stdio::piped());
    let mut child = command.spawn().unwrap();
    // A program that does not read its input can have ended by now.
    let _ = child.stdin.take().unwrap().write_all(input);
    child.wait_with_output().unwrap()
}

/// Returns the output of a process as text.
pub fn text_of(bytes: &[u8]) -> &str {
    std::str::from_utf8(bytes).unwrap()
}

/// Checks the output, the messages and the status of a process.
#[track_caller]
pub fn check_ended(ended: &Output, output: &str, messages: &str, status: i32, about: &str) {
    assert_eq!(text_of(&ended.stderr), messages, "{about}");
    assert_eq!(text_of(&ended.stdout), output, "{about}");
    assert_eq!(ended.status.code(), Some(status), "{about}");
}

/// Returns the summary on standard error, for a number of files and the lines on standard output.
pub fn summary(files: usize, lines: &str) -> String {
    let count = |number, noun| format!("{number} {noun}{}", if number == 1 { "" } else { "s" });
    let [errors, warnings] = [": error: ", ": warning: "].map(|it| lines.matches(it).count());
    let (errors, warnings) = (count(errors, "error"), count(warnings, "warning"));
    format!(
        "rust-lex: {} checked: {errors}, {warnings}\n",
        count(files, "file")
    )
}

/// A shell command with `$P` for the program, its output, its messages, and its exit status.
pub type ShellCase<'a> = (&'a str, &'a str, &'a str, i32);

/// Runs each command in this folder.
pub fn check_shell(folder: &Path, cases: &[ShellCase<'_>]) {
    for &(command, output, messages, status) in cases {
        let mut shell = Command::new("sh");
        shell.args(["-c", command]).current_dir(folder);
        shell.env("P", env!("CARGO_BIN_EXE_rust-lex"));
        without_colour_variables(&mut shell).stdin(Stdio::null());
        check_ended(&shell.output().unwrap(), output, messages, status, command);
    }
}
