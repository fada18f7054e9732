//! Runs a program as a process. With PROGRAMS=FOLDER the program is
//! FOLDER/NAME/out/NAME, which `rt ci` builds.

use std::env;
use std::fs::File;
use std::path::Path;
use std::process::Command;

/// A shell command with `$P` for the program, the output, the message after the program's name, and the status.
pub type Row = (&'static str, &'static str, &'static str, i32);

/// Runs each command in Cargo's folder for the files of tests.
pub fn check_rows(name: &str, built: &str, rows: &[Row]) {
    let program = match env::var("PROGRAMS") {
        Ok(folder) => format!("{folder}/{name}/out/{name}"),
        Err(_) => built.to_string(),
    };
    for &(command, output, message, status) in rows {
        let mut shell = Command::new("sh");
        shell.args(["-c", command]).env("P", &program);
        shell.current_dir(env!("CARGO_TARGET_TMPDIR"));
        let ended = shell.env_remove("NO_COLOR").output().unwrap();
        let errors = match message {
            "" => String::new(),
            _ => format!("{name}: {message}\n"),
        };
        assert_eq!(String::from_utf8_lossy(&ended.stderr), errors, "{command}");
        assert_eq!(String::from_utf8_lossy(&ended.stdout), output, "{command}");
        assert_eq!(ended.status.code(), Some(status), "{command}");
    }
}

/// Runs both builds on each source of the repository, with each line of arguments. Their output, errors and status must
/// be the same.
pub fn check_builds(name: &str, built: &str, lines: &[&str]) {
    let folder = env::var("PROGRAMS").expect("PROGRAMS is the folder with the other build");
    let programs = [built.to_string(), format!("{folder}/{name}/out/{name}")];
    let files = Command::new("git")
        .args(["ls-files", "*.rs", "*.rt"])
        .current_dir(folder + "/..")
        .output()
        .unwrap();
    let files = String::from_utf8(files.stdout).unwrap();
    assert!(files.lines().count() > 300);
    for file in files.lines() {
        for line in lines {
            let [one, other] = programs.each_ref().map(|program| {
                let source = File::open(Path::new("../..").join(file)).unwrap();
                let mut process = Command::new(program);
                process.args(line.split_whitespace()).stdin(source);
                process.output().unwrap()
            });
            assert_eq!(one, other, "{line} of {file}");
        }
    }
}
