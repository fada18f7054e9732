//! Arguments that are rejected, the help and the version.

mod common;

use common::{check_ended, empty_folder, rust_lex, text_of};
use std::fs;

/// Arguments, separated by spaces, and the message.
#[rustfmt::skip]
const REJECTED: [(&str, &str); 50] = [
    ("", "no command: see 'rust-lex --help'"),
    ("check", "no files: see 'rust-lex check --help'"),
    ("check --edition 2021", "no files: see 'rust-lex check --help'"),
    ("check --", "no files: see 'rust-lex check --help'"),
    ("token", "unknown command 'token': see 'rust-lex --help'"),
    ("one.rs", "unknown command 'one.rs': see 'rust-lex --help'"),
    ("-x", "unknown option '-x': see 'rust-lex --help'"),
    ("--edition 2021 check one.rs", "unknown option '--edition': see 'rust-lex --help'"),
    ("check --version", "unknown option '--version': see 'rust-lex check --help'"),
    ("check one.rs --editions", "unknown option '--editions': see 'rust-lex check --help'"),
    ("check -x one.rs", "unknown option '-x': see 'rust-lex check --help'"),
    ("check --- one.rs", "unknown option '---': see 'rust-lex check --help'"),
    ("check --help=yes", "unknown option '--help=yes': see 'rust-lex check --help'"),
    ("check --deny-warnings=no one.rs", "--deny-warnings takes no value"),
    ("check -Dwarnings= one.rs", "-Dwarnings takes no value"),
    ("check --html one.rs", "unknown option '--html': see 'rust-lex check --help'"),
    ("tokens --color auto", "unknown option '--color': see 'rust-lex tokens --help'"),
    ("tokens --format short", "unknown option '--format': see 'rust-lex tokens --help'"),
    ("highlight --format short", "unknown option '--format': see 'rust-lex highlight --help'"),
    ("highlight --html=yes", "invalid value 'yes' for --html: expected fragment"),
    ("highlight --css=", "--css takes no value"),
    ("highlight --raw=", "--raw takes no value"),
    ("check one.rs --edition", "--edition needs a value: 2015, 2018, 2021 or 2024"),
    ("check --edition 2022 one.rs", "invalid value '2022' for --edition: expected 2015, 2018, 2021 or 2024"),
    ("tokens --edition=", "invalid value '' for --edition: expected 2015, 2018, 2021 or 2024"),
    ("highlight --edition=2021=", "invalid value '2021=' for --edition: expected 2015, 2018, 2021 or 2024"),
    ("check --edition one.rs", "invalid value 'one.rs' for --edition: expected 2015, 2018, 2021 or 2024"),
    ("check --format xml one.rs", "invalid value 'xml' for --format: expected short, github or json"),
    ("check -D errors one.rs", "invalid value 'errors' for -D: expected warnings"),
    ("check one.rs -D", "-D needs a value: warnings"),
    ("highlight --color Always", "invalid value 'Always' for --color: expected auto, always or never"),
    ("check --allow all one.rs", "invalid value 'all' for --allow: expected text-direction"),
    ("check one.rs --allow", "--allow needs a value: text-direction"),
    ("check one.rs --exclude", "--exclude needs a value: a file or a folder"),
    ("tokens --exclude one.rs", "unknown option '--exclude': see 'rust-lex tokens --help'"),
    ("highlight --allow text-direction", "unknown option '--allow': see 'rust-lex highlight --help'"),
    ("check --edition 2021 --edition=2021 one.rs", "--edition is given twice"),
    ("check --format short --format short one.rs", "--format is given twice"),
    ("highlight --color=auto --color auto", "--color is given twice"),
    ("highlight --html --html", "--html is given twice"),
    ("highlight --html --html=fragment", "--html is given twice"),
    ("highlight --raw --html", "--raw and --html exclude each other"),
    ("highlight --html=fragment --css", "--html and --css exclude each other"),
    ("highlight --css --raw", "--css and --raw exclude each other"),
    ("highlight --html one.rs one.rs", "--html takes at most one file"),
    ("highlight --html=fragment one.rs -", "--html takes at most one file"),
    ("highlight --css one.rs", "--css takes no file"),
    ("help token", "unknown command 'token': see 'rust-lex --help'"),
    ("help --x", "unknown option '--x': see 'rust-lex --help'"),
    ("help check check", "help takes at most one command"),
];

#[test]
fn rejected() {
    let folder = empty_folder("rejected");
    fs::write(folder.join("one.rs"), "0x").unwrap();
    for (line, message) in REJECTED {
        let words: Vec<&str> = line.split_whitespace().collect();
        let ended = rust_lex(&folder, &words).output().unwrap();
        check_ended(&ended, "", &format!("rust-lex: {message}\n"), 2, line);
    }
    let ended = rust_lex(&folder, &["check", "-\x1b"]).output().unwrap();
    let message = "rust-lex: unknown option '-\\u{1b}': see 'rust-lex check --help'\n";
    check_ended(&ended, "", message, 2, "an option with a control character");
}

#[test]
fn help_and_version() {
    let folder = empty_folder("help");
    let version = concat!("rust-lex ", env!("CARGO_PKG_VERSION"), "\n");
    for word in ["--version", "-V"] {
        let ended = rust_lex(&folder, &[word]).output().unwrap();
        check_ended(&ended, version, "", 0, word);
    }
    for (command, words) in [
        (
            &[][..],
            "tokens check highlight help --help --version status:",
        ),
        (&["tokens"], "--edition 2024 --help -- FILE"),
        (
            &["check"],
            "--edition --exclude --allow text-direction -D warnings --deny-warnings \
             --format short: github: json: --help -- FOLDER CACHEDIR.TAG status:",
        ),
        (
            &["highlight"],
            "--html --html=fragment --css --raw --color auto, always never \
             NO_COLOR CLICOLOR, CLICOLOR_FORCE TERM --edition --help --",
        ),
    ] {
        for option in ["--help", "-h"] {
            let ended = rust_lex(&folder, &[command, &[option]].concat())
                .output()
                .unwrap();
            let help = text_of(&ended.stdout).to_string();
            check_ended(&ended, &help, "", 0, option);
            assert!(help.contains("Usage: rust-lex "), "{help}");
            let has_editions = help.contains("2015, 2018, 2021 or 2024 (default: 2024)");
            assert_eq!(has_editions, !command.is_empty(), "{help}");
            for word in words.split(' ') {
                assert!(help.contains(word), "{word}");
            }
            assert!(
                help.lines().all(|line| line.chars().count() <= 80),
                "{help}"
            );
            if command == ["check"] {
                let statuses =
                    "  0   there are no errors, or only warnings\n  1   there are errors\n  2   ";
                assert!(help.contains(statuses), "{help}");
            }
            let mut same = rust_lex(&folder, &[&["help"], command].concat());
            check_ended(&same.output().unwrap(), &help, "", 0, "help COMMAND");
        }
    }
}

/// Names that are not UTF-8 or contain special characters, and how they are printed.
#[cfg(target_os = "linux")]
#[test]
fn names_of_files() {
    use std::os::unix::ffi::OsStrExt;
    let folder = empty_folder("names");
    for (name, printed) in [
        (&b"a\xff.rs"[..], "a\u{fffd}.rs"),
        (b"\x1b[31m\n.rs", "\\u{1b}[31m\\n.rs"),
        ("\u{202e}a\u{2069}.rs".as_bytes(), "\\u{202e}a\\u{2069}.rs"),
        ("\u{2066}\u{202a}.rs".as_bytes(), "\\u{2066}\\u{202a}.rs"),
        (b"\\n.rs", "\\\\n.rs"),
        ("\u{e9} \".rs".as_bytes(), "\u{e9} \".rs"),
    ] {
        let name = std::ffi::OsStr::from_bytes(name);
        fs::write(folder.join(name), "0x").unwrap();
        let ended = rust_lex(&folder, &["check"]).arg(name).output().unwrap();
        let line = format!("{printed}:1:1: error: number has no digits\n");
        let summary = "rust-lex: 1 file checked: 1 error, 0 warnings\n";
        check_ended(&ended, &line, summary, 1, printed);
    }
}
