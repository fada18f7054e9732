//! `rust-lex check`: its output for files and folders, its messages and its exit status.

mod common;

use common::{check_ended, check_shell, empty_folder, run_with_input, rust_lex, summary, text_of};
use std::fs;
use std::path::PathBuf;

/// Checks the output and the exit status for a file `a.rs` with this text, in a folder with this name.
fn check_text(name: &str, arguments: &[&str], text: &str, output: &str, status: i32) {
    let folder = empty_folder(name);
    fs::write(folder.join("a.rs"), text).unwrap();
    let arguments = [&["check"], arguments, &["a.rs"]].concat();
    let ended = rust_lex(&folder, &arguments).output().unwrap();
    check_ended(&ended, output, &summary(1, output), status, text);
}

#[test]
fn files() {
    for (text, output, status) in [
        ("", "", 0),
        ("fn main() {}\n", "", 0),
        // Syntax is not checked.
        ("fn fn } 'a' 1.5\n", "", 0),
        ("let x = 0x;", "a.rs:1:9: error: number has no digits\n", 1),
        (
            "/*\n*/ \"a",
            "a.rs:2:4: error: unterminated string: missing closing quote\n",
            1,
        ),
        (
            "\t/* /* */\n",
            "a.rs:1:2: error: unterminated block comment\n",
            1,
        ),
        (
            "¬\n  1e \u{1f642}é\n",
            "a.rs:1:1: error: unexpected character U+00AC: no token starts with it\n\
             a.rs:2:3: error: exponent has no digits\n\
             a.rs:2:6: error: invalid identifier: contains an emoji\n",
            1,
        ),
        (
            "\"é\u{1f642}\\q\\w\n\\u{}\" '' 'ab'",
            "a.rs:1:4: error: unknown escape: write a backslash as `\\\\`\n\
             a.rs:1:6: error: unknown escape: write a backslash as `\\\\`\n\
             a.rs:2:1: error: empty escape: `\\u` needs one to six hexadecimal digits\n\
             a.rs:2:8: error: empty literal: expected one character\n\
             a.rs:2:11: error: too many characters: expected one between single quotes\n",
            1,
        ),
        (
            // The token has an error, and so do its contents.
            "b\"\\u{41}\"_",
            "a.rs:1:1: error: invalid literal suffix `_`\n\
             a.rs:1:3: error: `\\u` in a byte or byte string: use `\\x`\n",
            1,
        ),
    ] {
        check_text("files", &[], text, output, status);
    }
}

#[test]
fn warnings() {
    let lines = "a.rs:1:3: warning: skipped blank line: an escaped newline skips it too\n";
    let space = "a.rs:1:3: warning: \
        unskipped whitespace: an escaped newline skips only spaces, tabs and line endings\n";
    let error = "a.rs:3:4: error: exponent has no digits\n";
    for (text, output, status) in [
        ("\"a\\\n\n b\"", lines.to_string(), 0),
        ("\"a\\\n \u{a0}b\"", space.to_string(), 0),
        ("\"a\\\n\n \u{a0}b\"", format!("{lines}{space}"), 0),
        ("\"a\\\n\n b\"1e", format!("{lines}{error}"), 1),
    ] {
        check_text("warnings", &[], text, &output, status);
    }
}

#[test]
fn starts_of_files() {
    let empty = "number has no digits\n";
    let unclosed = "unclosed frontmatter: missing closing fence\n";
    for (text, output) in [
        ("\u{feff}0x", format!("a.rs:1:1: error: {empty}")),
        ("\u{feff}\n0x", format!("a.rs:2:1: error: {empty}")),
        (
            "\u{feff}#!/bin/sh \"\n 0x",
            format!("a.rs:2:2: error: {empty}"),
        ),
        (
            "#!/bin/sh \"\n---\n\"\n---\n0x",
            format!("a.rs:5:1: error: {empty}"),
        ),
        (
            "\u{feff}---\n\"\n---\n0x",
            format!("a.rs:4:1: error: {empty}"),
        ),
        ("#!/bin/sh\n\n---\n", format!("a.rs:3:1: error: {unclosed}")),
        (
            "\u{feff}\u{feff}",
            "a.rs:1:1: error: unexpected character U+FEFF: no token starts with it\n".to_string(),
        ),
    ] {
        check_text("starts_of_files", &[], text, &output, 1);
    }
}

#[test]
fn line_endings() {
    let empty = "number has no digits\n";
    for (text, output) in [
        ("\r\n\r\n 0x", format!("a.rs:3:2: error: {empty}")),
        // A bare carriage return is a character of its line.
        ("\r0x", format!("a.rs:1:2: error: {empty}")),
        ("\"\r\n\" 0x", format!("a.rs:2:3: error: {empty}")),
        (
            "\"a\r\nb\rc\" r\"\r\"",
            "a.rs:2:2: error: bare CR in a literal: write it as `\\r`\n\
             a.rs:2:8: error: bare CR in a raw string\n"
                .to_string(),
        ),
    ] {
        check_text("line_endings", &[], text, &output, 1);
    }
    let lines = "a.rs:1:3: warning: skipped blank line: an escaped newline skips it too\n";
    check_text("line_endings", &[], "\"a\\\r\n\r\n b\"", lines, 0);
    check_text("line_endings", &[], "/// a\r\n\"a\r\nb\"\r\n", "", 0);
}

#[test]
fn editions() {
    let prefix = "unknown prefix before a quote or `#`\n";
    let guarded = "reserved syntax: guarded string\n";
    let escape = "unknown escape: write a backslash as `\\\\`\n";
    let unterminated = "unterminated string: missing closing quote\n";
    let long = "too many characters: expected one between single quotes\n";
    let empty = "number has no digits\n";
    let no_break_space = "unexpected character U+00A0: no token starts with it\n";
    // A text, and a column and a message for each error.
    for (years, text, errors) in [
        (&["2021", "2024"][..], "z\"a\"", &[(1, prefix)][..]),
        (&["2015", "2018"], "z\"a\"", &[]),
        // Before 2021, `k` is a name. rustc has no forced keywords.
        (
            &["2015", "2018"],
            "k#b\"\\q\" 0x",
            &[(5, escape), (9, empty)],
        ),
        (
            &["2021", "2024"],
            "k#b\"\\q\" 0x",
            &[(1, prefix), (5, escape), (9, empty)],
        ),
        (&["2024"], "k#a\"\"", &[(1, prefix), (3, prefix)]),
        // Before 2021, C strings are a name and a string or hashes.
        (
            &["2015", "2018", "2021", "2024"],
            "c\"\\q\" 0x",
            &[(3, escape), (7, empty)],
        ),
        (&["2015", "2018"], "c\"\0\" c\"a", &[(7, unterminated)]),
        (&["2021", "2024"], "cr\"\\q\" cr#\"\\q\"#", &[]),
        (
            &["2015", "2018"],
            "cr\"\\q\" 0x",
            &[(4, escape), (8, empty)],
        ),
        (
            &["2015", "2018"],
            "cr#\"\\q\"# cr##a 0x",
            &[(5, escape), (16, empty)],
        ),
        (
            &["2015", "2018"],
            "cr#a#\"\\q\" c\"\"c\"\" 0x",
            &[(7, escape), (18, empty)],
        ),
        // After the first one, rustc reads no-break spaces as whitespace.
        (
            &["2018", "2024"],
            "a\u{a0}\u{a0}b\u{a0}0x",
            &[(2, no_break_space), (6, empty)],
        ),
        // In a literal with another error, rustc does not look for characters that change the direction.
        (
            &["2018", "2024"],
            "\"\u{202e}\\q\" '\u{202e}a'",
            &[(3, escape), (8, long)],
        ),
        // After a name, `#!` starts no shebang line.
        (&["2015", "2018"], "cr#!x 0x", &[(7, empty)]),
        // Since 2021, a raw lifetime and a quote are a character.
        (&["2021", "2024"], "'r#fn'a' 0x", &[(1, long), (10, empty)]),
        (&["2015", "2018"], "'r#fn'a' 0x", &[(10, empty)]),
        (&["2021", "2024"], "'r#fn 'a' 'r#a", &[]),
        // In 2024, guarded strings are reserved.
        (
            &["2015", "2018", "2021"],
            "#\"\\q\"# ## ##\"\\q\"##",
            &[(3, escape), (14, escape)],
        ),
        (
            &["2024"],
            "#\"\\q\"# ## ##\"\\q\"##",
            &[(1, guarded), (8, guarded), (11, guarded)],
        ),
        (
            &["2024"],
            "#\"0x\" 0x \"\\q\"",
            &[(1, guarded), (7, empty), (11, escape)],
        ),
        (&["2024"], "#\"a\\\"b\"c 0x", &[(1, guarded), (10, empty)]),
        (&["2024"], "##\"a\"### 0x", &[(1, guarded), (10, empty)]),
        (
            &["2024"],
            "##### 0x",
            &[(1, guarded), (3, guarded), (7, empty)],
        ),
        (
            &["2024"],
            "#\"#\"#\" # 0x",
            &[(1, guarded), (6, unterminated)],
        ),
        // Hashes and quotes that are not adjacent are allowed.
        (&["2024"], "# \"\" #'a' #b\"\" r#\"\"#", &[]),
        // rustc stops after an unterminated one.
        (
            &["2024"],
            "0x ##\"0x ## \\\"",
            &[(1, empty), (6, unterminated)],
        ),
    ] {
        let line = |(column, message): &(i32, &str)| format!("a.rs:1:{column}: error: {message}");
        let output: String = errors.iter().map(line).collect();
        for year in years {
            let status = (!errors.is_empty()).into();
            check_text("editions", &["--edition", year], text, &output, status);
            if *year == "2024" {
                check_text("editions", &[], text, &output, status);
            }
        }
    }
}

/// A second search for a quote after each of these hashes would take minutes.
#[test]
fn many_hashes() {
    let folder = empty_folder("many_hashes");
    fs::write(folder.join("a.rs"), "#".repeat(1 << 18)).unwrap();
    let ended = rust_lex(&folder, &["check", "a.rs"]).output().unwrap();
    assert_eq!(text_of(&ended.stdout).lines().count(), 1 << 17);
    assert_eq!(ended.status.code(), Some(1));
}

/// Returns a folder with this name and five files.
fn folder_of_files(name: &str) -> PathBuf {
    let folder = empty_folder(name);
    fs::write(folder.join("one.rs"), "0x").unwrap();
    fs::write(folder.join("valid.rs"), "0x1").unwrap();
    fs::write(folder.join("-two.rs"), "0x").unwrap();
    fs::write(folder.join("latin.rs"), b"// caf\xe9").unwrap();
    fs::create_dir(folder.join("-")).unwrap();
    folder
}

#[test]
fn several_files() {
    let folder = folder_of_files("several");
    let one = "one.rs:1:1: error: number has no digits\n";
    for (arguments, output, status) in [
        (&["valid.rs", "valid.rs"][..], String::new(), 0),
        (&["valid.rs", "one.rs"], one.to_string(), 1),
        (
            &["one.rs", "valid.rs", "./one.rs"],
            format!("{one}./{one}"),
            1,
        ),
        (
            &["--", "valid.rs", "-two.rs"],
            one.replace("one", "-two"),
            1,
        ),
        // Options can follow files.
        (&["one.rs", "--edition=2015"], one.to_string(), 1),
        (
            &["-", "one.rs"],
            format!("<stdin>:1:2: error: number has no digits\n{one}"),
            1,
        ),
    ] {
        let words = [&["check"], arguments].concat();
        let ended = run_with_input(&mut rust_lex(&folder, &words), b" 0x");
        let files = arguments.iter().filter(|it| !it.starts_with("--")).count();
        check_ended(
            &ended,
            &output,
            &summary(files, &output),
            status,
            &words.concat(),
        );
    }
}

/// The other files are still checked.
#[test]
fn files_that_cannot_be_checked() {
    let folder = folder_of_files("unreadable");
    let one = "one.rs:1:1: error: number has no digits\n";
    let arguments = ["check", "one.rs", "missing.rs", "./one.rs"];
    let ended = rust_lex(&folder, &arguments).output().unwrap();
    let errors = text_of(&ended.stderr);
    // The rest of the message comes from the operating system.
    assert!(errors.starts_with("rust-lex: missing.rs: "), "{errors}");
    let summary = "\nrust-lex: 2 files checked, 1 not checked: 2 errors, 0 warnings\n";
    assert!(errors.ends_with(summary), "{errors}");
    assert_eq!(errors.lines().count(), 2, "{errors}");
    assert_eq!(text_of(&ended.stdout), format!("{one}./{one}"));
    assert_eq!(ended.status.code(), Some(2));
}

/// For a folder, the `*.rs` files in it and below are checked, without hidden folders, build folders of Cargo and symbolic
/// links.
#[test]
fn folders() {
    let folder = empty_folder("folders");
    for name in [
        ".git",
        "b",
        "b/.hidden",
        "b/target",
        "b/c",
        "d.rs",
        "target/e",
    ] {
        fs::create_dir_all(folder.join(name)).unwrap();
    }
    for name in [
        "a.rs",
        "b.rs",
        "a.rt",
        "b/x.rs",
        "b/c/y.rs",
        "d.rs/z.rs",
        ".v.rs",
        ".git/n.rs",
        "b/.hidden/n.rs",
        "b/target/n.rs",
        "b/target/CACHEDIR.TAG",
        "b/c/CACHEDIR.TAG",
        "target/n.rs",
        "target/e/w.rs",
        "b/rs",
        "b/.rs",
    ] {
        fs::write(folder.join(name), "0x").unwrap();
    }
    #[cfg(unix)]
    for (target, link) in [("..", "b/up"), ("../a.rt", "b/link.rs")] {
        std::os::unix::fs::symlink(target, folder.join(link)).unwrap();
    }
    for (arguments, files) in [
        (
            &["."][..],
            &[
                "./.v.rs",
                "./a.rs",
                "./b/c/y.rs",
                "./b/x.rs",
                "./b.rs",
                "./d.rs/z.rs",
                // There is no file CACHEDIR.TAG here.
                "./target/e/w.rs",
                "./target/n.rs",
            ][..],
        ),
        (&["b", "a.rt"], &["b/c/y.rs", "b/x.rs", "a.rt"]),
        (&["d.rs", "b/c"], &["d.rs/z.rs", "b/c/y.rs"]),
        // The arguments are not skipped.
        (
            &["b/target", "b/.hidden"],
            &["b/target/n.rs", "b/.hidden/n.rs"],
        ),
    ] {
        let line = |file| format!("{file}:1:1: error: number has no digits\n");
        let lines: String = files.iter().map(line).collect();
        let ended = rust_lex(&folder, &[&["check"], arguments].concat())
            .output()
            .unwrap();
        check_ended(
            &ended,
            &lines,
            &summary(files.len(), &lines),
            1,
            &arguments.concat(),
        );
    }
    fs::create_dir(folder.join("empty")).unwrap();
    let ended = rust_lex(&folder, &["check", "empty"]).output().unwrap();
    let warning = "rust-lex: warning: no Rust files in empty\n";
    check_ended(
        &ended,
        "",
        &(warning.to_string() + &summary(0, "")),
        0,
        "an empty folder",
    );
}

#[test]
fn excluded_files() {
    let folder = empty_folder("excluded");
    for name in ["a", "a/b", "ab"] {
        fs::create_dir(folder.join(name)).unwrap();
        fs::write(folder.join(name).join("x.rs"), "0x").unwrap();
    }
    for (excluded, input, files) in [
        (&["a"][..], ".", &["./ab/x.rs"][..]),
        (&["./a/"], ".", &["./ab/x.rs"]),
        (&["a/b"], "./.", &["././a/x.rs", "././ab/x.rs"]),
        (&["a/b/x.rs", "ab"], "a", &["a/x.rs"]),
        (&["./a/x.rs"], "a", &["a/b/x.rs"]),
        // The rest of a name is not enough.
        (&["x.rs", "b", "a/b/x"], "a", &["a/b/x.rs", "a/x.rs"]),
        // The arguments themselves can be excluded.
        (&["a"], "a/x.rs", &[]),
        (&["a/x.rs"], "./a/x.rs", &[]),
    ] {
        let mut arguments = vec!["check".to_string(), input.to_string()];
        for (at, path) in excluded.iter().enumerate() {
            match at {
                0 => arguments.extend(["--exclude".to_string(), path.to_string()]),
                _ => arguments.push(format!("--exclude={path}")),
            }
        }
        let arguments: Vec<&str> = arguments.iter().map(String::as_str).collect();
        let line = |file| format!("{file}:1:1: error: number has no digits\n");
        let lines: String = files.iter().map(line).collect();
        let ended = rust_lex(&folder, &arguments).output().unwrap();
        let status = (!files.is_empty()).into();
        check_ended(
            &ended,
            &lines,
            &summary(files.len(), &lines),
            status,
            &arguments.concat(),
        );
    }
    let ended = rust_lex(&folder, &["check", "a", "--exclude", "a"])
        .output()
        .unwrap();
    let warning = "rust-lex: warning: no Rust files in a\n";
    check_ended(
        &ended,
        "",
        &(warning.to_string() + &summary(0, "")),
        0,
        "all are excluded",
    );
}

/// Crates that allow the lints of rustc for these characters need this option.
#[test]
fn allowed_text_direction() {
    let text = "// \u{202e}\nconst A: &str = \"\u{2066}\"; 0x";
    let direction = "bidirectional control character: code may be displayed in a different order\n";
    let empty = "a.rs:2:22: error: number has no digits\n";
    let all = format!("a.rs:1:1: error: {direction}a.rs:2:17: error: {direction}{empty}");
    check_text("direction", &[], text, &all, 1);
    for allow in [
        &["--allow", "text-direction"][..],
        &["--allow=text-direction", "--allow", "text-direction"],
    ] {
        check_text("direction", allow, text, empty, 1);
    }
    check_text(
        "direction",
        &["--allow=text-direction"],
        "/* \u{2069} */",
        "",
        0,
    );
}

#[test]
fn denied_warnings() {
    let folder = empty_folder("denied");
    fs::write(folder.join("a.rs"), "\"a\\\n\n b\"").unwrap();
    let error = "a.rs:1:3: error: skipped blank line: an escaped newline skips it too\n";
    for arguments in [
        &["-D", "warnings"][..],
        &["-Dwarnings"],
        &["-D", "warnings", "-Dwarnings", "--deny-warnings"],
        &["--deny-warnings"],
    ] {
        let words = [&["check"], arguments, &["a.rs"]].concat();
        let ended = rust_lex(&folder, &words).output().unwrap();
        check_ended(&ended, error, &summary(1, error), 1, &words.concat());
    }
}

/// A file of 4 GiB is not read, and control characters in names are escaped.
#[cfg(target_os = "linux")]
#[test]
fn special_files() {
    let folder = empty_folder("special");
    let long = fs::File::create(folder.join("long.rs")).unwrap();
    long.set_len(1 << 32).unwrap();
    fs::write(folder.join("a\x1b[31m.rs"), "0x").unwrap();
    check_shell(
        &folder,
        &[
            (
                "ulimit -v 1000000; $P check long.rs",
                "",
                "rust-lex: long.rs: more than 4294967295 bytes\n\
                 rust-lex: 0 files checked, 1 not checked: 0 errors, 0 warnings\n",
                2,
            ),
            (
                "rm long.rs; $P check .",
                "./a\\u{1b}[31m.rs:1:1: error: number has no digits\n",
                "rust-lex: 1 file checked: 1 error, 0 warnings\n",
                1,
            ),
            (
                "$P check \"$(printf 'b\\033\\n')\"",
                "",
                "rust-lex: b\\u{1b}: No such file or directory (os error 2)\n\
                 rust-lex: 0 files checked, 1 not checked: 0 errors, 0 warnings\n",
                2,
            ),
        ],
    );
}

/// A folder that cannot be read, since its path is too long.
#[cfg(target_os = "linux")]
#[test]
fn folders_that_cannot_be_read() {
    let folder = empty_folder("long_paths");
    fs::write(folder.join("z.rs"), "0x").unwrap();
    let make = "top=$PWD; name=$(printf %0250d 0); \
        for i in 1 2 3 4 5 6 7 8 9 10 11 12 13 14 15 16 17; do mkdir $name && cd -P $name; done; cd $top";
    let lines = "./z.rs:1:1: error: number has no digits\nstatus 2\n1\n\
        rust-lex: 1 file checked, 1 not checked: 1 error, 0 warnings\n";
    let check = format!(
        "{make}; $P check . 2> messages; echo status $?; grep -c ': File name too long' messages; tail -1 messages"
    );
    check_shell(&folder, &[(&check, lines, "", 0)]);
    fs::remove_dir_all(&folder).unwrap();
}

/// If the pipe is closed, the program ends quietly, with the exit status so far. Any other failed write is reported.
#[cfg(target_os = "linux")]
#[test]
fn streams() {
    let folder = folder_of_files("streams");
    fs::write(folder.join("many.rs"), "0x ".repeat(10_000)).unwrap();
    let full = "rust-lex: standard output: No space left on device (os error 28)\n";
    let valid = "rust-lex: 1 file checked: 0 errors, 0 warnings\n";
    let none = "rust-lex: 0 files checked, 1 not checked: 0 errors, 0 warnings\n";
    check_shell(
        &folder,
        &[
            // The reader of the pipe has ended by then.
            (
                "mkfifo f; : < f & exec 3> f; wait; rm f; $P check many.rs >&3",
                "",
                "",
                1,
            ),
            (
                "mkfifo f; : < f & exec 3> f; wait; rm f; $P check latin.rs many.rs 2>&- >&3",
                "",
                "",
                2,
            ),
            (
                "mkfifo f; : < f & exec 3> f; wait; rm f; $P check --help >&3",
                "",
                "",
                0,
            ),
            ("$P check many.rs > /dev/full", "", full, 2),
            ("$P check --help > /dev/full", "", full, 2),
            ("$P check valid.rs > /dev/full", "", valid, 0),
            (
                // As in other programs in Rust, a closed stream is empty, or discards the output.
                "$P check one.rs >&-",
                "",
                "rust-lex: 1 file checked: 1 error, 0 warnings\n",
                1,
            ),
            ("$P check missing.rs 2> /dev/full", "", "", 2),
            (
                "$P check - < /",
                "",
                &format!("rust-lex: <stdin>: Is a directory (os error 21)\n{none}"),
                2,
            ),
            ("$P check - <&-", "", valid, 0),
            // Messages are in order with the lines of the files before and after.
            (
                "$P check one.rs latin.rs no.rs one.rs 2>&1",
                "one.rs:1:1: error: number has no digits\n\
                 latin.rs:1:7: error: invalid UTF-8\n\
                 rust-lex: no.rs: No such file or directory (os error 2)\n\
                 one.rs:1:1: error: number has no digits\n\
                 rust-lex: 2 files checked, 2 not checked: 3 errors, 0 warnings\n",
                "",
                2,
            ),
        ],
    );
}
