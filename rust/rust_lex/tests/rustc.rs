//! Compares with rustc: it reports the same errors and warnings at the same lines and columns. Without rustc, the tests
//! are skipped, except in CI.

mod common;

use common::{empty_folder, rust_lex, text_of};
use std::path::Path;
use std::process::Command;
use std::{env, fs};

/// The contents of a line, the columns of its errors, and the columns of rustc if they differ.
#[rustfmt::skip]
const LINES: [(&str, &[usize], &[usize]); 50] = [
    ("fn a() -> u8 { b'a' + 0x1f_u8 } 'a 'b' r#\"\"\"# c\"a\" br\"\\q\" 1.5e3 /* \r */", &[], &[]),
    ("x z\"a\" z'a' z#a", &[3, 8, 13], &[]),
    ("'z#a", &[1], &[]),
    ("##", &[1], &[]),
    ("é a🙂", &[3], &[]),
    ("a ¬ b", &[3], &[]),
    ("🙂", &[1], &[]),
    ("'1a", &[1], &[]),
    ("a 0x", &[3], &[]),
    ("0b_ 0o", &[1, 5], &[]),
    ("a 1e+ 1.5e", &[3, 7], &[]),
    ("0x1.5 0o1e5", &[1, 7], &[]),
    ("r#self 'r#super", &[1, 8], &[]),
    ("''", &[2], &[]),
    ("b''", &[3], &[]),
    ("\"\\x4\"", &[2], &[]),
    ("\"\\x80\"", &[2], &[]),
    ("\"\\u0041\"", &[2], &[]),
    ("\"\\u{}\"", &[2], &[]),
    ("\"\\u{41\"", &[2], &[]),
    ("\"\\u{1234567}\"", &[2], &[]),
    ("\"\\u{110000} \\u{D800}\"", &[2, 13], &[]),
    ("b\"\\u{41}\" b'\\u{41}'", &[3, 13], &[]),
    ("b\"aé\" br\"aé\" b'é'", &[4, 11, 16], &[]),
    ("c\"a\\0\"", &[4], &[]),
    ("c\"\0\" cr\"é\0\"", &[3, 10], &[]),
    ("\"a\rb\" r\"a\rb\" '\r'", &[3, 10, 15], &[]),
    ("'\t'", &[2], &[]),
    ("b'ab'", &[3], &[1]),
    ("\"日本\\u{} e\u{301}\\u{}\"", &[4, 11], &[]),
    ("/* 👩‍👩‍👧 */ \"\\u{}\"", &[14], &[]),
    ("\t\"\\u{}\"", &[3], &[]),
    ("\u{2028} \"\\u{}\"", &[4], &[]),
    ("\r \"\\u{}\"", &[4], &[]),
    ("\0", &[1], &[]),
    ("\u{feff}", &[1], &[]),
    // rustc points at the offending character of an escape, which is the last one.
    ("\"\\q\" '\\q'", &[2, 7], &[3, 8]),
    ("\"é🙂\\q\\w\"", &[4, 6], &[5, 7]),
    ("\"\\x8z\"", &[2], &[5]),
    ("\"\\u{4g}\"", &[2], &[6]),
    ("\"\\u{_41}\"", &[2], &[5]),
    // It points at the quote of a character.
    ("'ab'", &[2], &[1]),
    ("'éb'", &[2], &[1]),
    // It points at the digit, and at the suffix.
    ("0b1012 0o8", &[1, 8], &[6, 10]),
    ("\"a\"_ b'a'_", &[1, 6], &[4, 10]),
    ("\"\\u{}\"_", &[1, 2], &[2, 7]),
    // It points at the carriage return in a doc comment.
    ("/** a\rb */", &[1], &[6]),
    ("//! é\rb", &[1], &[6]),
    ("'\\u{}' '\\x4'", &[2, 9], &[]),
    ("1_u8 1.0_f32 \"a\"", &[], &[]),
];

/// Documents, the positions of their errors and warnings, and the positions of rustc if they differ.
#[rustfmt::skip]
const FILES: [(&str, &[&str], &[&str]); 36] = [
    ("const A: u8 = b'a';\n", &[], &[]),
    ("const A: &str = \"abc\n\n", &["1:17"], &[]),
    ("\n\nconst A: &[u8] = b\"abc\n", &["3:18"], &["3:19"]),
    ("const A: &CStr = c\"abc\n", &["1:18"], &["1:19"]),
    ("const A: &str = \"a\\", &["1:17"], &[]),
    ("const A: char = '(\n;", &["1:17"], &[]),
    ("const A: char = '\\';\n", &["1:17"], &[]),
    ("const A: u8 = b'a\n;", &["1:15"], &["1:16"]),
    ("mod a {\n    /* /* */\n}\n", &["2:5"], &[]),
    ("mod a {\r\n    /** é\r\n}\r\n", &["2:5"], &[]),
    ("const A: &str = r#~;\n", &["1:17"], &[]),
    ("const A: &str = r#\"a\n;\n", &["1:17"], &[]),
    ("const A: &str = br\"a\n;\n", &["1:17"], &[]),
    ("const A: &str = r##\"abc\"#;\n", &["1:17"], &[]),
    ("// a \u{202e} b\n", &["1:1"], &[]),
    ("pub const A: &str = \"a \u{2066} b\";\n", &["1:21"], &[]),
    ("pub const A: &str = \"\u{202e}\\q\";\n", &["1:23"], &["1:24"]),
    ("pub const A: char = '\n';\n", &["1:22"], &[]),
    ("pub const A: char = '\r\n';\n", &["1:22"], &[]),
    ("pub const A: &str = \"a\n\\u{}\n  \\x\";\n", &["2:1", "3:3"], &[]),
    ("pub const A: &str = \"a\\\n\n b\";\n", &["1:23 warning"], &[]),
    ("pub const A: &str = \"a\\\r\n\r\n b\";\r\n", &["1:23 warning"], &[]),
    ("pub const A: &str = \"a\\\n \u{a0}b\";\n", &["1:23 warning"], &[]),
    ("pub const A: &str = \"a\\\r\n \u{a0}b\";\r\n", &["1:23 warning"], &[]),
    ("pub const A: &str = \"a\\\n\n\u{a0}\\u{}\";\n", &["1:23 warning", "1:23 warning", "3:2"], &[]),
    ("pub const A: &str = \"\\x1\r\n\r\r\n\";\r\n", &["1:22", "2:1"], &["1:25", "2:1"]),
    ("pub const A: &str = stringify!(#\"a\");\n", &["1:32"], &[]),
    ("pub const A: &str = stringify!(k#a);\n", &["1:32"], &[]),
    // A byte order mark has no column.
    ("\u{feff}pub const A: u8 = b'a';\n", &[], &[]),
    ("\u{feff}pub const A: &str = \"\\u{}\";\n", &["1:22"], &[]),
    ("\u{feff}pub const A: &str = \"\\u{}\";\r\n", &["1:22"], &[]),
    ("\u{feff}\r\npub const A: &str = \"\\u{}\";\r\n", &["2:22"], &[]),
    ("\u{feff}#!/bin/sh \"\npub const A: &str = \"\\u{}\";\n", &["2:22"], &[]),
    ("#!/bin/sh \"\r\npub const A: &str = \"\\u{}\";\r\n", &["2:22"], &[]),
    ("\u{feff}\u{feff}pub const A: u8 = 1;\n", &["1:1"], &[]),
    ("\u{feff}/* a", &["1:1"], &[]),
];

/// Returns the command for rustc.
fn rustc() -> Command {
    Command::new(env::var_os("RUSTC").unwrap_or("rustc".into()))
}

/// Returns whether rustc can be run, and prints a line if not. In CI, rustc must be there.
fn has_rustc() -> bool {
    let found = rustc().arg("--version").output();
    let found = found.is_ok_and(|ended| ended.status.success());
    if !found {
        assert!(env::var_os("CI").is_none(), "rustc is not installed");
        println!("rustc is not installed: skipped");
    }
    found
}

/// Returns `LINE:COLUMN` of each error, followed by the word `warning` for a warning, ordered by position.
fn positions(output: &str, is_warning: fn(&str) -> bool) -> Vec<String> {
    let mut found: Vec<(usize, usize, &str)> = Vec::new();
    for line in output.lines() {
        let Some(rest) = line.strip_prefix("a.rs:") else {
            continue;
        };
        let (place, message) = rest.split_once(": ").unwrap();
        let (line, column) = place.split_once(':').unwrap();
        let kind = if is_warning(message) { " warning" } else { "" };
        found.push((line.parse().unwrap(), column.parse().unwrap(), kind));
    }
    found.sort_unstable();
    let lines = found.iter();
    lines
        .map(|(line, column, kind)| format!("{line}:{column}{kind}"))
        .collect()
}

/// Returns the positions that rustc reports for `a.rs` in this folder. Its output goes to the same folder.
fn positions_of_rustc(folder: &Path, edition: &str) -> Vec<String> {
    let mut rustc = rustc();
    rustc.args([
        "--edition",
        edition,
        "--crate-type",
        "lib",
        "--emit=metadata",
    ]);
    rustc.args(["--error-format", "short", "--out-dir", "."]);
    rustc.args(["a.rs", "-A", "unused"]).current_dir(folder);
    let ended = rustc.output().unwrap();
    positions(text_of(&ended.stderr), |message| {
        message.starts_with("warning")
    })
}

/// Checks our positions and the positions of rustc for a file in a folder with this name.
fn check(name: &str, text: &str, edition: &str, ours: &[String], of_rustc: &[String]) {
    let folder = empty_folder(name);
    fs::write(folder.join("a.rs"), text).unwrap();
    let ended = rust_lex(&folder, &["check", "--edition", edition, "a.rs"])
        .output()
        .unwrap();
    let found = positions(text_of(&ended.stdout), |message| {
        message.starts_with("warning: ")
    });
    assert_eq!(found, ours, "rust-lex on {text:?}");
    let has_errors = ours.iter().any(|position| !position.ends_with("warning"));
    assert_eq!(ended.status.code(), Some(has_errors.into()), "{text:?}");
    assert_eq!(
        positions_of_rustc(&folder, edition),
        of_rustc,
        "rustc on {text:?}"
    );
}

/// Checks documents, and all lines as one document: with LF, with CRLF, and with CRLF after a byte order mark.
#[test]
fn the_same_positions() {
    if !has_rustc() {
        return;
    }
    for (text, ours, of_rustc) in FILES {
        let of_rustc = if of_rustc.is_empty() { ours } else { of_rustc };
        let [ours, of_rustc] =
            [ours, of_rustc].map(|it| it.iter().map(|it| it.to_string()).collect::<Vec<_>>());
        check("positions", text, "2024", &ours, &of_rustc);
    }
    for (mark, ending) in [("", "\n"), ("", "\r\n"), ("\u{feff}", "\r\n")] {
        // Between these parentheses, the tokens need not be valid Rust.
        let mut lines = vec![format!("{mark}pub const A: &str = stringify!(")];
        let (mut ours, mut of_rustc) = (Vec::new(), Vec::new());
        for (text, columns, columns_of_rustc) in LINES {
            lines.push(text.to_string());
            let line = lines.len();
            let columns_of_rustc = if columns_of_rustc.is_empty() {
                columns
            } else {
                columns_of_rustc
            };
            ours.extend(columns.iter().map(|column| format!("{line}:{column}")));
            of_rustc.extend(
                columns_of_rustc
                    .iter()
                    .map(|column| format!("{line}:{column}")),
            );
        }
        lines.push(");".to_string());
        check("positions", &lines.join(ending), "2024", &ours, &of_rustc);
    }
}

/// Editions, a line of tokens, and the columns of its errors in them.
#[rustfmt::skip]
const EDITIONS: [(&[&str], &str, &[usize]); 33] = [
    (OLD, "z\"a\" 'z#a k#a ## 'r#a", &[]),
    (&["2021"], "z\"a\" 'z#a k#a ## 'r#a", &[1, 6, 11]),
    (&["2024"], "z\"a\" 'z#a k#a ## 'r#a", &[1, 6, 11, 15]),
    // rustc 1.95 has no forced keywords.
    (OLD, "k#b\"\\x\" 0x k#c\"\\x\" k#r\"\\x\"", &[5, 9, 16]),
    (NEW, "k#b\"\\x\" 0x k#r\"\\x\"", &[1, 5, 9, 12]),
    (&["2024"], "k#a\"b\" k#a#\"b\"", &[1, 3, 8, 10, 11]),
    (OLD, "c\"\\x\" 0x", &[3, 7]),
    (NEW, "c\"\\x\" 0x", &[3, 7]),
    (OLD, "cr\"\\x\" 0x", &[4, 8]),
    (NEW, "cr\"\\x\" 0x", &[8]),
    (OLD, "cr#async cr##a cr'a' c'a' c#a", &[]),
    (NEW, "cr'a' c'a' c#a", &[1, 7, 12]),
    (OLD, "cr\"\\\"\" cr#\"a\"# cr#\"\\x\"#", &[20]),
    (OLD, "cr#\"\"#\"\"# c\"\"c\"\" c\"\"x 0x", &[23]),
    (OLD, "c\"\0\" c\"\\0\" c\"\\u{}\"", &[14]),
    (NEW, "c\"\0\" c\"\\0\" c\"\\u{}\"", &[3, 8, 14]),
    (OLD, "c\"a", &[2]),
    (OLD, "0x cr#\"a", &[1, 7]),
    (OLD, "'r#fn'a' 0x", &[10]),
    (NEW, "'r#fn'a' 0x 'r#fn 'a'", &[1, 10]),
    (NEW, "'r#self'a' 'r#a''b'", &[1, 1, 12, 17, 19]),
    (NEW, "'r#fn'", &[1, 6]),
    (&["2015", "2018", "2021"], "#\"\\x\"# ## ##\"\\x\"##", &[3, 14]),
    (&["2024"], "#\"\\x\"# ## ##\"\\x\"##", &[1, 8, 11]),
    (&["2024"], "#\"0x\" 0x \"\\x\"", &[1, 7, 11]),
    (&["2024"], "#\"a\\\"b\"c 0x #\"\\x\"_", &[1, 10, 13]),
    (&["2024"], "##\"a\"### 0x ##\"a\"# 0x", &[1, 10, 13, 20]),
    (&["2024"], "##### 0x #### a## z#\"a\"", &[1, 3, 7, 10, 12, 15, 16, 19, 20]),
    (&["2024"], "# \"\" #'a' #b\"\" r#\"\"# 0x", &[22]),
    (&["2024"], "0x #\"0x", &[1, 5]),
    (&["2024"], "0x ##\"0x ## \\\"", &[1, 6]),
    (&["2024"], "#\"#\"#\" # 0x", &[1, 6]),
    (&["2024"], "#\"/*\" /* #\"a\" */ // #\"", &[1]),
];

/// The editions before and after C strings and other prefixes.
const OLD: &[&str] = &["2015", "2018"];
const NEW: &[&str] = &["2021", "2024"];

#[test]
fn the_same_editions() {
    if !has_rustc() {
        return;
    }
    for (editions, line, columns) in EDITIONS {
        let text = format!("pub const A: &str = stringify!(\n{line}\n);\n");
        let positions: Vec<String> = columns.iter().map(|column| format!("2:{column}")).collect();
        for edition in editions {
            check("judged_editions", &text, edition, &positions, &positions);
        }
    }
}
