//! The formats of `rust-lex check`.

mod common;

use common::{check_ended, check_shell, empty_folder, run_with_input, rust_lex, summary, text_of};
use std::fs;

#[test]
fn formats() {
    let folder = empty_folder("formats");
    let text = "\u{feff}0x \"\\q\"\n\"a\\\n\n b\"";
    for name in ["a.rs", "b,:%.rs"] {
        fs::write(folder.join(name), text).unwrap();
    }
    let [digits, escape, skipped] = [
        "number has no digits",
        "unknown escape: write a backslash as `\\\\`",
        "skipped blank line: an escaped newline skips it too",
    ];
    let lines = format!(
        "a.rs:1:1: error: {digits}\na.rs:1:5: error: {escape}\na.rs:2:3: warning: {skipped}\n"
    );
    let commands = format!(
        "::error file=FILE,line=1,col=1,title=rust-lex (empty-number)::NAME:1:1: {digits}\n\
         ::error file=FILE,line=1,col=5,title=rust-lex (invalid-escape)::NAME:1:5: {escape}\n\
         ::warning file=FILE,line=2,col=3,title=rust-lex (multiple-skipped-lines-warning)\
         ::NAME:2:3: {skipped}\n"
    );
    let of_file = commands.replace("FILE", "a.rs").replace("NAME", "a.rs");
    let objects = format!(
        r#"{{"file":"NAME","line":1,"column":1,"start":3,"end":5,"severity":"error","code":"empty-number","message":"{digits}"}}
{{"file":"NAME","line":1,"column":5,"start":7,"end":9,"severity":"error","code":"invalid-escape","message":"{}"}}
{{"file":"NAME","line":2,"column":3,"start":13,"end":17,"severity":"warning","code":"multiple-skipped-lines-warning","message":"{skipped}"}}
"#,
        escape.replace('\\', "\\\\")
    );
    for (arguments, output) in [
        (&["--format", "short", "a.rs"][..], lines.clone()),
        (&["--format=short", "a.rs"], lines.clone()),
        (&["--format", "github", "a.rs"], of_file.clone()),
        // GitHub compares the name with the names in a pull request.
        (&["--format", "github", "./a.rs"], of_file),
        (
            &["--format=github", "b,:%.rs"],
            commands
                .replace("FILE", "b%2C%3A%25.rs")
                .replace("NAME", "b,:%25.rs"),
        ),
        (
            &["--format", "json", "a.rs"],
            objects.replace("NAME", "a.rs"),
        ),
        (
            &["--format=json", "./a.rs"],
            objects.replace("NAME", "./a.rs"),
        ),
    ] {
        let mut program = rust_lex(&folder, &[&["check"], arguments].concat());
        let about = arguments.concat();
        check_ended(
            &program.output().unwrap(),
            &output,
            &summary(1, &lines),
            1,
            &about,
        );
    }
    let stdin = summary(1, ": error: ");
    for (format, output) in [
        (
            "github",
            format!("::error title=rust-lex (empty-number)::<stdin>:1:1: {digits}\n"),
        ),
        (
            "json",
            format!(
                "{{\"file\":\"<stdin>\",\"line\":1,\"column\":1,\"start\":0,\"end\":2,\
                 \"severity\":\"error\",\"code\":\"empty-number\",\"message\":\"{digits}\"}}\n"
            ),
        ),
    ] {
        let mut program = rust_lex(&folder, &["check", "--format", format, "-"]);
        check_ended(
            &run_with_input(&mut program, b"0x"),
            &output,
            &stdin,
            1,
            format,
        );
    }
}

/// The ranges of tokens that rustc reads in another way.
#[test]
fn ranges() {
    let folder = empty_folder("ranges");
    for (text, code, end) in [
        ("'r#a'b'", "more-than-one-char", 4),
        ("k#a", "unknown-prefix", 1),
        ("#\"a\"# b", "guarded-string", 5),
    ] {
        let mut program = rust_lex(&folder, &["check", "--format=json", "-"]);
        let ended = run_with_input(&mut program, text.as_bytes());
        let object = text_of(&ended.stdout);
        let range =
            format!("\"start\":0,\"end\":{end},\"severity\":\"error\",\"code\":\"{code}\",");
        assert!(object.contains(&range), "{object}");
    }
}

/// Names with special characters in each format, and files that cannot be read.
#[cfg(target_os = "linux")]
#[test]
fn names_in_formats() {
    let folder = empty_folder("names_in_formats");
    fs::write(folder.join("a\"\\\x1b\n\x1f.rs"), "0x").unwrap();
    let summary = "rust-lex: 1 file checked: 1 error, 0 warnings\n";
    let missing = "rust-lex: b,.rs: No such file or directory (os error 2)\n\
        rust-lex: 0 files checked, 1 not checked: 0 errors, 0 warnings\n";
    let command =
        "::error file=b%2C.rs,title=rust-lex::b,.rs: No such file or directory (os error 2)\n";
    check_shell(
        &folder,
        &[
            (
                "$P check --format json a*",
                "{\"file\":\"a\\\"\\\\\\u001b\\u000a\\u001f.rs\",\"line\":1,\"column\":1,\"start\":0,\"end\":2,\
                 \"severity\":\"error\",\"code\":\"empty-number\",\"message\":\"number has no digits\"}\n",
                summary,
                1,
            ),
            (
                "$P check --format github a*",
                "::error file=a\"\\\x1b%0A\x1f.rs,line=1,col=1,title=rust-lex (empty-number)\
                 ::a\"\\\\\\u{1b}\\n\\u{1f}.rs:1:1: number has no digits\n",
                summary,
                1,
            ),
            ("$P check --format=github b,.rs", command, missing, 2),
            ("$P check --format=short b,.rs", "", missing, 2),
            ("$P check --format=json b,.rs", "", missing, 2),
            (
                "$P check --format=github - < /",
                "::error title=rust-lex::<stdin>: Is a directory (os error 21)\n",
                "rust-lex: <stdin>: Is a directory (os error 21)\n\
                 rust-lex: 0 files checked, 1 not checked: 0 errors, 0 warnings\n",
                2,
            ),
        ],
    );
}

/// The first invalid bytes have a position, as in rustc. Nothing else is reported for the file.
#[test]
fn not_utf8() {
    let folder = empty_folder("not_utf8");
    let summary = "rust-lex: 0 files checked, 1 not checked: 1 error, 0 warnings\n";
    for (text, position, range) in [
        (&b"\xff"[..], [1, 1], [0, 1]),
        (b"0x\xffa\xff", [1, 3], [2, 3]),
        ("0x\n\u{e9}\u{1f642}\t\r".as_bytes(), [2, 5], [11, 12]),
        (b"\r\n\r\n", [3, 1], [4, 5]),
        (b"\xef\xbb\xbfa", [1, 2], [4, 5]),
    ] {
        let [line, column] = position;
        let [start, end] = range;
        let text = if text.contains(&0xff) {
            text.to_vec()
        } else {
            [text, b"\xff\n"].concat()
        };
        fs::write(folder.join("a.rs"), text).unwrap();
        for (format, output) in [
            (
                "short",
                format!("a.rs:{line}:{column}: error: invalid UTF-8\n"),
            ),
            (
                "github",
                format!(
                    "::error file=a.rs,line={line},col={column},title=rust-lex (invalid-utf8)\
                     ::a.rs:{line}:{column}: invalid UTF-8\n"
                ),
            ),
            (
                "json",
                format!(
                    "{{\"file\":\"a.rs\",\"line\":{line},\"column\":{column},\"start\":{start},\"end\":{end},\
                     \"severity\":\"error\",\"code\":\"invalid-utf8\",\"message\":\"invalid UTF-8\"}}\n"
                ),
            ),
        ] {
            let mut program = rust_lex(&folder, &["check", "--format", format, "a.rs"]);
            check_ended(&program.output().unwrap(), &output, summary, 2, format);
        }
    }
    // An incomplete character at the end.
    let ended = run_with_input(&mut rust_lex(&folder, &["check", "-"]), b"a\xe2\x82");
    check_ended(
        &ended,
        "<stdin>:1:2: error: invalid UTF-8\n",
        summary,
        2,
        "incomplete",
    );
    let ended = run_with_input(
        &mut rust_lex(&folder, &["check", "--format=json", "-"]),
        b"a\xe2\x82",
    );
    assert!(text_of(&ended.stdout).contains("\"start\":1,\"end\":3,"));
}
