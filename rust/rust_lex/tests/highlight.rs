//! `rust-lex highlight`: colours, the web page, and its choice of colours. The tests of `rustc_lexer_highlight` cover the
//! markup.

mod common;

use common::{check_ended, check_shell, empty_folder, run_with_input, rust_lex, text_of};
use rustc_lexer_highlight::STYLE_SHEET;
use std::fs;

#[test]
fn formats() {
    let folder = empty_folder("highlighted");
    for (arguments, text, output) in [
        (&[][..], "fn a", "fn a"),
        (&["-"], "fn a", "fn a"),
        (&["--color", "always"], "fn a", "\x1b[35mfn\x1b[0m a"),
        (&["--color=always"], "fn a", "\x1b[35mfn\x1b[0m a"),
        (&["--color", "auto"], "fn a", "fn a"),
        (&["--color=never"], "fn a", "fn a"),
        (&[], "// \x1b[0m\0", "// \u{241b}[0m\u{2400}"),
        (&["--raw"], "// \x1b[0m", "// \x1b[0m"),
        (&["--color=always", "--raw"], "fn a", "fn a"),
        (
            &["--edition", "2024"],
            "##a",
            "## [<- reserved syntax: guarded string]a",
        ),
        (&["--edition=2021"], "##a", "##a"),
        (
            &["--color=always", "--edition=2018"],
            "#\"a\"",
            "#\x1b[32m\"a\"\x1b[0m",
        ),
        (
            &["--color=always"],
            "\u{feff}#!/bin/x\r\n---\r\n---\r\nfn b\r\n",
            "\u{feff}\x1b[90m#!/bin/x\x1b[0m\r\n\x1b[36m---\r\x1b[0m\n\x1b[36m---\x1b[0m\r\n\x1b[35mfn\x1b[0m b\r\n",
        ),
        (
            &["--color=always"],
            "/* a\n\n b */\n'a\n\"b\n",
            "\x1b[90m/* a\x1b[0m\n\x1b[90m\x1b[0m\n\x1b[90m b */\x1b[0m\n\x1b[33m'a\x1b[0m\n\
             \x1b[4;31m\x1b[32m\"b\x1b[0m\x1b[0;31m [<- unterminated string: missing closing quote]\x1b[0m\
             \x1b[32m\x1b[0m\n\x1b[32m\x1b[0m",
        ),
    ] {
        let words = [&["highlight"], arguments].concat();
        let ended = run_with_input(&mut rust_lex(&folder, &words), text.as_bytes());
        check_ended(&ended, output, "", 0, &words.concat());
    }
}

/// The page opens a `pre` right before the text, and closes it right after.
#[test]
fn page() {
    let folder = empty_folder("page");
    let css = rust_lex(&folder, &["highlight", "--css"]).output().unwrap();
    check_ended(&css, STYLE_SHEET, "", 0, "--css");
    for arguments in [
        &["--html"][..],
        &["--html", "--color=always"],
        &["-", "--html"],
    ] {
        let words = [&["highlight"], arguments].concat();
        let ended = run_with_input(&mut rust_lex(&folder, &words), b"fn <");
        let page = text_of(&ended.stdout);
        let start = "<!DOCTYPE html>\n<html lang=\"en\">\n<head>\n<meta charset=\"utf-8\">\n";
        assert!(page.contains("\n<title>Rust</title>\n"), "{page}");
        let end = "<body class=\"rust-code\">\n<pre>\n<span class=\"keyword\">fn</span> &lt;</pre>\n</body>\n</html>\n";
        assert!(page.starts_with(start) && page.ends_with(end), "{page}");
        assert!(!page.contains("<script"));
        assert!(page.contains(&format!("\n<style>\n{STYLE_SHEET}")));
    }
    // Only what is between `<pre>` and `</pre>`.
    let fragment = "<span class=\"keyword\">fn</span> &lt;";
    let mut program = rust_lex(&folder, &["highlight", "--html=fragment"]);
    check_ended(
        &run_with_input(&mut program, b"fn <"),
        fragment,
        "",
        0,
        "--html=fragment",
    );
}

#[test]
fn several_files() {
    let folder = empty_folder("several_highlighted");
    fs::write(folder.join("t"), "fn a").unwrap();
    fs::write(folder.join("u"), "\u{feff}#!x\n---\n---\nfn\n").unwrap();
    fs::write(folder.join("latin"), b"a\xff").unwrap();
    fs::write(folder.join("--raw"), "0x").unwrap();
    let (missing, utf8) = (
        "rust-lex: none: No such file or directory (os error 2)\n",
        "rust-lex: latin:1:2: invalid UTF-8\n",
    );
    for (arguments, output, messages, status) in [
        (&["t", "-", "t"][..], "fn abfn a", "", 0),
        (&["u", "t"], "\u{feff}#!x\n---\n---\nfn\nfn a", "", 0),
        (&["-", "-"], "b", "", 0),
        (&["--", "--raw"], "0x [<- number has no digits]", "", 0),
        (
            &["t", "--", "--raw", "t"],
            "fn a0x [<- number has no digits]fn a",
            "",
            0,
        ),
        // The other files are still printed.
        (&["t", "none", "t"], "fn afn a", missing, 2),
        (&["t", "latin", "t"], "fn afn a", utf8, 2),
    ] {
        let words = [&["highlight"], arguments].concat();
        let ended = run_with_input(&mut rust_lex(&folder, &words), b"b");
        check_ended(&ended, output, messages, status, &words.concat());
    }
}

#[cfg(target_os = "linux")]
#[test]
fn terminals_and_streams() {
    let folder = empty_folder("terminals");
    fs::write(folder.join("t"), "fn a").unwrap();
    let colours = "\x1b[35mfn\x1b[0m a";
    // Colours are the default only on a terminal. Variables, options, and the output on a terminal and in a file.
    for (variables, options, on_terminal, in_file) in [
        ("TERM=xterm", "", colours, "fn a"),
        ("TERM=xterm NO_COLOR=", "", colours, "fn a"),
        ("TERM=xterm NO_COLOR=1", "", "fn a", "fn a"),
        ("TERM=xterm NO_COLOR=0", "", "fn a", "fn a"),
        ("TERM=xterm CLICOLOR=1", "", colours, "fn a"),
        ("TERM=xterm CLICOLOR=", "", colours, "fn a"),
        ("TERM=xterm CLICOLOR=0", "", "fn a", "fn a"),
        ("TERM=xterm CLICOLOR_FORCE=0", "", colours, "fn a"),
        ("TERM=xterm CLICOLOR_FORCE=", "", colours, "fn a"),
        ("TERM=xterm CLICOLOR_FORCE=1", "", colours, colours),
        (
            "TERM=dumb CLICOLOR=0 CLICOLOR_FORCE=1",
            "",
            colours,
            colours,
        ),
        ("TERM=xterm CLICOLOR_FORCE=1 NO_COLOR=1", "", "fn a", "fn a"),
        (
            "TERM=xterm CLICOLOR_FORCE=1",
            "--color=never",
            "fn a",
            "fn a",
        ),
        ("TERM=dumb", "", "fn a", "fn a"),
        ("TERM=", "", "fn a", "fn a"),
        ("-u TERM", "", "fn a", "fn a"),
        ("-u TERM CLICOLOR=1", "", "fn a", "fn a"),
        (
            "TERM=dumb NO_COLOR=1 CLICOLOR=0",
            "--color=always",
            colours,
            colours,
        ),
        ("TERM=xterm", "--color=never", "fn a", "fn a"),
        ("TERM=xterm", "--color=auto", colours, "fn a"),
        ("TERM=xterm", "--raw", "fn a", "fn a"),
    ] {
        let command = format!("$P highlight {options} t");
        for (command, output) in [
            (
                format!("env {variables} script -qec '{command}' /dev/null"),
                on_terminal,
            ),
            // Standard error is a terminal here, but standard output is a file.
            (
                format!("env {variables} script -qec '{command} > out' /dev/null && cat out"),
                in_file,
            ),
        ] {
            check_shell(&folder, &[(&command, output, "", 0)]);
        }
    }
    check_shell(
        &folder,
        &[
            (
                "head -c 131073 /dev/zero | tr '\\0' x | $P highlight | wc -c",
                "131073\n",
                "",
                0,
            ),
            (
                "$P highlight / t",
                "fn a",
                "rust-lex: /: Is a directory (os error 21)\n",
                2,
            ),
            ("$P highlight <&-", "", "", 0),
            ("$P highlight t >&-", "", "", 0),
            (
                "$P highlight t > /dev/full",
                "",
                "rust-lex: standard output: No space left on device (os error 28)\n",
                2,
            ),
            (
                "head -c 131073 /dev/zero | tr '\\0' x > many; $P highlight many none > /dev/full",
                "",
                "rust-lex: standard output: No space left on device (os error 28)\n",
                2,
            ),
            (
                "head -c 131073 /dev/zero | $P highlight - none > /dev/full",
                "",
                "rust-lex: standard output: No space left on device (os error 28)\n",
                2,
            ),
            // The reader of the pipe has ended before the program starts.
            (
                "mkfifo f; : < f & exec 3> f; wait; rm f; $P highlight t none >&3 2>&-",
                "",
                "",
                0,
            ),
            (
                "(ulimit -v 40000; head -c 80000000 /dev/zero | $P highlight)",
                "",
                "rust-lex: <stdin>: out of memory\n",
                2,
            ),
        ],
    );
}
