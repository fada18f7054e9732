//! Runs each example as a process and checks what it prints.
#![cfg(feature = "alloc")]

use rustc_lexer::{Edition, TokenKind, tokenize_document};
use std::io::Write;
use std::path::{Path, PathBuf};
use std::process::{Child, Command, Output, Stdio};
use std::sync::LazyLock;
use std::{env, fs, thread};

/// The folder of the examples, built with the profile and the features of this test. Cargo does not build examples for
/// `--test examples`. A target folder of their own keeps the dependencies of other tests as they are.
static EXAMPLES: LazyLock<PathBuf> = LazyLock::new(|| {
    let target = Path::new(env!("CARGO_TARGET_TMPDIR")).join("examples");
    let test = env::current_exe().unwrap();
    let folder = test.ancestors().nth(2).unwrap();
    let profile = folder.file_name().unwrap().to_str().unwrap();
    let build = |settings: &[&str]| {
        let mut cargo = Command::new(env!("CARGO"));
        cargo.current_dir(env!("CARGO_MANIFEST_DIR")).args(settings);
        cargo.args(["build", "--examples", "--locked", "--offline"]);
        if cfg!(feature = "portable") {
            cargo.args(["--features", "portable"]);
        }
        cargo.args(["--profile", profile.replace("debug", "dev").as_str()]);
        cargo.env("CARGO_PROFILE_RELEASE_LTO", "false"); // saves minutes
        let built = cargo.arg("--target-dir").arg(&target).output();
        built.unwrap().status.success()
    };
    // The dependencies are in Cargo's cache or in `stand_ins`. With other settings Cargo cannot find them here, and the
    // tests run the examples that `cargo test` has built.
    if build(&[]) || build(&["--config", "../../stand_ins/offline.toml"]) {
        target.join(profile).join("examples")
    } else {
        folder.join("examples")
    }
});

fn example(name: &str) -> Command {
    let file = EXAMPLES.join(name);
    Command::new(file.with_extension(env::consts::EXE_EXTENSION))
}

/// Starts an example.
fn piped(name: &str, args: &[&str]) -> Child {
    let pipe = Stdio::piped;
    let mut command = example(name);
    command
        .args(args)
        .stdin(pipe())
        .stdout(pipe())
        .stderr(pipe());
    command.spawn().expect("the examples are built")
}

/// Runs an example with this input, which it need not read to the end.
fn run(name: &str, args: &[&str], input: &str) -> Output {
    let mut process = piped(name, args);
    let (mut to, input) = (process.stdin.take().unwrap(), input.to_owned());
    let writes = thread::spawn(move || to.write_all(input.as_bytes()));
    let output = process.wait_with_output().unwrap();
    let _ = writes.join().unwrap();
    output
}

/// Returns the output of an example that succeeds and reports nothing.
fn prints(name: &str, args: &[&str], input: &str) -> String {
    let ended = run(name, args, input);
    let said = String::from_utf8(ended.stderr).unwrap();
    assert!(
        ended.status.success() && said.is_empty(),
        "{name} {args:?}: {said}"
    );
    String::from_utf8(ended.stdout).unwrap()
}

/// Returns the message of an example that fails and prints nothing.
fn refuses(name: &str, args: &[&str], input: &str) -> String {
    let ended = run(name, args, input);
    assert!(
        !ended.status.success() && ended.stdout.is_empty(),
        "{name} {args:?}"
    );
    String::from_utf8(ended.stderr).unwrap()
}

/// Writes a file and returns its path.
fn file(name: &str, text: &str) -> String {
    let path = PathBuf::from(env!("CARGO_TARGET_TMPDIR")).join(name);
    fs::write(&path, text).unwrap();
    path.into_os_string().into_string().unwrap()
}

#[test]
fn tokens() {
    let path = file("shebang", "#!/a\nb \"");
    let wanted = r#"4 1 Whitespace "\n"
5 1 Ident "b"
6 1 Whitespace " "
7 1 Literal { kind: Str { terminated: false }, suffix_start: 1 } "\""
"#;
    assert_eq!(prints("tokens", &[&path], ""), wanted);
    let part = prints("tokens", &["--part"], "#!/a");
    let kinds: Vec<&str> = part
        .lines()
        .map(|line| line.split(' ').nth(2).unwrap())
        .collect();
    assert_eq!(kinds, ["Pound", "Bang", "Slash", "Ident"]);
    for (year, kind) in [("2018", "Lifetime"), ("2021", "RawLifetime")] {
        let all = prints("tokens", &["--edition", year], "'r#a");
        assert_eq!(all.split(' ').nth(2), Some(kind));
    }
    let help = prints("tokens", &["--help"], "");
    assert!(help.contains("\nusage: cargo run --example tokens -- "));
    for (args, why) in [
        (&["--planted"][..], "unexpected --planted: see --help"),
        (&["--edition", "2000"], "no edition of Rust has this year"),
        (
            &["--edition"],
            "cargo run --example tokens -- --edition 2018 FILE",
        ),
        (&[&path, &path], "unexpected "),
    ] {
        let said = refuses("tokens", args, "");
        assert!(said.starts_with("error: ") && said.contains(why), "{said}");
    }
}

/// A file that is not there is named. Without an argument, an example that needs one prints its usage.
#[test]
fn arguments() {
    for name in ["tokens", "highlight", "lines", "typing"] {
        let ended = run(name, &["not_there"], "");
        let said = String::from_utf8(ended.stderr).unwrap();
        assert!(said.contains("not_there: "), "{name}: {said}");
        assert_eq!(ended.status.code(), Some(1), "{name}");
    }
    for name in ["highlight", "lines", "typing"] {
        let said = refuses(name, &[], "");
        let usage = format!("usage: cargo run --example {name} -- FILE");
        assert!(said.contains(&usage), "{name}: {said}");
    }
    // a folder
    let folder = env!("CARGO_TARGET_TMPDIR");
    assert!(refuses("tokens", &[folder], "").contains(&format!("{folder}: ")));
}

/// A closed pipe, as after `| head -1`, is not an error.
#[test]
fn closed_pipes() {
    let path = file("piped", "fn f() {}\n");
    let edits = "0 0 a\n".repeat(1000);
    let tokens = ";\n".repeat(100_000);
    for (name, args, input) in [
        ("tokens", &[][..], &*tokens),
        ("kinds", &[], &*tokens),
        ("print", &[], &*tokens),
        ("squeeze", &[], &*tokens),
        ("stream", &[], &*tokens),
        ("trim", &[], &*tokens),
        ("words", &[], ""),
        ("lines", &[&*path], ""),
        ("highlight", &[&*path], &*edits),
        ("typing", &[&*path], &*edits),
    ] {
        let mut process = piped(name, args);
        drop(process.stdout.take());
        // The example may end before it has read everything.
        let _ = process.stdin.take().unwrap().write_all(input.as_bytes());
        let ended = process.wait_with_output().unwrap();
        let said = String::from_utf8(ended.stderr).unwrap();
        assert!(ended.status.success() && said.is_empty(), "{name}: {said}");
    }
}

/// A byte order mark before a shebang line, a frontmatter and code is not a token, and offsets count it.
#[test]
fn byte_order_marks() {
    let [line, front, code] =
        ["#!/a\nb  \n", "---\n---\nb  \n", "b  \n"].map(|text| format!("\u{feff}{text}"));
    let wanted = [
        "7 Whitespace \"\\n\"\n8 Ident \"b\"\n9 Whitespace \"  \\n\"\n",
        "3 Frontmatter { has_invalid_preceding_whitespace: false, invalid_infostring: false } \"---\\n---\"\n\
         10 Whitespace \"\\n\"\n11 Ident \"b\"\n12 Whitespace \"  \\n\"\n",
        "3 Ident \"b\"\n4 Whitespace \"  \\n\"\n",
    ];
    let counted = [
        "1 Ident\n2 Whitespace\n",
        "1 Frontmatter\n1 Ident\n2 Whitespace\n",
        "1 Ident\n1 Whitespace\n",
    ];
    for (at, text) in [&line, &front, &code].into_iter().enumerate() {
        assert_eq!(prints("stream", &[], text), wanted[at]);
        assert_eq!(prints("kinds", &[], text), counted[at]);
        assert_eq!(prints("trim", &[], text), text.replace("  ", ""));
        let tokens = prints("tokens", &[], text);
        let offsets = |text: &str| {
            text.lines()
                .map(|line| line.split(' ').next().unwrap().to_owned())
                .collect::<Vec<_>>()
        };
        assert_eq!(offsets(&tokens), offsets(wanted[at]));
    }
    let path = file("marked_code", &code);
    let painted = "\x1b[32m\u{feff}\x1b[0m\x1b[34mb\x1b[0m\x1b[0m  \n\x1b[0m";
    assert_eq!(prints("highlight", &[&path], ""), painted);
    assert!(prints("typing", &[&path], "c\n").contains("6 Ident \"c\"\n"));
    let comment = file("marked_comment", "\u{feff}// a\n");
    let line = file("marked_shebang", &line);
    let printed = prints("lines", &[&comment, &line], "");
    assert!(
        printed.ends_with("       2        1        0  total\n"),
        "{printed}"
    );
}

/// The program of the repository's README.
#[test]
fn edit() {
    let package = Path::new(env!("CARGO_TARGET_TMPDIR")).join("package");
    fs::create_dir_all(package.join("src")).unwrap();
    fs::write(package.join("src/main.rs"), "use a;\nb").unwrap();
    let output = example("edit").current_dir(package).output().unwrap();
    let wanted = r#"0 Ident "use"
3 Whitespace " "
4 Ident "a"
5 Semi ";"
6 Whitespace "\n"
7 Ident "b"
6 tokens were kept. These were lexed:
LineComment { doc_style: None } "// Hello"
Whitespace "\n"
"#;
    assert_eq!(String::from_utf8(output.stdout).unwrap(), wanted);
    assert!(output.status.success());
}

#[test]
fn typing() {
    let path = file("typed", "let ab = cd\nfn f() {}\n");
    let wanted = r#"9 Ident "cde"
16 kept
9 Ident "cde"
12 Whitespace " "
13 Plus "+"
14 Whitespace " "
15 Literal { kind: Int { base: Decimal, empty_int: false }, suffix_start: 1 } "1"
16 kept
"#;
    assert_eq!(prints("typing", &[&path], "e\n + 1\n"), wanted);
    let path = file("no_line_end", "a");
    let wanted = "0 Ident \"aé\"\n0 kept\n0 Ident \"aéc\"\n0 kept\n";
    assert_eq!(prints("typing", &[&path], "é\nc\n"), wanted);
}

#[test]
fn kinds() {
    assert_eq!(
        prints("kinds", &[], "a + \"b\""),
        "1 Ident\n1 Plus\n1 Str\n2 Whitespace\n"
    );
}

/// A shebang line, a frontmatter, comments and doc comments, `r#` at the end of a line, a form feed, a string of
/// several lines, a tab before CRLF, indentation, and trailing whitespace.
const LINED: &str = "#!/bin/sh \n---\na \n---\n\n// b  \n/// g\n/** h */\nr#\n \ni \x0c \n\
    fn \t\r\n  f() {  \n\n\t\n    \"c  // d\n\n\" /* e \n\n */ } \n \t";
const TRIMMED: &str = "#!/bin/sh \n---\na \n---\n\n// b  \n/// g\n/** h */\nr#\n\ni \x0c\n\
    fn\r\n  f() {\n\n\n    \"c  // d\n\n\" /* e \n\n */ }\n";

#[test]
fn lines_and_trim() {
    assert_eq!(prints("trim", &[], LINED), TRIMMED);
    let [lined, empty, trimmed] = [("lined", LINED), ("empty", ""), ("trimmed", TRIMMED)]
        .map(|(name, text)| file(name, text));
    let wanted = format!(
        "    code  comment    blank\n{}  {lined}\n{}  {empty}\n{}  {trimmed}\n{}  total\n",
        "      12        4        5",
        "       0        0        0",
        "      12        4        4",
        "      24        8        9"
    );
    assert_eq!(prints("lines", &[&lined, &empty, &trimmed], ""), wanted);
    // The other files are counted even if one cannot be read.
    let ended = run("lines", &["not_there", &lined, &empty, &trimmed], "");
    assert_eq!(String::from_utf8(ended.stdout).unwrap(), wanted);
    assert_eq!(ended.status.code(), Some(1));
}

#[test]
fn squeeze() {
    let long = "#!/bin/sh\n---\na\n---\n\n// b\n//! c\n\
    fn f() {\n    /// d\n    let x = 0..=y; // e\n    r \"g\" /* h */ & & - 1. .max()\n}\n";
    let wanted = "#!/bin/sh\n---\na\n---\n//! c\nfn f(){/// d\nlet x=0..=y;r \"g\"&&-1. .max()}";
    assert_eq!(prints("squeeze", &[], long), wanted);
    // no shebang line, and an unterminated comment
    assert_eq!(prints("squeeze", &[], " fn f ( ) { } /* a"), "fn f(){}/* a");
}

/// Returns whether rustc builds a program.
fn builds(name: &str, text: &str) -> bool {
    let mut rustc = Command::new(env::var_os("RUSTC").unwrap_or_else(|| "rustc".into()));
    // A frontmatter needs an unstable feature.
    rustc
        .env("RUSTC_BOOTSTRAP", "1")
        .args(["--edition", "2024", "--emit", "metadata"]);
    rustc.args(["--out-dir", env!("CARGO_TARGET_TMPDIR")]);
    let ended = rustc.arg(file(name, text)).output();
    let ended = ended.expect("rustc is installed, since Cargo needs it");
    ended.status.success()
}

/// Nothing is inserted between a byte order mark and the code, and a shebang line or a frontmatter keeps its lines.
#[test]
fn squeeze_after_a_byte_order_mark() {
    let tokens = |text: &str| -> Vec<String> {
        let pieces = tokenize_document(text, Edition::E2024).pieces();
        let pieces = pieces.filter(|piece| piece.token.kind != TokenKind::Whitespace);
        pieces.map(|piece| piece.text.to_owned()).collect()
    };
    for (head, squeezed_head) in [
        ("", ""),
        ("#!/bin/sh\n", "#!/bin/sh\n"),
        ("#!/bin/sh\r\n", "#!/bin/sh\n"),
        ("#![allow(unused)]\n", "#![allow(unused)]"),
        (
            "---\na\n---\n#![feature(frontmatter)]\n",
            "---\na\n---\n#![feature(frontmatter)]",
        ),
        (
            "#!a\n\n---\n---\n#![feature(frontmatter)]\n",
            "#!a\n\n---\n---\n#![feature(frontmatter)]",
        ),
    ] {
        let text = format!("\u{feff}{head}\nfn main() {{ }}\n");
        let squeezed = prints("squeeze", &[], &text);
        assert_eq!(squeezed, format!("\u{feff}{squeezed_head}fn main(){{}}"));
        assert_eq!(tokens(&squeezed), tokens(&text));
        let is_built = builds("marked.rs", &text);
        // An older rustc has no frontmatters.
        assert!(is_built || head.contains("---"), "{head:?}");
        assert_eq!(builds("marked.rs", &squeezed), is_built, "{head:?}");
    }
}

/// `0.` is a number, and `z"` is reserved.
#[test]
fn print() {
    let tokens = "let\nx\n=\n0\n.\n.\n// a\nz\n\"b\"\n&\n&\n";
    assert_eq!(prints("print", &[], tokens), "let x=0 ..// a\nz \"b\"&&\n");
    for (tokens, why) in [
        ("a\nb c\n", "line 2: \"b c\" is not one token"),
        ("a\n\nb\n", "line 2: \"\" is not one token"),
        ("a\n\"b\nc\n", "line 3: no separator keeps the tokens"),
    ] {
        let said = refuses("print", &[], tokens);
        assert!(said.contains(why), "{said}");
    }
}

/// `document_streams.rs` tests how the input is cut.
#[test]
fn stream() {
    assert_eq!(
        prints("stream", &[], "let é"),
        "0 Ident \"let\"\n3 Whitespace \" \"\n4 Ident \"é\"\n"
    );
}

/// A letter, an invalid range, an insertion with spaces, the closing fence removed and restored, another shebang line:
/// at the end the document is painted like a new one.
#[test]
fn highlight() {
    let typed = file("painted", "#!/bin/sh\n---\na\n---\nfn f() {}\n");
    let edited = file(
        "repainted",
        "#!/bin/bash\n---\na\n---\nfn fg() {\"a b\"; 1}\n",
    );
    let edits = "24 24 g\n99 99 x\n29 29 \"a b\"; 1\n16 19 \n16 16 ---\n7 9 bash\n";
    let printed = prints("highlight", &[&typed], edits);
    let wanted = prints("highlight", &[&edited], "");
    assert!(printed.ends_with(&wanted), "{printed:?}");
    let first = printed.lines().next().unwrap();
    assert!(
        first.contains("fg") && first.ends_with("(10 tokens kept)"),
        "{first:?}"
    );
    // green, cyan, magenta, blue, and a raw identifier without a colour
    let path = file("colours", "#!/f\n---\n---\n/*a*/\"b\" c r#e//d");
    let parts = [
        (32, "#!/f"),
        (0, "\n"),
        (36, "---\n---"),
        (0, "\n"),
        (32, "/*a*/"),
        (35, "\"b\""),
        (0, " "),
        (34, "c"),
        (0, " "),
        (0, "r#e"),
        (32, "//d"),
    ];
    let wanted: String = parts
        .iter()
        .map(|(colour, text)| format!("\x1b[{colour}m{text}\x1b[0m"))
        .collect();
    assert_eq!(prints("highlight", &[&path], ""), wanted);
}
