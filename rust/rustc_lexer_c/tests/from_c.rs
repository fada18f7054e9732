//! Tests the library from C: the names that it exports and imports, the header, and the programs in `c`, which link
//! with the static and the shared library. These tests need `cc`, with which rustc links too. If another tool is
//! missing, tests that need it are skipped with a message.
//!
//! With `LIBRARY=FILE` the programs link with that static library, for example one that Rattle built.
#![cfg(target_os = "linux")]

use std::collections::BTreeSet;
use std::fs::{self, File};
use std::io::{self, Write};
use std::os::unix::fs::symlink;
use std::os::unix::process::ExitStatusExt;
use std::path::{Path, PathBuf};
use std::process::{Command, Output};
use std::sync::OnceLock;
use std::{env, mem};

use rustc_lexer::FrontmatterAllowed::{No, Yes};
use rustc_literal_escaper::EscapeError;
use tables::row::{Entry, Way};

#[allow(dead_code)]
#[path = "../../rustc_lexer/tests/rows/tables.rs"]
mod tables;

const STRICT: [&str; 6] = [
    "-std=c11",
    "-Wall",
    "-Wextra",
    "-Werror",
    "-pedantic",
    "-O1",
];

fn top() -> &'static Path {
    static TOP: OnceLock<PathBuf> = OnceLock::new();
    TOP.get_or_init(|| fs::canonicalize("../..").unwrap())
}

/// Returns a path in Cargo's folder for the temporary files of tests.
fn room(name: &str) -> PathBuf {
    Path::new(env!("CARGO_TARGET_TMPDIR")).join(name)
}

fn text(bytes: &[u8]) -> String {
    String::from_utf8_lossy(bytes).into_owned()
}

/// Runs a command, which must succeed, and returns its output.
fn printed(command: &mut Command) -> String {
    let done = command.output().unwrap();
    assert!(
        done.status.success(),
        "{command:?}: {}{}",
        text(&done.stdout),
        text(&done.stderr)
    );
    text(&done.stdout)
}

/// Returns whether all these tools are installed. Prints a missing one directly, so that the message is not captured.
fn has(tools: &[&str]) -> bool {
    let missing = |tool: &&&str| Command::new(tool).arg("--version").output().is_err();
    let missing: Vec<_> = tools.iter().filter(missing).collect();
    if !missing.is_empty() {
        let line = format!("from_c: skipped what needs {missing:?}\n");
        io::stderr().write_all(line.as_bytes()).unwrap();
    }
    missing.is_empty()
}

/// Builds a package with Cargo into a separate folder, and returns that folder. Cargo uses the dependencies that were
/// fetched for this test, otherwise the stand-ins.
fn built(package: &str, folder: &str, words: &[&str]) -> PathBuf {
    let build = |source: &[&str]| {
        let mut cargo = Command::new(env!("CARGO"));
        cargo
            .args(["build", "--quiet", "--manifest-path"])
            .arg(top().join(package).join("Cargo.toml"));
        cargo
            .arg("--target-dir")
            .arg(room(folder))
            .args(source)
            .args(words);
        cargo.current_dir(top()).output().unwrap()
    };
    if !build(&["--offline"]).status.success() {
        let done = build(&["--config", "stand_ins/offline.toml"]);
        assert!(done.status.success(), "{}", text(&done.stderr));
    }
    room(folder)
}

/// Returns the folder with both libraries. The shared library also has the name that programs refer to.
fn libraries() -> &'static Path {
    static FOLDER: OnceLock<PathBuf> = OnceLock::new();
    FOLDER.get_or_init(|| {
        let folder = built("rust/rustc_lexer_c", "library", &["--release"]).join("release");
        let _ = fs::remove_file(folder.join(soname()));
        symlink(folder.join("librustc_lexer_c.so"), folder.join(soname())).unwrap();
        folder
    })
}

fn static_library() -> PathBuf {
    env::var_os("LIBRARY").map_or_else(|| libraries().join("librustc_lexer_c.a"), PathBuf::from)
}

fn header() -> String {
    fs::read_to_string(top().join("c/rustc_lexer.h")).unwrap()
}

/// Returns the name of the shared library, which contains the ABI number.
fn soname() -> String {
    let header = header();
    let number = header.split_once("#define RUSTC_LEXER_ABI ").unwrap().1;
    format!("librustc_lexer_c.so.{}", number.split(' ').next().unwrap())
}

/// Compiles source files in `c` into a program.
fn compiled(program: &str, flags: &[&str], sources: &[&str], library: &Path) -> PathBuf {
    let mut compiler = Command::new("cc");
    compiler
        .args(STRICT)
        .args(flags)
        .arg("-o")
        .arg(room(program))
        .args(sources)
        .arg(library);
    printed(compiler.current_dir(top().join("c")));
    room(program)
}

/// Returns the names that `nm` lists with these options.
fn names(words: &[&str], library: &Path) -> BTreeSet<String> {
    let lines = printed(Command::new("nm").args(words).arg(library));
    let lines = lines.lines().filter(|line| line.contains(' '));
    lines
        .filter_map(|line| {
            line.split(' ')
                .next_back()?
                .split('@')
                .next()
                .map(String::from)
        })
        .collect()
}

#[test]
fn exports_the_calls_of_the_header() {
    if !has(&["nm", "readelf"]) {
        return;
    }
    let shared = libraries().join("librustc_lexer_c.so");
    let header = header();
    let lines = header.lines().filter(|line| {
        line.starts_with(|c: char| c.is_ascii_lowercase()) && !line.starts_with("static")
    });
    let calls = lines.filter_map(|line| line.split_once('(')?.0.split([' ', '*']).next_back());
    let declared: BTreeSet<_> = calls
        .filter(|name| name.starts_with("rustc_lexer_"))
        .map(String::from)
        .collect();
    assert!(declared.len() > 30);
    assert_eq!(names(&["-D", "--defined-only"], &shared), declared);
    let said = printed(
        Command::new("readelf")
            .args(["-W", "-d", "-S"])
            .arg(&shared),
    );
    assert!(said.contains(&format!("soname: [{}]", soname())), "{said}");
    // Debuggers need `.eh_frame_hdr` to unwind through the library, and the library calls the C library.
    assert!(said.contains(".eh_frame_hdr"), "{said}");
    assert!(
        said.lines()
            .any(|line| line.contains("(NEEDED)") && line.contains("[libc.")),
        "{said}"
    );
}

#[test]
fn imports_only_functions_that_compilers_insert() {
    if !has(&["nm"]) {
        return;
    }
    let inserted = ["memcpy", "memmove", "memset", "memcmp", "bcmp", "abort"];
    let shared = libraries().join("librustc_lexer_c.so");
    // Names of the linker's own tables are weak: a shared library works without them.
    let imported = printed(Command::new("nm").args(["-D", "-u"]).arg(shared));
    let imported = imported
        .lines()
        .filter_map(|line| line.trim().strip_prefix("U ")?.split('@').next());
    assert_eq!(
        imported
            .filter(|name| !inserted.contains(name))
            .collect::<Vec<_>>(),
        [""; 0]
    );
    // Cargo's static library contains parts of Rust's `core` that programs do not link.
    if env::var_os("LIBRARY").is_some() {
        let own = names(&["--defined-only"], &static_library());
        let imported = names(&["-u"], &static_library());
        let other = imported
            .difference(&own)
            .filter(|name| !inserted[..3].contains(&name.as_str()));
        assert_eq!(other.collect::<Vec<_>>(), [""; 0]);
    }
}

#[test]
fn header_is_c11_and_cpp() {
    fs::write(
        room("twice.c"),
        "#include \"rustc_lexer.h\"\n#include \"rustc_lexer.h\"\n",
    )
    .unwrap();
    let check = |version| {
        let mut compiler = Command::new("cc");
        compiler.args([&STRICT[1..5], &[version, "-fsyntax-only", "-I", "c"]].concat());
        compiler
            .arg(room("twice.c"))
            .current_dir(top())
            .output()
            .unwrap()
            .status
    };
    assert!(check("-std=c11").success());
    assert!(
        !check("-std=c99").success(),
        "the header needs C11, and says so"
    );
    if has(&["c++"]) {
        let mut compiler = Command::new("c++");
        compiler
            .args(&STRICT[1..])
            .args(["-std=c++11", "-o"])
            .arg(room("first"));
        printed(
            compiler
                .arg("c/first.cpp")
                .arg(static_library())
                .current_dir(top()),
        );
        printed(&mut Command::new(room("first")));
    }
}

/// A program that prints the messages of errors in literals.
const MESSAGES: &str = "\
#include <stdio.h>
#include \"rustc_lexer.h\"
int main(void) {
    for (uint32_t error = 0; error < 26; error++)
        puts(rustc_lexer_literal_error_message(error));
    return 0;
}
";

#[test]
fn header_has_the_messages_of_errors_in_literals() {
    use EscapeError::*;
    fs::write(room("messages.c"), MESSAGES).unwrap();
    let source = room("messages.c");
    let library = static_library();
    let program = compiled("messages", &["-I."], &[source.to_str().unwrap()], &library);
    let errors = [
        ZeroChars,
        MoreThanOneChar,
        LoneSlash,
        InvalidEscape,
        BareCarriageReturn,
        BareCarriageReturnInRawString,
        EscapeOnlyChar,
        TooShortHexEscape,
        InvalidCharInHexEscape,
        OutOfRangeHexEscape,
        NoBraceInUnicodeEscape,
        InvalidCharInUnicodeEscape,
        EmptyUnicodeEscape,
        UnclosedUnicodeEscape,
        LeadingUnderscoreUnicodeEscape,
        OverlongUnicodeEscape,
        LoneSurrogateUnicodeEscape,
        OutOfRangeUnicodeEscape,
        UnicodeEscapeInByte,
        NonAsciiCharInByte,
        NulInCStr,
        UnskippedWhitespaceWarning,
        MultipleSkippedLinesWarning,
    ];
    let messages: String = errors.iter().map(|error| format!("{error}\n")).collect();
    assert_eq!(
        printed(&mut Command::new(program)),
        format!("\n{messages}\n\n")
    );
}

/// `calls.c` checks this order.
#[test]
fn header_has_the_order_of_statuses() {
    let header = header();
    let comment = header.split_once("returns the first of these:").unwrap().1;
    let comment = comment.split_once('.').unwrap().0;
    let listed = comment
        .split([',', ' ', '\n', '*'])
        .filter(|name| !name.is_empty());
    let calls = fs::read_to_string(top().join("c/calls.c")).unwrap();
    let order = calls.split_once("order[] = {").unwrap().1;
    let order = order.split_once('}').unwrap().0.split([',', ' ', '\n']);
    let checked = order.filter_map(|name| name.strip_prefix("RUSTC_LEXER_"));
    assert_eq!(listed.collect::<Vec<_>>(), checked.collect::<Vec<_>>());
}

/// The longest message is that of a raw string, if its numbers have ten digits.
#[test]
fn header_has_room_for_every_message() {
    let longest = "unterminated raw string: expected 4294967295 `#` after the closing quote, \
        found 4294967294 at byte 4294967295";
    let header = header();
    let before = header
        .split_once(" bytes are enough for every message")
        .unwrap()
        .0;
    let enough: usize = before.rsplit(' ').next().unwrap().parse().unwrap();
    assert!(longest.len() <= enough, "{enough}");
}

#[test]
fn programs_with_checks() {
    let library = static_library();
    for program in ["calls", "edits", "held"] {
        printed(&mut Command::new(compiled(
            program,
            &[],
            &[&format!("{program}.c")],
            &library,
        )));
    }
    let mut odd_places = Command::new(compiled("odd_places", &[], &["odd_places.c"], &library));
    odd_places
        .args(["30", "README.md"])
        .args(sources("crates/lex_vectors"));
    printed(odd_places.current_dir(top()));
    for program in ["calls", "edits"] {
        let shared = libraries().join("librustc_lexer_c.so");
        let linked = compiled(
            &format!("{program}_shared"),
            &[],
            &[&format!("{program}.c")],
            &shared,
        );
        printed(Command::new(linked).env("LD_LIBRARY_PATH", libraries()));
    }
}

/// With debug assertions Rust checks the preconditions of unsafe calls, for example that no slice has a null pointer.
#[test]
fn programs_over_debug_assertions() {
    let words = [
        "--release",
        "--config",
        "profile.release.debug-assertions=true",
    ];
    let library =
        built("rust/rustc_lexer_c", "asserting", &words).join("release/librustc_lexer_c.a");
    for program in ["calls", "edits", "held"] {
        let source = format!("{program}.c");
        printed(&mut Command::new(compiled(
            &format!("{program}_asserting"),
            &[],
            &[&source],
            &library,
        )));
    }
    let bounds = compiled("bounds", &[], &["bounds.c"], &library);
    let done = shell("ulimit -c 0; exec $P", &bounds);
    let line = text(&done.stderr).lines().next().map(String::from);
    assert_eq!(
        (done.status.signal(), line.as_deref()),
        (Some(6), Some("cut")),
        "a panic aborts"
    );
}

/// Returns the source files in a folder that git tracks.
fn sources(folder: &str) -> Vec<PathBuf> {
    let files = printed(
        Command::new("git")
            .args(["ls-files", "*.rs", "*.rt"])
            .current_dir(top().join(folder)),
    );
    files
        .lines()
        .map(|file| top().join(folder).join(file))
        .collect()
}

/// Returns texts as files, each with its argument for `lexdump`: the test vectors of the newest edition, and the
/// sources.
fn listed() -> Vec<(PathBuf, &'static str)> {
    let (mut texts, mut text) = (Vec::new(), String::new());
    for entry in tables::all::all()
        .into_iter()
        .flat_map(|(_, entries)| entries)
    {
        match *entry {
            Entry::Fragment(part, times) => text += &part.repeat(times as usize),
            Entry::Token(_) => {}
            Entry::End(ways) => {
                let words = [(No, ""), (Yes, "front")];
                let words = words
                    .into_iter()
                    .filter(|(allowed, _)| ways.has(Way::Newest(*allowed)));
                texts.extend(words.map(|(_, word)| (text.clone(), word)));
                text.clear();
            }
        }
    }
    texts.extend(
        tables::shebang::ROWS
            .iter()
            .map(|(text, _)| (text.to_string(), "shebang")),
    );
    let mut files: Vec<_> = sources("").into_iter().map(|it| (it, "")).collect();
    for (number, (text, word)) in texts.iter_mut().enumerate() {
        let file = room(&format!("text_{number}"));
        fs::write(&file, mem::take(text)).unwrap();
        files.push((file, *word));
    }
    files
}

fn lexdump() -> &'static Path {
    static PROGRAM: OnceLock<PathBuf> = OnceLock::new();
    PROGRAM.get_or_init(|| built("rust/lexdump", "lexdump", &[]).join("debug/lexdump"))
}

#[test]
fn listings_are_those_of_lexdump() {
    let batches = ["1024", "1", "3"];
    let programs = batches.map(|len| {
        let flag = format!("-DBUFFER_LEN={len}");
        compiled(
            &format!("listing_by_{len}"),
            &[&flag],
            &["listing.c"],
            &static_library(),
        )
    });
    let files = listed();
    assert!(files.len() > 800, "only {} texts", files.len());
    for (file, word) in files {
        let list = |program: &Path| {
            let words = (!word.is_empty()).then_some(word);
            Command::new(program)
                .args(words)
                .stdin(File::open(&file).unwrap())
                .output()
                .unwrap()
        };
        let wanted = list(lexdump());
        assert!(wanted.status.success());
        for program in &programs {
            assert_eq!(
                text(&list(program).stdout),
                text(&wanted.stdout),
                "{program:?} {word} < {file:?}"
            );
        }
    }
}

fn shell(command: &str, program: &Path) -> Output {
    let folder = room(&format!(
        "shell_{}",
        program.file_name().unwrap().to_str().unwrap()
    ));
    fs::create_dir_all(&folder).unwrap();
    Command::new("sh")
        .args(["-c", command])
        .env("P", program)
        .current_dir(folder)
        .output()
        .unwrap()
}

/// Shell commands; `$P` is the program.
const COMMANDS: [&str; 11] = [
    "head -c 5000000 /dev/zero | tr '\\0' ';' | $P",
    "printf '\\377' | $P",
    "$P x < /dev/null",
    "$P front x < /dev/null",
    "printf '\\377' | $P shebang",
    "$P < /",
    "head -c 70000 /dev/zero | tr '\\0' ';' | $P > /dev/full",
    "printf 'fn a' | $P > /dev/full",
    // The listing has 4097 bytes: the write of a block fails at the last byte, and nothing is left for the final write.
    "{ printf -- '-----'; head -c 377 /dev/zero | tr '\\0' +; } | $P > /dev/full",
    "$P < /dev/null > /dev/full",
    "(ulimit -v 24000; head -c 40000000 /dev/zero | $P)",
];

#[test]
fn listing_ends_like_lexdump() {
    let listing = compiled("listing", &[], &["listing.c"], &static_library());
    for command in COMMANDS {
        let [wanted, got] = [lexdump(), &listing].map(|program| {
            let done = shell(command, program);
            let said = text(&done.stderr).replace("write failed", "");
            let said = said
                .split_once(": ")
                .map(|(_, said)| said.trim().to_string());
            (
                done.status.code(),
                said.unwrap_or_default(),
                text(&done.stdout),
            )
        });
        assert_eq!(got, wanted, "{command}");
    }
    let flags = ["-Wl,-z,muldefs"];
    let too_long = compiled(
        "listing_too_long",
        &flags,
        &["listing.c", "too_long.c"],
        &static_library(),
    );
    let done = shell("echo a | $P", &too_long);
    assert_eq!(
        (done.status.code(), text(&done.stderr)),
        (Some(4), "listing: input too long\n".to_string())
    );
}
