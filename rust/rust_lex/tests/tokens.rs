//! `rust-lex tokens`: the listing of documents.

mod common;

use common::{check_ended, check_shell, empty_folder, run_with_input, rust_lex, text_of};
use lexdump_run::rattle_std::io::Write;
use lexdump_run::{Watched, write_listing};
use rustc_lexer::{Edition, tokenize_document};
use std::{fs, io};

/// Arguments, standard input, and the listing.
const LISTINGS: [(&[&str], &str, &str); 10] = [
    (&[], "", ""),
    (&[], "fn a", "0 2 Ident\n2 1 Whitespace\n3 1 Ident\n"),
    (&["-"], "a", "0 1 Ident\n"),
    (&[], "\u{feff}a", "3 1 Ident\n"),
    (&[], "#!/bin/sh\na", "9 1 Whitespace\n10 1 Ident\n"),
    (
        &["--edition", "2015"],
        "\u{feff}#!x\n---\n---\na",
        "6 1 Whitespace\n\
         7 7 Frontmatter has_invalid_preceding_whitespace=false invalid_infostring=false\n\
         14 1 Whitespace\n\
         15 1 Ident\n",
    ),
    (
        &[],
        "0x 'a'u8",
        "0 2 Literal kind=Int base=16 empty_int=true suffix_start=2\n\
         2 1 Whitespace\n\
         3 5 Literal kind=Char terminated=true suffix_start=3\n",
    ),
    (
        &["--edition", "2018"],
        "z#a",
        "0 1 Ident\n1 1 Pound\n2 1 Ident\n",
    ),
    (
        &["--edition", "2021"],
        "z#a",
        "0 1 UnknownPrefix\n1 1 Pound\n2 1 Ident\n",
    ),
    (&[], "z#a", "0 1 UnknownPrefix\n1 1 Pound\n2 1 Ident\n"),
];

#[test]
fn listings() {
    let folder = empty_folder("listings");
    for (arguments, text, listing) in LISTINGS {
        let arguments = [&["tokens"], arguments].concat();
        let ended = run_with_input(&mut rust_lex(&folder, &arguments), text.as_bytes());
        check_ended(&ended, listing, "", 0, text);
    }
}

/// Texts with every kind of token, and every value of their fields.
const TEXTS: [&str; 11] = [
    "#!/bin/sh\n---cargo\n---\n",
    " ---a b\n---\n",
    "fn main() { a && b | !c; } @#~?:$=<>-*/^%+,. [] 'a 'b: '1 '\u{e9}\u{1f642}",
    "// a\n/// b\n//! c\n/* d */ /** e */ /*! f */ /* g",
    "/** a",
    "0b1 0o7 42 0xf 0b 0x_ 1.5 0b1.0 1e 0x1.0 2e9f64 1_u8",
    "'a' b'b' \"c\"x b\"d\" c\"e\" r\"f\" br#\"g\"# cr##\"h\"##s",
    "r#~ br#x cr#y r#a 'r#b k#c z#d 'z#e z\"f\" #\"g\"# ##",
    "a\u{1f642} \u{1f642} \u{ac} \0 \u{feff}",
    "b\"a",
    "\u{e9} '",
];

/// A list of bytes, as a writer for `lexdump`.
struct Lines(Vec<u8>);

impl Write for Lines {
    fn write(&mut self, bytes: &[u8]) -> io::Result<usize> {
        self.0.extend(bytes);
        Ok(bytes.len())
    }

    fn flush(&mut self) -> io::Result<()> {
        Ok(())
    }
}

/// Checks each prefix of each text.
#[test]
fn the_listing_of_lexdump() {
    let folder = empty_folder("lexdump");
    for text in TEXTS {
        for text in text
            .char_indices()
            .map(|(start, _)| &text[..start])
            .chain([text])
        {
            for edition in Edition::ALL.iter().copied() {
                let tokens = tokenize_document(text, edition);
                let start = tokens.offset() as u32;
                let mut lines = Watched::new(Lines(Vec::new()));
                write_listing(&mut lines, start, &tokens.into_vec()).unwrap();
                let listing = lines.into_inner().0;
                let mut program = rust_lex(&folder, &["tokens", "--edition"]);
                program.arg(edition.year().to_string());
                let ended = run_with_input(&mut program, text.as_bytes());
                check_ended(&ended, text_of(&listing), "", 0, text);
            }
        }
    }
}

#[test]
fn several_files() {
    let folder = empty_folder("several_listings");
    fs::write(folder.join("a.rs"), "a").unwrap();
    fs::write(folder.join("b.rs"), "").unwrap();
    let ended = rust_lex(&folder, &["tokens", "a.rs"]).output().unwrap();
    check_ended(&ended, "0 1 Ident\n", "", 0, "one file");
    let ended = rust_lex(&folder, &["tokens", "b.rs", "a.rs"])
        .output()
        .unwrap();
    let listing = "==> b.rs <==\n==> a.rs <==\n0 1 Ident\n";
    check_ended(&ended, listing, "", 0, "two files");
    let arguments = ["tokens", "a.rs", "-", "b.rs"];
    let ended = run_with_input(&mut rust_lex(&folder, &arguments), b"+");
    let listing = "==> a.rs <==\n0 1 Ident\n==> <stdin> <==\n0 1 Plus\n==> b.rs <==\n";
    check_ended(&ended, listing, "", 0, "three inputs");
}

#[cfg(target_os = "linux")]
#[test]
fn failures() {
    let folder = empty_folder("failed_listings");
    fs::write(folder.join("a.rs"), "a").unwrap();
    fs::write(folder.join("many.rs"), "a ".repeat(100_000)).unwrap();
    fs::write(folder.join("latin.rs"), b"a\n\xff").unwrap();
    let full = "rust-lex: standard output: No space left on device (os error 28)\n";
    check_shell(
        &folder,
        &[
            ("$P tokens a.rs > /dev/full", "", full, 2),
            ("$P tokens many.rs none > /dev/full", "", full, 2),
            ("$P tokens many.rs | head -1", "0 1 Ident\n", "", 0),
            ("$P tokens <&-", "", "", 0),
            ("$P tokens -- -", "", "", 0),
            (
                "$P tokens latin.rs none a.rs 2>&1",
                "rust-lex: latin.rs:2:1: invalid UTF-8\n\
                 rust-lex: none: No such file or directory (os error 2)\n\
                 ==> a.rs <==\n0 1 Ident\n",
                "",
                2,
            ),
        ],
    );
}
