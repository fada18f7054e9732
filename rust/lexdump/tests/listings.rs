//! The listings of texts, with one byte for each read and write, and in blocks.

mod failing;

use failing::{BYTES, Script, Turn, WHOLE, Writer, words_of};
use lexdump_run::rattle_std::alloc::Global;
use lexdump_run::{Fault, Job, read_job, run, write_listing};
use rustc_lexer::Edition::E2024;
use rustc_lexer::{Token, TokenKind};

/// Arguments, a text, and the listing. The last texts have U+0000 or nothing after an opening delimiter, which a
/// careless program lists wrong.
#[rustfmt::skip]
const LISTED: [(&str, &str, &str); 21] = [
    ("", "fn main() {}\n", "0 2 Ident\n2 1 Whitespace\n3 4 Ident\n7 1 OpenParen\n8 1 CloseParen\n9 1 Whitespace\n\
        10 1 OpenBrace\n11 1 CloseBrace\n12 1 Whitespace\n"),
    ("", "", ""),
    ("--edition|2021", "#\"a\"", "0 1 Pound\n1 3 Literal kind=Str terminated=true suffix_start=3\n"),
    ("front", "##a", "0 2 GuardedStrPrefix\n2 1 Ident\n"),
    ("", "/// a", "0 5 LineComment doc_style=outer\n"),
    ("", "/*! a */", "0 8 BlockComment doc_style=inner terminated=true\n"),
    ("shebang", "#!/bin/sh\nfn", "9\n"),
    ("shebang", "fn", "none\n"),
    ("shebang", "#![no_std]\n", "none\n"),
    ("front", "---\n//!d\nuse a", "0 8 Frontmatter has_invalid_preceding_whitespace=false invalid_infostring=false\n\
        8 1 Whitespace\n9 3 Ident\n12 1 Whitespace\n13 1 Ident\n"),
    ("edit|8|8|z", "ab cd ef", "0 2 Ident\n2 1 Whitespace\n3 2 Ident\n5 1 Whitespace\n6 3 Ident\n"),
    ("edit|8|8|z|0|3|", "ab cd ef", "0 2 Ident\n2 1 Whitespace\n3 3 Ident\n"),
    ("--edition|2018|edit|6|6|x", "'r#foo", "0 2 Lifetime starts_with_number=false\n2 1 Pound\n3 4 Ident\n"),
    ("", "\0", "0 1 Unknown\n"),
    ("", "'\0", "0 2 Literal kind=Char terminated=false suffix_start=2\n"),
    ("", "r#\0", "0 3 Literal kind=RawStr n_hashes=none suffix_start=3\n"),
    ("front", "---\0", "0 4 Frontmatter has_invalid_preceding_whitespace=false invalid_infostring=true\n"),
    ("", "'", "0 1 Literal kind=Char terminated=false suffix_start=1\n"),
    ("", "\"", "0 1 Literal kind=Str terminated=false suffix_start=1\n"),
    ("", "b'", "0 2 Literal kind=Byte terminated=false suffix_start=2\n"),
    ("", "'\\", "0 2 Literal kind=Char terminated=false suffix_start=2\n"),
];

/// Arguments, the parts of a text with their repetitions, and the listing. The texts make a careless program slow or
/// overflow its stack.
type Repeated<'a> = (&'a str, &'a [(&'a str, usize)], &'a str);

#[rustfmt::skip]
const REPEATED: [Repeated<'_>; 5] = [
    ("", &[("/*", 100_000)], "0 200000 BlockComment doc_style=none terminated=false\n"),
    ("", &[("/*", 100_000), ("*/", 100_000)], "0 400000 BlockComment doc_style=none terminated=true\n"),
    ("front", &[("-", 70_000), ("\na\n", 1), ("-", 70_000)],
        "0 140003 Frontmatter has_invalid_preceding_whitespace=false invalid_infostring=false\n"),
    ("front", &[("-", 70_000), ("\na\n", 1), ("-", 69_999)],
        "0 140002 Frontmatter has_invalid_preceding_whitespace=false invalid_infostring=false\n"),
    ("", &[("r", 1), ("#", 300), ("\"a\"", 1), ("#", 300), ("x", 1)],
        "0 604 Literal kind=RawStr n_hashes=none suffix_start=604\n604 1 Ident\n"),
];

/// The writer after a run that succeeds.
fn dump(line: &str, text: &str, script: Script) -> Writer {
    let words = words_of(line);
    let job = read_job(Global, &words).unwrap();
    let mut output = script.writer();
    let mut input = script.reader(text.as_bytes());
    assert_eq!(run(Global, &job, &mut input, &mut output), Ok(()));
    assert!(!input.failed() && !output.failed());
    output.into_inner()
}

/// The listing, with one byte for each read and write, and one flush.
fn listed(line: &str, text: &str) -> String {
    let output = dump(line, text, BYTES);
    assert_eq!(output.flushes, 1);
    String::from_utf8(output.bytes).unwrap()
}

#[test]
fn listings() {
    for (line, text, listing) in LISTED {
        assert_eq!(listed(line, text), listing, "{line} of {text:?}");
    }
    for (line, parts, listing) in REPEATED {
        let texts = parts.iter().map(|(part, times)| part.repeat(*times));
        let text: String = texts.collect();
        assert_eq!(listed(line, &text), listing, "{line} of {parts:?}");
    }
}

/// 301 hashes are 150 prefixes of guarded strings and a hash.
#[test]
fn many_hashes() {
    let pairs = (0..150).map(|pair| format!("{} 2 GuardedStrPrefix\n", pair * 2));
    let listing: String = pairs.chain(["300 1 Pound\n".to_string()]).collect();
    assert_eq!(listed("", &"#".repeat(301)), listing);
}

/// Tokens are listed with offsets from a start, and flushed.
#[test]
fn listing_from_an_offset() {
    let token = |kind, len| Token { kind, len };
    let tokens = [token(TokenKind::Semi, 1), token(TokenKind::Ident, 20)];
    let mut output = WHOLE.writer();
    assert_eq!(write_listing(&mut output, 10, &tokens), Ok(()));
    let output = output.into_inner();
    assert_eq!(output.bytes, b"10 1 Semi\n11 20 Ident\n");
    assert_eq!(output.flushes, 1);
}

/// 100,000 names of one letter, each with a space after it, and their listing.
fn long_text() -> (String, String) {
    let line = |at: usize| format!("{at} 1 {}\n", ["Ident", "Whitespace"][at % 2]);
    ("x ".repeat(100_000), (0..200_000).map(line).collect())
}

/// Each block is less than one name of 65,536 bytes short of full, so there are 52.
#[test]
fn blocks_of_a_long_listing() {
    let (text, listing) = long_text();
    let output = dump("", &text, WHOLE);
    assert_eq!(output.bytes.len(), 3_388_890);
    assert!(output.bytes == listing.as_bytes());
    assert_eq!((output.calls, output.flushes), (52, 1));
}

/// A block that cannot be written stops a run, without a flush.
#[test]
fn blocks_that_cannot_be_written() {
    let (text, listing) = long_text();
    let job = Job::Plain { edition: E2024 };
    for block in [0, 1, 50, 51] {
        let mut output = WHOLE.but_at(block, Turn::MovesNothing).writer();
        let input = &mut WHOLE.reader(text.as_bytes());
        let answer = run(Global, &job, input, &mut output);
        assert_eq!(answer, Err(Fault::Write), "block {block}");
        let output = output.into_inner();
        assert_eq!((output.calls, output.flushes), (block + 1, 0));
        assert_eq!(output.bytes.len().div_ceil(65536), block);
        assert!(listing.as_bytes().starts_with(&output.bytes));
    }
}
