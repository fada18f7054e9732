//! Documents that grow at their end: the example prints each token once, as soon as no continuation can change it.

#[allow(dead_code, reason = "no text is edited here")]
mod random;
#[allow(dead_code, reason = "its `main`")]
#[path = "../examples/stream.rs"]
mod stream;

use random::Random;
use rustc_lexer::incremental::Head;
use rustc_lexer::{Edition, LexedDocument, tokenize_document};
use std::str;
use stream::{Stream, final_tokens, is_head_final};

/// Random documents consist of these: pieces that start, end and break a shebang line, an attribute or a frontmatter.
#[rustfmt::skip]
const BITS: &[&str] = &[
    "#!", "#", "!", "[", "]", "/", "//", "//!", "/*", "*/", "/**", "bin/sh", "\u{feff}", "\n", "\n", "\n", "\r\n",
    "\r", " ", "\t", "\u{2028}", "-", "--", "---", "---\n", "\n---", "\n---\n", "----", "---a\n", "use ", "\nuse ",
    "a", "r#", "1.", "é", "😀", "\"", "'", "b'", "\\", "'r#", "##", "c\"",
];

/// Texts that change the tokens before them, if any text can.
#[rustfmt::skip]
const CONTINUATIONS: &[&str] = &[
    "", "\u{feff}", "\u{feff}#!a\n", "#!a\n", "!a\n", "[a", "![a", "*/[a", "/[a", "!\n[a", "\n[a", "*/\n[a", "/\n[a",
    "-", "--", "---", "-\n", "--\n---\n", "---\n---\n", "\n---\n", "\n----\n", "\n-----\n", "\r\n---\r\n", "\n#![a",
    "\nuse a", " ", "\n", "\r", "\r\n", "a", "1", "#", "\"", "'", "é", "/", "=",
];

#[rustfmt::skip]
const STARTS: &[&str] = &[
    "", "", "#!/bin/sh\n", "#!/bin/sh\r\n", "#!", "#!\n", "#! // a\n/*", "#! // a\n", "#![a]\n",
];

/// Closed, unclosed, after whitespace, with fences of different lengths.
#[rustfmt::skip]
const FRONTS: &[&str] = &[
    "", "", "---\na\n---\n", "---\r\na\r\n---\r\n", "\n ---\n", "\n----a\n---\n----\n", "---\n----\n", " ---\n---\n",
];

fn document(random: &mut Random) -> String {
    let mut any = |from: &[&'static str]| from[random.below(from.len())];
    let head = [any(&["", "\u{feff}"]), any(STARTS), any(FRONTS)].concat();
    head + &random.text(12)
}

/// The tokens of a document, as the example prints them.
fn printed(text: &str) -> String {
    let pieces = tokenize_document(text, Edition::NEWEST).pieces();
    pieces
        .map(|piece| format!("{} {:?} {:?}\n", piece.start, piece.token.kind, piece.text))
        .collect()
}

/// The longest text at the start of the bytes.
fn text_of(bytes: &[u8]) -> &str {
    let end = str::from_utf8(bytes).map_or_else(|error| error.valid_up_to(), str::len);
    str::from_utf8(&bytes[..end]).unwrap()
}

/// Passes a text to the example in random chunks, and then calls a function with the text so far and the output.
fn print_in_chunks(text: &str, random: &mut Random, check: impl Fn(&str, &str)) {
    let (mut end, mut stream, mut output) = (0, Stream::default(), Vec::new());
    while end < text.len() {
        let next = end + 1 + random.below((text.len() - end).min(9));
        stream
            .take(&text.as_bytes()[end..next], &mut output)
            .unwrap();
        end = next;
        check(
            text_of(&text.as_bytes()[..end]),
            str::from_utf8(&output).unwrap(),
        );
    }
    stream.finish(&mut output).unwrap();
    // Each token once, wherever the input was cut.
    assert_eq!(str::from_utf8(&output).unwrap(), printed(text));
}

/// Printed tokens are the first ones of the document with any continuation, and a final head is its head.
#[test]
fn other_continuations() {
    let mut random = Random(117, BITS);
    for _ in 0..600 {
        let text = document(&mut random);
        let others = [0; 8].map(|_| random.text(6));
        print_in_chunks(&text, &mut random, |start, output| {
            let others = others.iter().map(String::as_str);
            for more in CONTINUATIONS.iter().copied().chain(others) {
                let whole = [start, more].concat();
                let is_first = printed(&whole).starts_with(output);
                assert!(is_first, "{start:?} before {more:?}");
                let heads = [start, &whole].map(Head::find);
                let is_kept = heads[0] == heads[1] || !is_head_final(start);
                assert!(is_kept, "the head of {start:?} before {more:?}");
            }
        });
    }
}

/// In each edition, the final tokens are the first ones of the document with any continuation.
#[test]
fn other_editions() {
    let mut random = Random(118, BITS);
    for number in 0..4000 {
        let (start, edition) = (document(&mut random), Edition::ALL[number % 4]);
        let lexed = LexedDocument::new_in(&*start, edition);
        let known = &lexed.tokens()[..final_tokens(&lexed)];
        for more in CONTINUATIONS {
            let whole = [&*start, more].concat();
            let tokens = tokenize_document(&whole, edition).take(known.len());
            assert!(
                tokens.eq(known.iter().copied()),
                "{start:?} before {more:?} in {edition:?}"
            );
        }
    }
}

/// In each document, the number of characters at which the head becomes final, if it does.
const FINAL_HEADS: &[(&str, Option<usize>)] = &[
    ("fn", Some(1)),
    ("\u{feff}fn", Some(2)),
    ("\u{feff}\u{feff}", Some(2)),
    // The slash of the comment decides.
    (" \n// a", Some(3)),
    ("#a", Some(2)),
    ("-a", Some(2)),
    ("--a", Some(3)),
    // Whitespace after the shebang line can precede a frontmatter.
    ("#!/bin/sh\nfn", Some(11)),
    ("\u{feff}#!/bin/sh\r\n\r\nfn", Some(15)),
    ("#!a\n\n--;", Some(8)),
    ("#!/bin/sh", None),
    // `[` is the first token, and two characters follow it.
    ("#![no_std]", Some(5)),
    ("#! // a\n[no_std]", Some(11)),
    ("#! /* a */", None),
    // The newline after the closing fence decides.
    ("---\na\n---\nfn", Some(10)),
    ("\u{feff}#!a\n---\r\na\r\n---\r\nfn", Some(18)),
    (" ---\n---\nfn", Some(9)),
    ("---\n----\n", Some(9)),
    ("----\na\n---\n", None),
    ("----\na\n---\n----\n", Some(16)),
    ("---\nfn main() {}\n", None),
    ("\u{feff}", None),
    ("#", None),
    (" \n", None),
    ("--", None),
];

#[test]
fn heads() {
    for &(text, wanted) in FINAL_HEADS {
        let ends = text.char_indices().map(|(at, _)| at).chain([text.len()]);
        for (count, end) in ends.enumerate() {
            let is_final = wanted.is_some_and(|wanted| wanted <= count);
            assert_eq!(is_head_final(&text[..end]), is_final, "{:?}", &text[..end]);
        }
    }
}

/// Each chunk, and the tokens that it makes final.
#[test]
fn input_chunk_by_chunk() {
    let (mut stream, mut output) = (Stream::default(), Vec::new());
    let (mark, shebang) = (b"\xef\xbb", b"\xbf#!a\n---\n--");
    let frontmatter = concat!(
        "6 Whitespace \"\\n\"\n7 Frontmatter { has_invalid_preceding_whitespace: false, ",
        "invalid_infostring: false } \"---\\n---\"\n",
    );
    let newline = "14 Whitespace \"\\n\"\n";
    for (bytes, wanted) in [
        (&mark[..], ""),
        (shebang, ""),
        (b"-", ""),
        (b"\n", frontmatter),
        (b"let", newline),
        (b" ", ""),
        (b"\xc3", ""),
        (b"\xa9", "15 Ident \"let\"\n"),
        (b"=1", "18 Whitespace \" \"\n19 Ident \"é\"\n"),
    ] {
        output.clear();
        stream.take(bytes, &mut output).unwrap();
        assert_eq!(str::from_utf8(&output).unwrap(), wanted, "{bytes:?}");
    }
    assert!(stream.take(b"\xff", &mut output).is_err());
    let mut cut = Stream::default();
    cut.take(b"\xc3", &mut output).unwrap();
    assert!(cut.finish(&mut output).is_err());
}
