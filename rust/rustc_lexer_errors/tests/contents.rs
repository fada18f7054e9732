//! The contents of literals and doc comments.

use rustc_lexer::{DocStyle, FrontmatterAllowed, TokenKind, tokenize};
use rustc_lexer_errors::{doc_comment_contents, literal_contents};
use rustc_literal_escaper::Mode;

#[test]
fn contents_of_literals() {
    for (text, wanted) in [
        (r"'a'", Some((Mode::Char, "a"))),
        (r"b'\''", Some((Mode::Byte, r"\'"))),
        (r#""""#, Some((Mode::Str, ""))),
        (r#""\"é"s"#, Some((Mode::Str, r#"\"é"#))),
        (r#"b"'""#, Some((Mode::ByteStr, "'"))),
        (r#"c"a""#, Some((Mode::CStr, "a"))),
        (r##"r#"a"b"#"##, Some((Mode::RawStr, r#"a"b"#))),
        (r#"br"\""#, Some((Mode::RawByteStr, r"\"))),
        (r###"cr##""##"###, Some((Mode::RawCStr, ""))),
        (r#""a"#, None),
        (r##"r#"a""##, None),
        ("1", None),
        ("'a", None),
        ("a", None),
    ] {
        let kind = tokenize(text, FrontmatterAllowed::No).next().unwrap().kind;
        let found = literal_contents(kind, text).map(|(mode, range)| (mode, &text[range]));
        assert_eq!(found, wanted, "of {text}");
    }
}

/// Ranges are in bytes.
#[test]
fn ranges_of_contents() {
    for (text, wanted) in [
        ("'a'", 1..2),
        ("b'a'x", 2..3),
        ("\"é\"", 1..3),
        ("b\"\"", 2..2),
        ("cr##\"a\"#\"##", 5..8),
        ("br\"a\"", 3..4),
    ] {
        let kind = tokenize(text, FrontmatterAllowed::No).next().unwrap().kind;
        assert_eq!(literal_contents(kind, text).unwrap().1, wanted, "of {text}");
    }
}

/// The text of the attribute `doc` that each comment is equivalent to, by the Rust Reference.
#[test]
fn contents_of_doc_comments() {
    for (text, wanted) in [
        ("/// a", Some(" a")),
        ("//! a", Some(" a")),
        ("///", Some("")),
        ("//!", Some("")),
        ("///a///", Some("a///")),
        ("//!!", Some("!")),
        ("/// é*/", Some(" é*/")),
        ("/// a\r", Some(" a")),
        ("/// a\r\r", Some(" a\r")),
        ("///\r", Some("")),
        ("/** a */", Some(" a ")),
        ("/*! a */", Some(" a ")),
        ("/*!*/", Some("")),
        ("/*!!*/", Some("!")),
        ("/** a **/", Some(" a *")),
        ("/** /* b */ */", Some(" /* b */ ")),
        ("/** a\r\n * b\r\n */", Some(" a\r\n * b\r\n ")),
        ("/** é", Some(" é")),
        ("/*! a /* */", Some(" a /* */")),
        ("/** a\r", Some(" a\r")),
        ("// a", None),
        ("//", None),
        ("//// a", None),
        ("/* a */", None),
        ("/**/", None),
        ("/***/", None),
        ("/*** a */", None),
        ("/* a", None),
        ("a", None),
        ("\"/// a\"", None),
    ] {
        let token = tokenize(text, FrontmatterAllowed::No).next().unwrap();
        assert_eq!(token.len as usize, text.len(), "the length of {text:?}");
        let found = doc_comment_contents(token.kind, text).map(|range| &text[range]);
        assert_eq!(found, wanted, "of {text:?}");
    }
}

/// A text that the kind does not fit has no contents.
#[test]
fn other_texts() {
    let doc_style = Some(DocStyle::Outer);
    let line = TokenKind::LineComment { doc_style };
    let block = TokenKind::BlockComment {
        doc_style,
        terminated: true,
    };
    for text in ["", "//", "//! a", "/** a */", "é// a"] {
        assert_eq!(doc_comment_contents(line, text), None, "of {text:?}");
    }
    for text in ["", "/*", "/**/", "/** a", "/*! a */", "/// a */"] {
        assert_eq!(doc_comment_contents(block, text), None, "of {text:?}");
    }
}
