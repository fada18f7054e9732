//! Byte order marks, shebang lines and frontmatters: which calls skip or lex them.

use crate::{lens, token};
use rustc_lexer::{
    Cursor, Edition, FrontmatterAllowed, TokenKind, is_ident, settled, starts_raw, strip_shebang,
    tokenize, tokenize_as, tokenize_document, tokenize_in,
};

/// Which calls read a frontmatter, and in which edition. Only `tokenize_document` skips the shebang line.
#[test]
fn frontmatter_and_edition_of_each_call() {
    use FrontmatterAllowed::{No, Yes};
    let text = "---\na\n---\n##";
    let part = [1, 1, 1, 1, 1, 1, 1, 1, 1, 1, 2];
    let older = [1; 12];
    assert_eq!(lens(tokenize(text, No)), part);
    assert_eq!(lens(tokenize(text, Yes)), [9, 1, 2]);
    assert_eq!(lens(tokenize_in(text, Edition::E2024)), part);
    assert_eq!(lens(tokenize_in(text, Edition::E2021)), older);
    assert_eq!(lens(tokenize_as(text, No, Edition::E2021)), older);
    assert_eq!(lens(tokenize_as(text, Yes, Edition::E2021)), [9, 1, 1, 1]);
    assert_eq!(lens(tokenize_as(text, Yes, Edition::E2024)), [9, 1, 2]);
    let script = ["#!/\n", text].concat();
    let older = tokenize_document(&script, Edition::E2021);
    assert_eq!(lens(older), [1, 9, 1, 1, 1]);
    let document = tokenize_document(&script, Edition::E2024);
    assert_eq!(document.as_str(), &script[3..]);
    assert_eq!(lens(document), [1, 9, 1, 2]);
}

/// A document may start with a byte order mark. For every other call the mark is a token, and neither a shebang line
/// nor a frontmatter comes after it.
#[test]
fn a_byte_order_mark() {
    let text = "\u{feff}#!/bin/sh";
    let wanted = [3, 1, 1, 1, 3, 1, 2];
    for allowed in [FrontmatterAllowed::No, FrontmatterAllowed::Yes] {
        assert_eq!(lens(tokenize(text, allowed)), wanted);
        let script = "\u{feff}---\n---";
        assert_eq!(lens(tokenize(script, allowed)), [3, 1, 1, 1, 1, 1, 1, 1]);
        assert_eq!(
            Cursor::new(text, allowed).advance_token(),
            token(TokenKind::Unknown, 3)
        );
        for &edition in Edition::ALL {
            assert_eq!(lens(tokenize_as(text, allowed, edition)), wanted);
        }
    }
    for &edition in Edition::ALL {
        assert_eq!(lens(tokenize_in(text, edition)), wanted);
        let document = tokenize_document(text, edition);
        assert_eq!((document.as_str(), document.count()), ("", 0));
        for (text, start, tokens) in [
            ("\u{feff}", 3, vec![]),
            ("\u{feff}fn", 3, vec![2]),
            ("\u{feff}\u{feff}", 3, vec![3]),
            ("\u{feff} \n---\n---\nfn", 3, vec![2, 7, 1, 2]),
            ("\u{feff}#!/bin/sh\n---\n---\nfn", 12, vec![1, 7, 1, 2]),
            ("\u{feff}#!/bin/sh\r\nfn", 12, vec![2, 2]),
            ("\u{feff}#![a]", 3, vec![1, 1, 1, 1, 1]),
            ("#!\u{feff}\nfn", 5, vec![1, 2]),
            ("a\u{feff}", 0, vec![1, 3]),
        ] {
            let document = tokenize_document(text, edition);
            assert_eq!(text.len() - document.as_str().len(), start, "{text:?}");
            assert_eq!(lens(document), tokens, "{text:?}");
        }
    }
    assert_eq!((strip_shebang(text), settled(text)), (None, 10));
    assert!(!is_ident("\u{feff}a") && !starts_raw("\u{feff}r\"\"", 1));
}

/// A frontmatter can follow whitespace, and no other token.
#[test]
fn where_a_frontmatter_is_allowed() {
    use FrontmatterAllowed::{No, Yes};
    for (text, first, wanted) in [
        ("\n---\na\n---\nb", Yes, &[Yes, Yes, No, No, No][..]),
        ("a\n", Yes, &[Yes, No, No]),
        ("\n", Yes, &[Yes, Yes]),
        ("\na", No, &[No, No, No]),
    ] {
        let mut tokens = tokenize(text, first);
        let mut told = vec![tokens.frontmatter_allowed()];
        while tokens.next().is_some() {
            told.push(tokens.frontmatter_allowed());
        }
        assert_eq!(told, wanted, "{text:?}");
    }
}

#[test]
fn a_frontmatter_after_whitespace() {
    let mut tokens = tokenize("\n---\na\n---\nb", FrontmatterAllowed::Yes);
    assert_eq!(tokens.next().map(|token| token.len), Some(1));
    assert_eq!(tokens.next().map(|token| token.len), Some(9));
    let mut cursor = Cursor::new("\n---\na\n---\nb", FrontmatterAllowed::Yes);
    assert_eq!(cursor.advance_token().kind, TokenKind::Whitespace);
    let token = cursor.advance_token();
    assert!(matches!(token.kind, TokenKind::Frontmatter { .. }));
    assert_eq!(token.len, 9);
}
