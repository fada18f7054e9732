//! Guarded strings, and the hashes that remain pending after a text that is none.

use crate::{guarded, token};
use rustc_lexer::{Base, Cursor, FrontmatterAllowed, LiteralKind, TokenKind};

#[test]
fn guarded_strings() {
    for (text, answer, rest) in [
        ("##\"a", guarded(2, false, 4), ""),
        ("\"a\"", guarded(0, true, 3), ""),
        ("##\"a\"#x", guarded(2, true, 7), ""),
        ("##\"a\"###x", guarded(2, true, 7), "#x"),
        ("##x", None, "x"),
        ("", None, ""),
    ] {
        let mut cursor = Cursor::new(text, FrontmatterAllowed::No);
        assert_eq!(cursor.guarded_double_quoted_string(), answer, "in {text:?}");
        assert_eq!(cursor.as_str(), rest, "in {text:?}");
    }
}

#[test]
fn pending_hashes() {
    let mut cursor = Cursor::new("##x", FrontmatterAllowed::No);
    assert_eq!(cursor.guarded_double_quoted_string(), None);
    assert_eq!(cursor.advance_token(), token(TokenKind::Ident, 3));
    let mut cursor = Cursor::new("#1u", FrontmatterAllowed::No);
    assert_eq!(cursor.guarded_double_quoted_string(), None);
    let (base, empty_int, suffix_start) = (Base::Decimal, false, 2);
    let kind = LiteralKind::Int { base, empty_int };
    let number = TokenKind::Literal { kind, suffix_start };
    assert_eq!(cursor.advance_token(), token(number, 3));
}

#[test]
fn pending_hashes_after_a_second_call() {
    let mut cursor = Cursor::new("##x y", FrontmatterAllowed::No);
    assert_eq!(cursor.guarded_double_quoted_string(), None);
    assert_eq!(cursor.guarded_double_quoted_string(), None);
    assert_eq!(cursor.advance_token().len, 3);
    assert_eq!(cursor.advance_token().len, 1);
}

#[test]
fn pending_hashes_are_part_of_a_guarded_string_once() {
    let mut cursor = Cursor::new("# #\"a\" #\"b\"", FrontmatterAllowed::No);
    assert_eq!(cursor.guarded_double_quoted_string(), None);
    assert_eq!(cursor.advance_token().len, 2);
    assert_eq!(cursor.guarded_double_quoted_string(), guarded(1, true, 4));
    assert_eq!(cursor.advance_token().len, 1);
    assert_eq!(cursor.guarded_double_quoted_string(), guarded(1, true, 4));
}

#[test]
fn pending_hashes_at_the_end() {
    let mut cursor = Cursor::new("##", FrontmatterAllowed::No);
    assert_eq!(cursor.guarded_double_quoted_string(), None);
    assert_eq!(cursor.advance_token(), token(TokenKind::Eof, 0));
    assert_eq!(cursor.as_str(), "");
}

#[test]
fn guarded_string_call_keeps_a_frontmatter_allowed() {
    for (text, is_some) in [("---\na\n---\nb", false), ("\"\"---\na\n---\nb", true)] {
        let mut cursor = Cursor::new(text, FrontmatterAllowed::Yes);
        assert_eq!(cursor.guarded_double_quoted_string().is_some(), is_some);
        let kind = cursor.advance_token().kind;
        assert!(matches!(kind, TokenKind::Frontmatter { .. }), "{kind:?}");
        assert_eq!(cursor.advance_token().kind, TokenKind::Whitespace);
    }
    let mut cursor = Cursor::new("a\n---\na\n---\n", FrontmatterAllowed::Yes);
    for kind in [TokenKind::Ident, TokenKind::Whitespace, TokenKind::Minus] {
        assert_eq!(cursor.advance_token().kind, kind);
    }
}
