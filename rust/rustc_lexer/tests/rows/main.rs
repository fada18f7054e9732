//! The test vectors of `crates/lex_vectors`, texts with their tokens, in the generated crate. They are not part of the
//! package.

use crate::tables::all::all;
use crate::tables::raw_strings::CHECKS;
use crate::tables::row::{Entry, Way};
use crate::tables::shebang;
use rustc_lexer::{
    Cursor, FrontmatterAllowed, Token, TokenKind, strip_shebang, tokenize, tokenize_as,
    tokenize_in, validate_raw_str,
};
use std::mem;

#[allow(dead_code)]
mod tables;

/// A text, a call that lexes it, and its tokens.
struct Case {
    text: String,
    way: Way,
    tokens: Vec<(TokenKind, u32)>,
}

impl Case {
    /// Whether a frontmatter is allowed, if the call is `tokenize`.
    fn allowed(&self) -> Option<FrontmatterAllowed> {
        match self.way {
            Way::Newest(allowed) => Some(allowed),
            _ => None,
        }
    }
}

/// A text with its tokens and its purpose.
type Text<M> = (String, Vec<(TokenKind, u32)>, M);

/// The texts of a table.
fn texts<M: Copy>(entries: &[Entry<M>]) -> Vec<Text<M>> {
    let (mut texts, mut text, mut tokens, mut each) =
        (Vec::new(), String::new(), Vec::new(), Vec::new());
    for entry in entries {
        match *entry {
            Entry::Fragment(part, times) => {
                text += &part.repeat(times as usize);
                tokens.extend(each.repeat(times as usize));
                each.clear();
            }
            Entry::Token(token) => each.push(token),
            Entry::End(purpose) => {
                tokens.append(&mut each);
                texts.push((mem::take(&mut text), mem::take(&mut tokens), purpose));
            }
        }
    }
    texts
}

/// All texts with their tokens, by each call.
fn cases() -> Vec<Case> {
    let mut cases = Vec::new();
    for (_, entries) in all() {
        for (text, tokens, ways) in texts(entries) {
            let ways = Way::ALL.into_iter().filter(|way| ways.has(*way));
            cases.extend(ways.map(|way| Case {
                text: text.clone(),
                way,
                tokens: tokens.clone(),
            }));
        }
    }
    cases
}

#[test]
fn tokens() {
    let cases = cases();
    // No row is lost.
    assert_eq!(cases.len(), 632);
    for case in cases {
        let mut left = match case.way {
            Way::Newest(allowed) => tokenize(&case.text, allowed),
            Way::Fragment(edition) => tokenize_in(&case.text, edition),
            Way::Document(edition) => tokenize_as(&case.text, FrontmatterAllowed::Yes, edition),
        };
        let shown: String = case.text.chars().take(40).collect();
        for &(kind, len) in &case.tokens {
            assert_eq!(left.next(), Some(Token { kind, len }), "in {shown:?}");
        }
        assert_eq!(left.next(), None, "in {shown:?}");
        assert_eq!(left.next(), None, "in {shown:?}");
    }
}

#[test]
fn names_of_kinds() {
    for (kind, _) in cases().iter().flat_map(|case| &case.tokens) {
        let debug = format!("{kind:?}");
        assert_eq!(Some(kind.name()), debug.split(' ').next());
        if let TokenKind::Literal { kind, .. } = kind {
            let debug = format!("{kind:?}");
            assert_eq!(Some(kind.name()), debug.split(' ').next());
        }
    }
    assert_eq!(TokenKind::Eof.name(), "Eof");
}

#[test]
fn cursors() {
    for case in cases() {
        let Some(allowed) = case.allowed() else {
            continue;
        };
        let mut cursor = Cursor::new(&case.text, allowed);
        let mut place = 0;
        for &(kind, len) in &case.tokens {
            assert_eq!(cursor.as_str(), &case.text[place..]);
            assert_eq!(cursor.advance_token(), Token { kind, len });
            place += len as usize;
        }
        let end = Token {
            kind: TokenKind::Eof,
            len: 0,
        };
        assert_eq!(cursor.advance_token(), end);
        assert_eq!(cursor.advance_token(), end);
    }
}

#[test]
fn shebang_lines() {
    assert_eq!(shebang::ROWS.len(), 44);
    for (text, line) in shebang::ROWS {
        assert_eq!(strip_shebang(text), *line, "in {text:?}");
    }
}

#[test]
fn raw_strings() {
    let checks = texts(CHECKS);
    assert_eq!(checks.len(), 39);
    for (text, _, (prefix_len, want)) in checks {
        assert_eq!(validate_raw_str(&text, prefix_len), want, "in {text:?}");
    }
}
