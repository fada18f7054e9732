//! The class and the kind of keyword of a single token.

use rustc_lexer::{DocStyle, TokenKind, tokenize_in};
use rustc_lexer_highlight::Edition::{self, E2015, E2018, E2021, E2024};
use rustc_lexer_highlight::KeywordKind::{self, Reserved, Strict, Weak};
use rustc_lexer_highlight::{Class, class_of, keyword_kind};
use std::collections::HashSet;

/// The strict keywords of all editions, as the Rust Reference lists them.
const STRICT: &str = "_ as break const continue crate else enum extern false fn for if impl in let loop match mod move \
    mut pub ref return self Self static struct super trait true type unsafe use where while";

/// The reserved keywords of all editions.
const RESERVED: &str =
    "abstract become box do final macro override priv typeof unsized virtual yield";

/// Keywords of some editions, and words that are not keywords, with the kind in each of the four editions.
#[rustfmt::skip]
const WORDS: [(&str, [Option<KeywordKind>; 4]); 26] = [
    ("async", [None, Some(Strict), Some(Strict), Some(Strict)]),
    ("await", [None, Some(Strict), Some(Strict), Some(Strict)]),
    ("dyn", [Some(Weak), Some(Strict), Some(Strict), Some(Strict)]),
    ("try", [None, Some(Reserved), Some(Reserved), Some(Reserved)]),
    ("gen", [None, None, None, Some(Reserved)]),
    ("macro_rules", [Some(Weak); 4]),
    ("union", [Some(Weak); 4]),
    ("raw", [Some(Weak); 4]),
    ("safe", [Some(Weak); 4]),
    ("'static", [Some(Weak); 4]),
    ("", [None; 4]),
    ("a", [None; 4]),
    ("__", [None; 4]),
    ("As", [None; 4]),
    ("as_", [None; 4]),
    ("SELF", [None; 4]),
    ("r#fn", [None; 4]),
    ("k#fn", [None; 4]),
    ("'fn", [None; 4]),
    ("static", [Some(Strict); 4]),
    ("'_", [None; 4]),
    ("default", [None; 4]),
    ("auto", [None; 4]),
    ("usize", [None; 4]),
    ("while ", [None; 4]),
    ("fnfn", [None; 4]),
];

#[test]
fn keywords() {
    for &edition in Edition::ALL {
        for word in STRICT.split(' ').filter(|word| !word.is_empty()) {
            assert_eq!(
                keyword_kind(word, edition),
                Some(Strict),
                "{word} in {edition}"
            );
        }
        for word in RESERVED.split(' ') {
            assert_eq!(
                keyword_kind(word, edition),
                Some(Reserved),
                "{word} in {edition}"
            );
        }
    }
    for (word, wanted) in WORDS {
        let found = [E2015, E2018, E2021, E2024].map(|edition| keyword_kind(word, edition));
        assert_eq!(found, wanted, "{word}");
    }
}

#[test]
fn classes() {
    use Class::*;
    for (text, wanted) in [
        ("// a", Comment),
        ("/* a", Comment),
        ("//! a", Doc),
        ("/** a */", Doc),
        (" ", Plain),
        ("fn", Keyword),
        ("async", Keyword),
        ("_", Keyword),
        ("gen", Plain),
        ("union", Plain),
        ("yield", Plain),
        ("r#fn", Plain),
        ("Vec", TypeName),
        ("Self", Keyword),
        ("\u{c4}", Plain),
        ("vec", Plain),
        ("1", Number),
        ("1.5e", Number),
        ("'a'", Text),
        ("br\"", Text),
        ("'a", Lifetime),
        ("'r#a", Lifetime),
        ("+", Plain),
        ("\u{ac}", Plain),
    ] {
        let token = tokenize_in(text, E2024).next().unwrap();
        assert_eq!(token.len as usize, text.len(), "{text}");
        assert_eq!(class_of(token.kind, text, Edition::E2024), wanted, "{text}");
    }
    // `dyn` is not a keyword in the first edition.
    for (edition, wanted) in [
        (E2015, Plain),
        (E2018, Keyword),
        (E2021, Keyword),
        (E2024, Keyword),
    ] {
        let classes = ["async", "dyn", "try"].map(|word| class_of(TokenKind::Ident, word, edition));
        assert_eq!(classes, [wanted, wanted, Plain]);
    }
    let doc_style = Some(DocStyle::Outer);
    assert_eq!(
        class_of(TokenKind::LineComment { doc_style }, "///", Edition::E2024),
        Doc
    );
}

/// Classes and keywords can be stored in a set.
#[test]
fn traits() {
    let seen = [Strict, Weak, Strict].map(|kind| (Class::Text, kind));
    assert_eq!(HashSet::from(seen).len(), 2);
}

/// The numbers of `c/rustc_lexer.h`.
#[test]
fn numbers_of_classes() {
    assert_eq!(
        [Class::Plain, Class::Doc, Class::Lifetime].map(Class::number),
        [1, 3, 9]
    );
}
