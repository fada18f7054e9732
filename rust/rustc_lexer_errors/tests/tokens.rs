//! The error of a single token.

use rustc_lexer::{Edition, LiteralKind, TokenKind, tokenize_document};
use rustc_lexer_errors::{TokenError, token_error};
use std::collections::HashSet;
use std::error::Error;

/// A `TokenError` is an `Error`, and can be stored in a set.
#[test]
fn traits() {
    let error: Box<dyn Error> = Box::new(TokenError::UnterminatedByte);
    assert_eq!(
        error.to_string(),
        "unterminated byte literal: missing closing quote"
    );
    let seen = [1, 2, 1].map(|found| TokenError::TooManyHashes { found });
    assert_eq!(HashSet::from(seen).len(), 2);
}

/// The numbers of `c/rustc_lexer.h`.
#[test]
fn numbers_of_errors() {
    let dashes = TokenError::FrontmatterCloseMismatch {
        opening: 3,
        closing: 4,
    };
    let errors = [
        TokenError::UnterminatedBlockComment,
        dashes,
        TokenError::UnterminatedByte,
        TokenError::TooManyHashes { found: 256 },
    ];
    assert_eq!(errors.map(TokenError::number), [1, 6, 17, 22]);
}

/// rustc has an error for an unclosed frontmatter, for whitespace before the closing fence, for the number of its
/// dashes, and for text after it. It reads CRLF as a newline.
#[test]
fn errors_of_frontmatters() {
    use TokenError::*;
    let dashes = |opening, closing| Some(FrontmatterCloseMismatch { opening, closing });
    for (text, wanted) in [
        ("---\n---", None),
        ("---\n---\n", None),
        ("---\na\n---\nfn", None),
        ("--- cargo\na\n--- \t\n", None),
        ("----\n---\n----", None),
        ("---", Some(UnclosedFrontmatter)),
        ("---\n", Some(UnclosedFrontmatter)),
        ("---\nabc\nfn x", Some(UnclosedFrontmatter)),
        ("---\na\n--\n", Some(UnclosedFrontmatter)),
        ("---\nuse a;", Some(UnclosedFrontmatter)),
        ("---\na\nuse b;\n", Some(UnclosedFrontmatter)),
        ("---\na ---\n//! b", Some(UnclosedFrontmatter)),
        ("----\na\n---", dashes(4, 3)),
        ("----\na\n---x", dashes(4, 3)),
        ("---\na\n----", dashes(3, 4)),
        ("---\na\n------ b", dashes(3, 6)),
        ("---\na\n--- x", Some(ExtraAfterFrontmatterClose)),
        ("---cargo\n---cargo", Some(ExtraAfterFrontmatterClose)),
        ("---\na\n---\u{a0}\n", Some(ExtraAfterFrontmatterClose)),
        ("---\na\n ---\n", Some(WhitespaceBeforeFrontmatterClose)),
        ("---\na\n\t ----\nb", Some(WhitespaceBeforeFrontmatterClose)),
        (" ---\na", Some(WhitespaceBeforeFrontmatter)),
        ("---a b\n---", Some(InvalidInfostring)),
        ("---a b\nc", Some(UnclosedFrontmatter)),
        ("---\r\na\r\n---\r\n", None),
        ("---cargo-1.0 \r\na\r\n--- \r\nfn", None),
        ("---\u{e9}t\u{e9}\r\n---", None),
        ("---\na\n---\r", None),
        ("---a b\r\n---\r\n", Some(InvalidInfostring)),
        ("---1\r\n---\r\n", Some(InvalidInfostring)),
        ("---\r\r\n---\r\n", Some(InvalidInfostring)),
        ("---\ra\r\n---\r\n", Some(InvalidInfostring)),
        ("---a\rb\r\n---\r\n", Some(InvalidInfostring)),
        ("---\r\na\r\n--- \r\r\n", Some(ExtraAfterFrontmatterClose)),
        ("---\r\n---\ra\r\n", Some(ExtraAfterFrontmatterClose)),
        ("---\r\n---a\r\n", Some(ExtraAfterFrontmatterClose)),
        ("---\r\n---\r \r\n", Some(ExtraAfterFrontmatterClose)),
        (
            "---\r\na\r\n ---\r\n",
            Some(WhitespaceBeforeFrontmatterClose),
        ),
        ("---\r\n----\r\n", dashes(3, 4)),
        ("---\r\na\r\n", Some(UnclosedFrontmatter)),
    ] {
        for &edition in Edition::ALL {
            let token = tokenize_document(text, edition).next().unwrap();
            assert!(
                matches!(token.kind, TokenKind::Frontmatter { .. }),
                "{text}"
            );
            let found = token_error(token.kind, &text[..token.len as usize], edition);
            assert_eq!(found, wanted, "{text}");
        }
    }
}

/// Errors with details from the text.
#[test]
fn errors_with_details() {
    let kind = LiteralKind::RawStr { n_hashes: None };
    let suffix_start = 0;
    let token = TokenKind::Literal { kind, suffix_start };
    let error = |text| token_error(token, text, Edition::E2024);
    assert_eq!(
        error("r##\"abc\"#"),
        Some(TokenError::TooFewHashes {
            expected: 2,
            found: 1,
            end: 8
        })
    );
    assert_eq!(
        error("r#\"abc"),
        Some(TokenError::UnterminatedRawString { expected: 1 })
    );
    assert_eq!(
        token_error(TokenKind::Unknown, "\u{ac}", Edition::E2024),
        Some(TokenError::UnknownCharacter)
    );
    assert_eq!(token_error(TokenKind::Ident, "a", Edition::E2024), None);
}

/// Only `k#a` has an error that depends on the edition. `z"` and `#"` are other tokens in the earlier editions.
#[test]
fn errors_by_edition() {
    use Edition::{E2015, E2018, E2021, E2024};
    let forced = TokenKind::ForcedKeywordIdent;
    for (edition, wanted) in [
        (E2015, None),
        (E2018, None),
        (E2021, Some(TokenError::UnknownPrefix)),
        (E2024, Some(TokenError::UnknownPrefix)),
    ] {
        let found = token_error(forced, "k#a", edition);
        assert_eq!(found, wanted, "k#a in {edition:?}");
    }
    for &edition in Edition::ALL {
        let found = token_error(TokenKind::UnknownPrefix, "z", edition);
        assert_eq!(found, Some(TokenError::UnknownPrefix), "z in {edition:?}");
    }
}
