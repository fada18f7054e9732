//! Compares the tokens of a text in each edition, by every way to lex it, with those derived from the original's
//! tokens.

use std::fmt::{Debug, Write};

use rustc_lexer::{Edition, FrontmatterAllowed, Stepper, Steps, Token, TokenKind, tokenize_as};

/// Returns the first token of a text in an edition, by the original, which only has the newest edition. A token that an
/// older edition does not have is shortened and lexed again: a guarded string's prefix to its hash, a raw lifetime to
/// the quote and the letter, and a prefix to the text before its hash.
fn first(text: &str, year: u16, allowed: bool) -> Option<original::Token> {
    use original::TokenKind::*;
    let read = |text: &str, allowed: bool| {
        let allowed = match allowed {
            true => original::FrontmatterAllowed::Yes,
            false => original::FrontmatterAllowed::No,
        };
        original::tokenize(text, allowed).next()
    };
    let token = read(text, allowed)?;
    let cut = match token.kind {
        GuardedStrPrefix if year < 2024 => 1,
        RawLifetime if year < 2021 => 2,
        UnknownPrefix | UnknownPrefixLifetime if year < 2021 => token.len as usize,
        _ => return Some(token),
    };
    read(&text[..cut], false)
}

fn line(lines: &mut String, kind: impl Debug, len: u32) {
    writeln!(lines, "{kind:?} {len}").expect("writing to a String succeeds");
}

/// Writes the tokens of each edition, with and without a frontmatter, derived from the original's tokens.
fn theirs(text: &str, lines: &mut String) {
    for &edition in Edition::ALL {
        for is_document in [false, true] {
            let (mut rest, mut allowed) = (text, is_document);
            while let Some(token) = first(rest, edition.year(), allowed) {
                allowed &= matches!(token.kind, original::TokenKind::Whitespace);
                rest = &rest[token.len as usize..];
                line(lines, &token.kind, token.len);
            }
        }
    }
}

/// Returns the tokens by a `for` loop, and checks that alternating `next` and `fill`, and a stepper, give the same.
fn tokens(text: &str, edition: Edition, allowed: FrontmatterAllowed) -> Vec<Token> {
    let read = || tokenize_as(text, allowed, edition);
    let mut by_for = Vec::new();
    for token in read() {
        by_for.push(token);
    }
    let eof = Token {
        kind: TokenKind::Eof,
        len: 0,
    };
    let (mut tokens, mut by_fill, mut size) = (read(), Vec::new(), 0);
    while let Some(token) = tokens.next() {
        size = (size * 3 + 1) % 17;
        let mut buffer = [eof; 17];
        let count = tokens.fill(&mut buffer[..size]);
        by_fill.push(token);
        by_fill.extend(&buffer[..count]);
    }
    assert_eq!(by_for, by_fill, "{text:?} by fill in {edition:?}");
    if allowed == FrontmatterAllowed::No {
        let (mut steps, mut rest, mut by_step) = (Steps::new_in(edition), text, Vec::new());
        while !rest.is_empty() {
            let token = steps.step(rest);
            rest = &rest[token.len as usize..];
            by_step.push(token);
        }
        assert_eq!(by_for, by_step, "{text:?} by steps in {edition:?}");
    }
    by_for
}

/// Writes the tokens of each edition, with and without a frontmatter, by our crate.
fn ours(text: &str, lines: &mut String) {
    for &edition in Edition::ALL {
        for allowed in [FrontmatterAllowed::No, FrontmatterAllowed::Yes] {
            for token in tokens(text, edition, allowed) {
                line(lines, token.kind, token.len);
            }
        }
    }
}

/// The functions that write the tokens of the original and of our crate.
pub const ANSWERS: [fn(&str, &mut String); 2] = [theirs, ours];
