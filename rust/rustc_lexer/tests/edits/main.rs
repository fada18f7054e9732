//! Edits of a `LexedText`: the tokens next to a full re-lex, and what an edit must keep.

mod batches;
mod editions;
mod lists;
#[path = "../made/mod.rs"]
mod made;
mod one_edit;
#[path = "../random/mod.rs"]
mod random;
mod ranges;
mod set_text;
mod values;

use made::counts;
use random::Random;
use rustc_lexer::{LexedText, Relexed, Token, tokenize_in};
use std::ops::Range;

/// Random texts and edits consist of these: they change the tokens next to them.
#[rustfmt::skip]
const BITS: &[&str] = &[
    "a", "bc", "r", "k", "br", "c", "1", "0x", "e", ".", "_", " ", "\n", "\t", "é", "😀", "\u{3b1}", "\"", "'",
    "#", "##", "r#", "r#\"", "\"#", "\\", "/", "//", "/*", "*/", "///", "!", "'r#a", "b'", "::", "->", "..=",
    "let x = 1;", "fn f() {}\n", "'a", "\u{200d}",
];

impl Random {
    /// A range between characters, usually short.
    fn range(&mut self, text: &str) -> Range<usize> {
        let most = if self.below(20) == 0 { text.len() } else { 8 };
        self.range_in(text, text.len(), most)
    }
}

/// The token boundaries.
fn bounds(tokens: &[Token]) -> Vec<usize> {
    let mut bounds = vec![0];
    for token in tokens {
        bounds.push(bounds[bounds.len() - 1] + token.len as usize);
    }
    bounds
}

/// The counts of an edit, by the rules of docs/RELEXING.md.
fn wanted(
    old_text: &str,
    old: &[Token],
    new: &[Token],
    range: &Range<usize>,
    inserted: usize,
) -> Relexed {
    let old_bounds = bounds(old);
    let new_bounds = bounds(new);
    let kept_front = old_bounds[1..]
        .iter()
        .filter(|&&end| end <= range.start && old_text[end..range.start].chars().count() >= 2)
        .count();
    let past = range.start + inserted;
    let met = (kept_front..new_bounds.len())
        .find(|&number| {
            let end = new_bounds[number];
            end >= past && old_bounds.contains(&(end - inserted + range.len()))
        })
        .expect("the ends of both texts meet");
    let there = new_bounds[met] - inserted + range.len();
    let kept_back = old_bounds[1..].iter().filter(|&&end| end > there).count();
    counts(kept_front, met - kept_front, kept_back)
}

fn check(lexed: &LexedText, context: &str) {
    let scratch: Vec<Token> = tokenize_in(lexed.text(), lexed.edition()).collect();
    assert_eq!(lexed.tokens(), scratch, "{context}");
    let mut start = 0;
    for (piece, token) in lexed.pieces().zip(&scratch) {
        let end = start + token.len as usize;
        let told = (piece.start as usize, piece.token, piece.text);
        assert_eq!(told, (start, *token, &lexed.text()[start..end]));
        start = end;
    }
    assert_eq!(start, lexed.text().len());
}

fn edit_and_check(lexed: &mut LexedText, range: Range<usize>, insert: &str) {
    let before = lexed.text().to_string();
    let old = lexed.tokens().to_vec();
    let relexed = lexed.edit(range.clone(), insert);
    let mut text = before.clone();
    text.replace_range(range.clone(), insert);
    assert_eq!(lexed.text(), text);
    let edition = lexed.edition();
    let context = format!("{before:?} with {insert:?} at {range:?}, in {edition:?}");
    check(lexed, &context);
    let wanted = wanted(&before, &old, lexed.tokens(), &range, insert.len());
    assert_eq!(relexed, wanted, "{context}");
    let painted = lexed.pieces_by_index(relexed.changed_tokens());
    let all = lexed.pieces().skip(relexed.kept_front);
    assert!(painted.eq(all.take(relexed.lexed)), "{context}");
}
