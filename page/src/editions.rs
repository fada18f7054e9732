//! The years of the editions, and the differences between their tokens.

use crate::json::{push_list, push_name, push_number, push_text, push_word};
use crate::seen::{piece, push_place};
use crate::source::{EDITIONS, Source};
use rustc_lexer::{Edition, Token};
use std::array::from_fn;
use std::ops::Range;

/// The maximum number of differences that are written.
const MOST: usize = 50;

/// A position in the tokens of an edition.
struct Walk<'a> {
    tokens: &'a [Token],
    number: usize,
    end: usize,
}

impl Walk<'_> {
    fn step(&mut self) {
        self.end += self.tokens[self.number].len as usize;
        self.number += 1;
    }
}

/// A range of the text whose tokens differ between editions, with the indices of its tokens in each edition.
struct Difference {
    bytes: Range<usize>,
    numbers: [Range<usize>; EDITIONS],
}

/// Returns the differences in order. Each ends where a token ends in all editions.
fn differences(source: &Source) -> Vec<Difference> {
    let mut walks = from_fn(|edition| Walk {
        tokens: source.tokens(edition),
        number: 0,
        end: source.begin(),
    });
    let mut found: Vec<Difference> = Vec::new();
    while let Some(first) = walks[0].tokens.get(walks[0].number) {
        let start = walks[0].end;
        let from = walks.each_ref().map(|walk| walk.number);
        let is_first = |walk: &Walk| walk.tokens.get(walk.number) == Some(first);
        let alike = walks.iter().all(is_first);
        walks.iter_mut().for_each(Walk::step);
        while let Some(least) = behind(&mut walks) {
            least.step();
        }
        if !alike {
            let numbers = from_fn(|edition| from[edition]..walks[edition].number);
            found.push(Difference {
                bytes: start..walks[0].end,
                numbers,
            });
        }
    }
    found
}

/// Returns the first walk that is behind another.
fn behind<'a, 'b>(walks: &'b mut [Walk<'a>; EDITIONS]) -> Option<&'b mut Walk<'a>> {
    let most = walks.iter().map(|walk| walk.end).max()?;
    walks.iter_mut().find(|walk| walk.end < most)
}

/// Returns the years as JSON, in the order of `Edition::ALL`.
pub fn years() -> String {
    let mut out = String::new();
    push_list(&mut out, Edition::ALL, |out, edition| {
        *out += &edition.year().to_string()
    });
    out
}

/// Returns the number of tokens in each edition and their differences, as JSON.
pub fn write(source: &Source) -> String {
    let found = differences(source);
    let mut out = "{".to_string();
    push_name(&mut out, "counts");
    push_list(&mut out, 0..EDITIONS, |out, edition| {
        *out += &source.tokens(edition).len().to_string()
    });
    push_number(&mut out, "differ", found.len());
    push_name(&mut out, "places");
    push_list(&mut out, found.iter().take(MOST), |out, difference| {
        out.push('{');
        push_place(out, source, difference.bytes.start);
        push_word(
            out,
            "text",
            &piece(&source.text()[difference.bytes.clone()]),
        );
        push_name(out, "editions");
        push_list(out, 0..EDITIONS, |out, edition| {
            let tokens = source.pieces_by_index(edition, difference.numbers[edition].clone());
            push_list(out, tokens, |out, token| {
                let words = [token.token.kind.name(), &piece(token.text)];
                push_list(out, words, push_text);
            });
        });
        out.push('}');
    });
    out + "}"
}
