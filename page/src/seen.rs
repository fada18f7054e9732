//! The visible state of the page: highlighted lines, tokens, and the counts of the last edit.

use crate::json::{push_list, push_name, push_number, push_text, push_word};
use crate::listing;
use crate::source::Source;
use crate::value::value;
use crate::window::{Line, lines_of};
use std::ops::Range;

/// The maximum number of listed tokens.
const MOST_TOKENS: usize = 300;
/// The maximum number of characters that are shown of a token.
const MOST_SHOWN: usize = 40;

/// Returns a text in one line: control characters are escaped, and a long text is shortened.
pub fn piece(text: &str) -> String {
    let mut shown = String::new();
    for c in text.chars().take(MOST_SHOWN) {
        if c.is_control() {
            shown.extend(c.escape_default());
        } else {
            shown.push(c);
        }
    }
    if text.chars().nth(MOST_SHOWN).is_some() {
        shown.push('\u{2026}');
    }
    shown
}

/// Returns the length of the text, and how many tokens the last edit kept at the front, lexed, and kept at the back, as
/// JSON.
pub fn kept(source: &Source, edition: usize) -> String {
    let mut out = "{".to_string();
    push_number(&mut out, "bytes", source.text().len());
    push_number(&mut out, "lines", source.line_count());
    push_name(&mut out, "kept");
    if let Some(last) = source.last(edition) {
        let counts = [last.kept_front, last.lexed, last.kept_back];
        push_list(&mut out, counts, |out, count| *out += &count.to_string());
    } else {
        out += "null";
    }
    out + "}"
}

/// Returns the range that the last edit lexed, or an empty one if it kept no tokens.
fn fresh(source: &Source, edition: usize) -> Range<usize> {
    let Some(last) = source
        .last(edition)
        .filter(|last| last.kept_front + last.kept_back > 0)
    else {
        return 0..0;
    };
    let mut lexed = source.pieces_by_index(edition, last.changed_tokens());
    let Some(first) = lexed.next() else {
        return 0..0;
    };
    let end = lexed.next_back().unwrap_or(first);
    first.start as usize..end.start as usize + end.text.len()
}

/// Returns the range of some lines, without the newline of the last one.
fn bytes_of_lines(source: &Source, first: usize, count: usize) -> Range<usize> {
    let (start, end) = (source.line_start(first), source.line_start(first + count));
    start..end - usize::from(first + count < source.line_count())
}

/// Returns some lines, their tokens, and the token at the caret if it is not one of these, as JSON.
pub fn show(source: &Source, first: usize, count: usize, caret: usize, edition: usize) -> String {
    let range = bytes_of_lines(source, first, count);
    let fresh = fresh(source, edition);
    let lines = lines_of(source, range.clone(), fresh.clone(), edition);
    let (begin, _) = source.token_start_at(edition, range.start);
    let (end, _) = source.token_start_at(edition, range.end.max(1) - 1);
    let count_of_tokens = source.tokens(edition).len();
    let end = (end + 1).min(count_of_tokens).max(begin);
    let caret = source.byte_of(caret);
    let (at, _) = source.token_start_at(edition, caret);
    let at = at.min(count_of_tokens.max(1) - 1);
    let mut out = "{".to_string();
    push_name(&mut out, "lines");
    push_list(&mut out, &lines, push_line);
    push_number(&mut out, "count", count_of_tokens);
    push_number(&mut out, "begin", source.begin());
    push_name(&mut out, "tokens");
    let listed = begin..end.min(begin + MOST_TOKENS);
    push_tokens(&mut out, source, listed.clone(), &fresh, edition);
    push_number(&mut out, "at", at);
    push_name(&mut out, "elsewhere");
    let is_elsewhere = at < count_of_tokens && !listed.contains(&at);
    let elsewhere = at..at + usize::from(is_elsewhere);
    push_tokens(&mut out, source, elsewhere, &fresh, edition);
    push_place(&mut out, source, caret);
    out + "}"
}

/// Appends a field with the line and the column of an offset.
pub fn push_place(out: &mut String, source: &Source, at: usize) {
    let (line, column) = source.place(at);
    push_word(out, "place", &format!("{line}:{column}"));
}

fn push_line(out: &mut String, line: &Line) {
    out.push('{');
    push_name(out, "runs");
    push_list(out, &line.runs, |out, run| {
        let wrong = if run.wrong { " wrong" } else { "" };
        let fresh = if run.fresh { " fresh" } else { "" };
        let class = format!("{}{wrong}{fresh}", run.class);
        push_list(out, [&*class, &run.text], push_text);
    });
    push_name(out, "said");
    push_list(out, &line.said, |out, said| push_text(out, said));
    out.push('}');
}

/// Appends a list of tokens, each with its index, its position, and the fields that `lexdump` prints.
fn push_tokens(
    out: &mut String,
    source: &Source,
    numbers: Range<usize>,
    fresh: &Range<usize>,
    edition: usize,
) {
    let lines = listing::write(source, numbers.clone(), edition);
    let tokens = source.pieces_by_index(edition, numbers.clone());
    let rows = numbers.zip(tokens).zip(lines.lines());
    push_list(out, rows, |out, ((number, token), line)| {
        let start = token.start as usize;
        let mut words = line.splitn(4, ' ').skip(2);
        out.push('{');
        push_number(out, "number", number);
        push_number(out, "start", start);
        push_number(out, "bytes", token.text.len());
        push_place(out, source, start);
        push_word(out, "text", &piece(token.text));
        push_word(out, "kind", words.next().unwrap_or(""));
        push_word(out, "fields", words.next().unwrap_or(""));
        let value = value(token.token.kind, token.text);
        push_word(out, "value", &value.unwrap_or_default());
        push_name(out, "fresh");
        *out += &fresh.contains(&start).to_string();
        out.push('}');
    });
}

/// Returns the number, from 1, of the first line whose highlighting alone differs from that with all lines, or an empty
/// text.
pub fn parts_alike(source: &Source, edition: usize) -> String {
    let fresh = fresh(source, edition);
    let lines = |first, count| {
        let range = bytes_of_lines(source, first, count);
        lines_of(source, range, fresh.clone(), edition)
    };
    let count = source.line_count();
    let all = lines(0, count);
    let differs = (0..count).find(|line| lines(*line, 1)[..] != all[*line..*line + 1]);
    differs.map_or(String::new(), |line| (line + 1).to_string())
}
