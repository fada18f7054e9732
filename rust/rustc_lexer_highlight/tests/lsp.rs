//! The language server example: its answers equal the numbers that a walk over the whole text computes.

#[allow(dead_code)]
#[path = "../examples/lsp.rs"]
mod lsp;
#[allow(dead_code, reason = "ranges here have positions")]
#[path = "../../rustc_lexer/tests/random/mod.rs"]
mod random;

use lsp::{Delta, Document, Position, TYPES};
use random::Random;
use rustc_lexer::{EditError, tokenize_document};
use rustc_lexer_highlight::{Class, Edition, KeywordKind, class_of, keyword_kind};
use std::ops::Range;

const EDITION: Edition = Edition::E2021;

fn open(text: &str) -> Document {
    Document::open(text, EDITION).unwrap()
}

fn full(text: &str) -> Vec<u32> {
    open(text).full()
}

/// Returns the position after a character, given that character and the next one.
fn step((line, character): Position, c: char, next: Option<char>) -> Position {
    match c {
        '\n' => (line + 1, 0),
        '\r' if next != Some('\n') => (line + 1, 0),
        '\r' => (line, character),
        _ => (line, character + c.len_utf16()),
    }
}

fn position(text: &str, offset: usize) -> Position {
    let mut after = text.chars().skip(1).map(Some).chain([None]);
    let before = text[..offset].chars();
    before.fold((0, 0), |at, c| step(at, c, after.next().unwrap()))
}

fn positions(text: &str, range: &Range<usize>) -> Range<Position> {
    position(text, range.start)..position(text, range.end)
}

/// Returns the name of the type and the modifiers of a token.
fn paint(class: Class, word: Option<KeywordKind>) -> Option<(&'static str, u32)> {
    if let Some(KeywordKind::Strict | KeywordKind::Reserved) = word {
        return Some(("keyword", 0));
    }
    match class {
        Class::Plain | Class::Keyword => None,
        Class::Comment => Some(("comment", 0)),
        Class::Doc => Some(("comment", 1)),
        Class::TypeName => Some(("type", 0)),
        Class::Text => Some(("string", 0)),
        Class::Number => Some(("number", 0)),
        Class::Lifetime => Some(("lifetime", 0)),
        class => panic!("{class:?}"),
    }
}

/// One line of a token: the token's byte range, the position and length of the part on that line, its type and
/// modifiers.
type Part = (Range<usize>, Position, usize, &'static str, u32);

/// Returns the parts of all tokens, character by character.
fn parts(text: &str) -> Vec<Part> {
    let tokens = tokenize_document(text, EDITION);
    let (mut parts, mut start): (Vec<Part>, _) = (Vec::new(), text.len() - tokens.as_str().len());
    for token in tokens {
        let range = start..start + token.len as usize;
        start = range.end;
        let word = &text[range.clone()];
        let Some((name, modifiers)) = paint(
            class_of(token.kind, word, EDITION),
            keyword_kind(word, EDITION),
        ) else {
            continue;
        };
        let mut goes_on = false;
        for (at, c) in word.char_indices() {
            if c == '\r' || c == '\n' {
                goes_on = false;
                continue;
            }
            if !goes_on {
                let place = position(text, range.start + at);
                parts.push((range.clone(), place, 0, name, modifiers));
                goes_on = true;
            }
            parts.last_mut().unwrap().2 += c.len_utf16();
        }
    }
    parts
}

/// Returns the five numbers of each part, relative to the previous one.
fn numbers(parts: &[Part]) -> Vec<u32> {
    let (mut numbers, mut last) = (Vec::new(), (0, 0));
    for (_, (line, character), length, name, modifiers) in parts {
        let since = if *line == last.0 { last.1 } else { 0 };
        let kind = TYPES.iter().position(|known| known == name).unwrap();
        let [lines, units] = [line - last.0, character - since];
        numbers.extend([lines, units, *length, kind].map(|number| number as u32));
        numbers.push(*modifiers);
        last = (*line, *character);
    }
    numbers
}

/// Applies the change that an answer requests.
fn apply(sent: &mut Vec<u32>, delta: Delta) {
    sent.splice(delta.start..delta.start + delta.deleted, delta.data);
}

#[test]
fn tokens_are_split_at_line_ends() {
    assert_eq!(full(""), []);
    assert_eq!(full("fn"), [0, 0, 2, 1, 0]);
    // A CRLF in a comment and after it, and a bare CR.
    let lines = "/* a\r\n b */\r\n\r /// c\r\nfn 'a 1u8";
    #[rustfmt::skip]
    assert_eq!(full(lines), [
        0, 0, 4, 0, 0,  1, 0, 5, 0, 0,  2, 1, 5, 0, 1,
        1, 0, 2, 1, 0,  0, 3, 2, 5, 0,  0, 3, 3, 4, 0,
    ]);
    // A line of a string can be empty. Plain names and symbols are not sent.
    assert_eq!(full("a + \"\n\nb\""), [0, 4, 1, 3, 0, 2, 0, 2, 3, 0]);
    // A shebang line is not a token, and a frontmatter is sent as a doc comment.
    #[rustfmt::skip]
    assert_eq!(full("#!/a\n---\nb\n---\nC"), [
        1, 0, 3, 0, 1,  1, 0, 1, 0, 1,  1, 0, 3, 0, 1,  1, 0, 1, 2, 0,
    ]);
}

#[test]
fn keywords_depend_on_the_edition() {
    let full = |edition| Document::open("async try", edition).unwrap().full();
    assert_eq!(full(Edition::E2015), []);
    assert_eq!(full(Edition::E2018), [0, 0, 5, 1, 0, 0, 6, 3, 1, 0]);
}

#[test]
fn positions_are_in_utf_16_units() {
    let mut document = open("\"é😀\" fn\r\nlet");
    assert_eq!(
        document.full(),
        [0, 0, 5, 3, 0, 0, 6, 2, 1, 0, 1, 0, 3, 1, 0]
    );
    // after the smiley, inside it, after the line, and after the text
    document.change(Some((0, 4)..(0, 4)), "b").unwrap();
    document.change(Some((0, 3)..(0, 4)), "c").unwrap();
    document.change(Some((0, 9)..(0, 99)), " //").unwrap();
    document.change(Some((1, 99)..(7, 0)), " 1").unwrap();
    #[rustfmt::skip]
    assert_eq!(document.full(), [
        0, 0, 5, 3, 0,  0, 6, 2, 1, 0,  0, 3, 2, 0, 0,
        1, 0, 3, 1, 0,  0, 4, 1, 4, 0,
    ]);
    assert_eq!(
        document.change(Some((0, 2)..(0, 1)), ""),
        Err(EditError::Range)
    );
}

#[test]
fn inserted_text_keeps_its_blanks() {
    let mut document = open("");
    document.change(None, " fn ").unwrap();
    document.change(Some((0, 4)..(0, 4)), " 1 ").unwrap();
    document.change(Some((0, 7)..(0, 7)), "let").unwrap();
    #[rustfmt::skip]
    assert_eq!(document.full(), [0, 1, 2, 1, 0,  0, 4, 1, 4, 0,  0, 2, 3, 1, 0]);
}

#[test]
fn a_delta_is_small() {
    let mut document = open("fn f() { 1 }\n");
    assert_eq!(document.full(), [0, 0, 2, 1, 0, 0, 9, 1, 4, 0]);
    let nothing = |start| Delta {
        start,
        deleted: 0,
        data: Vec::new(),
    };
    assert_eq!(document.delta(), nothing(10));
    // at the end, and in an empty document
    document.change(Some((1, 0)..(1, 0)), "//").unwrap();
    assert_eq!(
        document.delta(),
        Delta {
            start: 10,
            deleted: 0,
            data: vec![1, 0, 2, 0, 0]
        }
    );
    document.change(None, "").unwrap();
    assert_eq!(
        document.delta(),
        Delta {
            start: 0,
            deleted: 15,
            data: Vec::new()
        }
    );
    document.change(Some((0, 0)..(0, 0)), "'a").unwrap();
    assert_eq!(
        document.delta(),
        Delta {
            start: 0,
            deleted: 0,
            data: vec![0, 0, 2, 5, 0]
        }
    );
    // a name in the middle of a long text: the number after it moves, and nothing else is sent
    document
        .change(None, &"fn f() { 1 }\n".repeat(1000))
        .unwrap();
    document.full();
    document.change(Some((500, 4)..(500, 4)), "g").unwrap();
    assert_eq!(
        document.delta(),
        Delta {
            start: 5005,
            deleted: 5,
            data: vec![0, 10, 1, 4, 0]
        }
    );
    // a comment that is opened includes all lines after it
    document.change(Some((999, 0)..(999, 0)), "/*").unwrap();
    assert_eq!(
        document.delta(),
        Delta {
            start: 9990,
            deleted: 10,
            data: vec![1, 0, 14, 0, 0]
        }
    );
    document.change(Some((0, 0)..(0, 0)), "/*").unwrap();
    let delta = document.delta();
    assert_eq!(
        (delta.start, delta.deleted, delta.data.len()),
        (0, 9995, 5000)
    );
}

#[test]
fn successive_changes() {
    let mut document = open("fn f() {}\n/* a\nb */ 1\n'a'");
    let mut sent = document.full();
    document.change(Some((3, 1)..(3, 2)), "\\n").unwrap();
    document.change(Some((0, 0)..(0, 2)), "pub fn").unwrap();
    document.change(Some((1, 3)..(2, 0)), "").unwrap();
    apply(&mut sent, document.delta());
    #[rustfmt::skip]
    assert_eq!(sent, [
        0, 0, 3, 1, 0,  0, 4, 2, 1, 0,
        1, 0, 7, 0, 0,  0, 8, 1, 4, 0,  1, 0, 4, 3, 0,
    ]);
    // the visible lines: the comment from its start on
    assert_eq!(
        document.viewport((1, 5)..(1, 9)),
        [1, 0, 7, 0, 0, 0, 8, 1, 4, 0]
    );
    assert_eq!(document.viewport((1, 5)..(1, 5)), []);
}

/// Random texts consist of these.
#[rustfmt::skip]
const PIECES: &[&str] = &[
    "fn ", "a", "B", " ", "\n", "\r\n", "\r", "/*", "*/", "//", "/// ", "\"", "'", "'c ", "1.5", "é", "😀", "\u{2028}",
    "#!/b\n", "---\n", "r#\"", "{}", "async",
];

/// Returns an offset that a position can have, at most this many bytes after another one.
fn random_offset(random: &mut Random, text: &str, from: usize, most: usize) -> usize {
    let mut at = from + random.below(most.min(text.len() - from) + 1);
    while !text.is_char_boundary(at) || text[..at].ends_with('\r') && text[at..].starts_with('\n') {
        at -= 1;
    }
    at
}

fn random_range(random: &mut Random, text: &str, most: usize) -> Range<usize> {
    let start = random_offset(random, text, 0, text.len());
    start..random_offset(random, text, start, most)
}

#[test]
fn random_changes() {
    for seed in 0..400 {
        let mut random = Random(seed, PIECES);
        let mut text = random.text(40);
        let mut document = open(&text);
        let mut sent = document.full();
        for _ in 0..25 {
            for _ in 0..random.below(3) {
                let (range, insert) = (random_range(&mut random, &text, 6), random.text(3));
                document
                    .change(Some(positions(&text, &range)), &insert)
                    .unwrap();
                text.replace_range(range, &insert);
            }
            let mut parts = parts(&text);
            apply(&mut sent, document.delta());
            assert_eq!(sent, numbers(&parts), "{text:?}");
            let view = random_range(&mut random, &text, 20);
            parts.retain(|(token, ..)| token.start.max(view.start) < token.end.min(view.end));
            let seen = document.viewport(positions(&text, &view));
            assert_eq!(seen, numbers(&parts), "{text:?} {view:?}");
        }
        assert_eq!(document.full(), full(&text));
    }
}
