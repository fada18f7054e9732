//! Joined texts next to their definition, which lexes the whole text for each separator. The tests join a few pairs and
//! lists; `cargo test --release -p verified-rustc-lexer --test joined_texts -- --ignored` joins all of them, in a
//! minute.

#[allow(dead_code, reason = "the texts here are made of their own pieces")]
mod random;

use random::Random;
use rustc_lexer::{Edition, JoinError, JoinedText, Token, is_token_boundary, tokenize_in};
use std::thread;

const SEPARATORS: [&str; 3] = ["", " ", "\n"];

/// The characters of texts of one to three characters.
const CHARS: [char; 30] = [
    'a', 'b', 'c', 'e', 'k', 'r', 'x', '_', '0', '1', 'é', '😀', '\'', '"', '#', '/', '*', '.',
    '+', '!', '-', '\\', ';', ' ', '\n', '\r', '\t', '~', 'u', '8',
];

/// Longer texts.
#[rustfmt::skip]
const LONGER: &[&str] = &[
    "let", "r#fn", "k#fn", "k#a", "'abc", "'r#a", "'r#static", "'static", "'_", "'a'", "'ab'", "'\\''", "'\\u{e9}'",
    "b'a'", "b'\\''", "b'ab'", "b'/", "b'+", "'+-", "'\n'", "'a\n'", "'//'", "\"ab\"", "\"\\\"\"", "\"ab", "\"\\\"",
    "\"a\"s", "\"a\"é", "b\"a\"", "b\"a", "c\"a\"", "c\"a", "c\"\"s", "r\"a\"", "r\"a", "r#\"a\"#", "r#\"a\"",
    "r##\"\"##", "r##\"\"#", "r#\"a\"#s", "br\"a\"", "br#\"a\"#", "br#\"a\"", "br#~", "br##", "cr\"a\"", "cr#\"a\"#",
    "cr#a", "r#~", "r##~", "r##", "// a", "// a\r", "/// a", "//! a", "////", "//é", "/* a */", "/** a */", "/*! a */",
    "/***/", "/**/", "/* a", "/* /* */", "/* /* */ */", "/**/ ", "1.0", "1.e", "1.0e", "1e5", "1e+5", "1e+", "1e-",
    "1.5e+5", "0x1f", "0xe", "0b12", "0o17", "0x", "0b", "0xé", "1_u8", "1.0f32", "1u8", "0x1.5", "1e5é", "12",
    "100", "a1", "é1", "a😀",
    "😀a", "ab😀c", "   ", "\r\n", "\n\n", "\u{85}", "\u{200e}", "\u{2028}", " \t\n", "\u{feff}", "\u{0}", "€", "ℹ", "ℹa",
];

fn tokens(text: &str, edition: Edition) -> impl Iterator<Item = Token> + '_ {
    tokenize_in(text, edition)
}

/// Returns the texts that are one token in the edition.
fn single_tokens(edition: Edition) -> Vec<String> {
    let mut texts: Vec<String> = LONGER.iter().map(|text| text.to_string()).collect();
    for a in CHARS {
        texts.push(String::from(a));
        for b in CHARS {
            texts.push([a, b].iter().collect());
            texts.extend(CHARS.iter().map(|c| [a, b, *c].iter().collect::<String>()));
        }
    }
    texts.retain(|text| tokens(text, edition).count() == 1);
    texts
}

/// Appends the piece by the definition, or returns `None` if no separator keeps the tokens.
fn by_definition(text: &str, piece: &str, edition: Edition) -> Option<String> {
    SEPARATORS.into_iter().find_map(|separator| {
        let whole = format!("{text}{separator}{piece}");
        let parts = tokens(text, edition)
            .chain(tokens(separator, edition))
            .chain(tokens(piece, edition));
        tokens(&whole, edition).eq(parts).then_some(whole)
    })
}

/// Appends the piece and compares the result with the definition.
fn push(text: &mut JoinedText, piece: &str, edition: Edition) {
    let before = String::from(text.as_str());
    let wanted = by_definition(&before, piece, edition);
    let pushed = text.try_push(piece);
    let error = wanted.is_none().then_some(JoinError::Inseparable);
    assert_eq!(pushed.err(), error, "{before:?} {piece:?}");
    assert_eq!(text.as_str(), wanted.as_deref().unwrap_or(&before));
}

/// Each `every`-th pair of tokens.
fn pairs(every: usize) {
    let compare = |edition| {
        let texts = single_tokens(edition);
        assert!(texts.len() >= 4_054, "{}", texts.len());
        for number in (0..texts.len() * texts.len()).step_by(every) {
            let mut text = JoinedText::new_in(edition);
            text.push(&texts[number / texts.len()]);
            push(&mut text, &texts[number % texts.len()], edition);
        }
    };
    thread::scope(|scope| {
        for &edition in Edition::ALL {
            scope.spawn(move || compare(edition));
        }
    });
}

/// Joins lists of up to twelve pieces, mostly single tokens. In short texts, every offset is tested as a boundary.
fn lists(count: usize, seed: u64) {
    let compare = |edition: Edition| {
        let texts = single_tokens(edition);
        let mut random = Random(seed + edition as u64, &[]);
        for _ in 0..count / Edition::ALL.len() {
            let mut text = JoinedText::new_in(edition);
            for _ in 0..=random.below(12) {
                let piece = (0..1 + random.below(3) / 2 * random.below(4))
                    .map(|_| texts[random.below(texts.len())].as_str())
                    .collect::<String>();
                push(&mut text, &piece, edition);
            }
            if text.as_str().len() < 40 {
                token_boundaries(text.as_str(), edition);
            }
        }
    };
    thread::scope(|scope| {
        for &edition in Edition::ALL {
            scope.spawn(move || compare(edition));
        }
    });
}

fn token_boundaries(text: &str, edition: Edition) {
    for at in (0..=text.len()).filter(|at| text.is_char_boundary(*at)) {
        let (left, right) = text.split_at(at);
        let parts = tokens(left, edition).chain(tokens(right, edition));
        let touch = tokens(text, edition).eq(parts);
        assert_eq!(is_token_boundary(text, at, edition), touch, "{text:?} {at}");
    }
}

#[test]
fn some_pairs() {
    pairs(4_999);
}

#[test]
fn some_lists() {
    lists(4_000, 1);
}

#[test]
#[ignore = "a minute in release"]
fn all_pairs() {
    pairs(1);
}

#[test]
#[ignore = "a minute in release"]
fn a_million_lists() {
    lists(1_000_000, 2);
}
