//! Texts joined from pieces.

use rustc_lexer::{Edition, JoinError, JoinedText, Token, is_token_boundary, tokenize_in};
use std::panic::{AssertUnwindSafe, catch_unwind};

/// Joins the pieces, or returns the index of the first rejected one.
fn joined(edition: Edition, pieces: &[&str]) -> Result<String, usize> {
    let mut text = JoinedText::new_in(edition);
    for (number, piece) in pieces.iter().enumerate() {
        text.try_push(piece).map_err(|_| number)?;
    }
    Ok(text.into_string())
}

/// Pieces and the text that they make in each edition, or the index of the rejected piece.
type Row = (&'static [&'static str], [Result<&'static str, usize>; 4]);

const ROWS: &[Row] = &[
    (&["fn", "main", "(", ")", "{", "}"], [Ok("fn main(){}"); 4]),
    (&[], [Ok(""); 4]),
    (&["", "a", "", "+", ""], [Ok("a+"); 4]),
    (&["a", " ", "b"], [Ok("a b"); 4]),
    (&["a", " ", "+", "\n"], [Ok("a +\n"); 4]),
    (&["a", " ", " "], [Err(2); 4]),
    (&["// a", "b"], [Ok("// a\nb"); 4]),
    (&["// a", "\n", "b"], [Ok("// a\nb"); 4]),
    (&["// a", " b"], [Err(1); 4]),
    (&["1", ".", "."], [Ok("1 .."); 4]),
    (&["1", "..", "2"], [Ok("1..2"); 4]),
    (&["1.", "max"], [Ok("1. max"); 4]),
    (&["/", "/"], [Ok("/ /"); 4]),
    (&["r", "\"a\""], [Ok("r \"a\""); 4]),
    (&["\"a\"", "s"], [Ok("\"a\" s"); 4]),
    (
        &["#", "\"a\""],
        [Ok("#\"a\""), Ok("#\"a\""), Ok("#\"a\""), Ok("# \"a\"")],
    ),
    (
        &["z", "\"a\""],
        [Ok("z\"a\""), Ok("z\"a\""), Ok("z \"a\""), Ok("z \"a\"")],
    ),
    (
        &["'a", "#", "b"],
        [Ok("'a#b"), Ok("'a#b"), Ok("'a #b"), Ok("'a #b")],
    ),
    // the last token but one decides
    (
        &["k", "#", "a"],
        [Ok("k# a"), Ok("k# a"), Ok("k #a"), Ok("k #a")],
    ),
    (
        &["r", "#", "\"s\""],
        [
            Ok("r #\"s\""),
            Ok("r #\"s\""),
            Ok("r #\"s\""),
            Ok("r # \"s\""),
        ],
    ),
    (&["'", "/", "'a'"], [Ok("'/ 'a'"); 4]),
    // unterminated tokens
    (&["\"a", "b"], [Err(1); 4]),
    (&["/* a", "b"], [Err(1); 4]),
    (&["'+", "b"], [Ok("'+\nb"); 4]),
    (&["'+", "'b'"], [Err(1); 4]),
];

#[test]
fn rows() {
    for (pieces, made) in ROWS {
        for (&edition, made) in Edition::ALL.iter().zip(made) {
            assert_eq!(
                joined(edition, pieces).as_deref(),
                made.as_ref().map(|text| &**text),
                "{pieces:?} {edition:?}"
            );
        }
        // `collect` reads the pieces in the newest edition.
        if let [.., Ok(made)] = made {
            let collected: JoinedText = pieces.iter().collect();
            assert_eq!(collected.as_str(), *made, "{pieces:?}");
        }
    }
}

/// Every constructor sets an edition, which the pieces are read in and `edition` and `Debug` show.
#[test]
fn editions() {
    let pieces = ["#", "\"a\""];
    let of_each = Edition::ALL.iter().map(|&edition| {
        let mut text = JoinedText::new_in(edition);
        text.extend(pieces);
        (text, edition)
    });
    let mut by_default = JoinedText::default();
    by_default.extend(pieces);
    let mut new = JoinedText::new();
    new.extend(pieces);
    let newest = [by_default, new, pieces.into_iter().collect()];
    for (text, edition) in of_each.chain(newest.map(|text| (text, Edition::E2024))) {
        let wanted = if edition == Edition::E2024 {
            "# \"a\""
        } else {
            "#\"a\""
        };
        assert_eq!((text.as_str(), text.edition()), (wanted, edition));
        let shown = format!("JoinedText {{ text: {wanted:?}, edition: {edition:?} }}");
        assert_eq!(format!("{text:?}"), shown);
        let held = text.as_str().as_ptr();
        let given_back = text.into_string();
        assert_eq!((given_back.as_str(), given_back.as_ptr()), (wanted, held));
    }
}

/// Offsets inside a character and after the end.
#[test]
fn offsets_that_panic() {
    for at in [1, 2, 4, 5, usize::MAX] {
        let call = || is_token_boundary("\u{20ac}", at, Edition::E2024);
        let said = catch_unwind(call).expect_err("it panics");
        let said = said.downcast_ref::<&str>().copied();
        assert_eq!(said, Some("`at` is not on a char boundary"), "{at}");
    }
    assert!(is_token_boundary("\u{20ac}", 3, Edition::E2024));
}

/// Truncated to the end of any piece, a text is what it was at that time, also for the pieces that follow.
#[test]
fn truncate() {
    let pieces = [
        "b'", "\n", "a", "b", " ", "/", "/", "1", ".", "..", "é", "// c", "\n", "k", "#",
    ];
    for &edition in Edition::ALL {
        let (mut text, mut before) = (JoinedText::new_in(edition), Vec::new());
        for piece in pieces {
            before.push(text.clone());
            text.push(piece);
        }
        let places: Vec<usize> = before.iter().map(JoinedText::len).collect();
        for then in &before {
            let mut cut = text.clone();
            cut.truncate(then.len());
            assert_eq!((&cut, cut.is_empty()), (then, then.as_str() == ""));
            for piece in ["'r", "a", "\n", "\n\n", "#a", "/"] {
                let (mut one, mut other) = (cut.clone(), then.clone());
                assert_eq!(
                    one.try_push(piece),
                    other.try_push(piece),
                    "{then} {piece:?}"
                );
                assert_eq!(one, other);
            }
        }
        // After the end nothing changes, and an offset that splits a token or a character is rejected.
        let mut whole = text.clone();
        for len in [text.len(), text.len() + 1, usize::MAX] {
            whole.truncate(len);
            assert_eq!(whole, text);
        }
        for len in (0..text.len()).filter(|len| !places.contains(len)) {
            let boundary = text.as_str().is_char_boundary(len)
                && is_token_boundary(text.as_str(), len, edition);
            let cut = AssertUnwindSafe(|| whole.truncate(len));
            assert_eq!(catch_unwind(cut).is_ok(), boundary, "{len}");
            assert!(boundary || whole == text);
            whole.clone_from(&text);
        }
    }
}

#[test]
fn equality_formatting_and_length() {
    let mut text = JoinedText::new_in(Edition::E2021);
    text.push("let");
    assert_ne!(text, JoinedText::new_in(Edition::E2021));
    assert_ne!(text, JoinedText::from_iter(["let"]));
    assert_eq!(format!("{text}{text:>5}"), "let  let");
    assert_eq!((text.len(), text.is_empty()), (3, false));
    assert!(JoinedText::new().is_empty());
    for whitespace in [" ", "\n", "\u{2028}"] {
        assert!(!JoinedText::from_iter([whitespace]).is_empty());
    }
    // A joined text can be a piece.
    assert_eq!(JoinedText::from_iter([&text, &text]).as_ref(), "let let");
}

#[test]
fn token_boundaries() {
    for text in [
        "a+b", "1..2", "k#a", "z\"a\"", "'a#b", "'a'b", "// a\n b", "\"é\"s", "r#\"a\"#",
    ] {
        for &edition in Edition::ALL {
            for (at, _) in text.char_indices() {
                let (left, right) = text.split_at(at);
                let parts: Vec<Token> = tokenize_in(left, edition)
                    .chain(tokenize_in(right, edition))
                    .collect();
                assert_eq!(
                    is_token_boundary(text, at, edition),
                    tokenize_in(text, edition).eq(parts),
                    "{text:?} {at}"
                );
            }
        }
    }
}

#[test]
fn rejected_pieces_change_nothing() {
    let mut text = JoinedText::new();
    text.push("\"a");
    assert_eq!(text.try_push("b"), Err(JoinError::Inseparable));
    text.push("");
    assert_eq!((text.as_str(), text.edition()), ("\"a", Edition::E2024));
}

#[test]
fn error_messages() {
    for (error, sentence) in [
        (
            JoinError::Inseparable,
            "no separator keeps the tokens of the text and the piece",
        ),
        (
            JoinError::TooLong,
            "the text might have more than u32::MAX bytes",
        ),
        (JoinError::Memory, "memory allocation failed"),
    ] {
        assert_eq!(error.to_string(), sentence);
    }
}

#[test]
#[should_panic(expected = "no separator keeps the tokens")]
fn a_rejected_piece_panics() {
    let _ = ["/* a", "b"].into_iter().collect::<JoinedText>();
}
