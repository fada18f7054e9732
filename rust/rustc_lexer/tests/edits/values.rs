//! Lexed texts as values: clones, equality, conversions from and to strings, and debug output.

use rustc_lexer::{Edition, LexedDocument, LexedText, Steps, TokenKind};

/// A clone is independent of its original. Defaults are empty, in the newest edition.
#[test]
fn clones_and_defaults() {
    let mut lexed = LexedText::new_in("'r#a", Edition::E2018);
    let second = lexed.clone();
    let piece = second.pieces().nth(1);
    lexed.edit(0..1, "");
    assert_eq!((lexed.text(), lexed.edition()), ("r#a", Edition::E2018));
    assert_eq!((second.text(), second.edition()), ("'r#a", Edition::E2018));
    assert_eq!(second.tokens().len(), 3);
    assert_eq!(second.pieces().clone().nth(1), piece);
    let mut document = LexedDocument::new("#!/a\nb");
    let second = document.clone();
    document.edit(0..5, "");
    assert_eq!((second.text(), second.tokens_start()), ("#!/a\nb", 4));
    assert_eq!(document.text(), "b");
    let empty = LexedText::default();
    assert_eq!((empty.text(), empty.tokens().len()), ("", 0));
    assert_eq!(empty.edition(), Edition::E2024);
    assert_eq!(LexedDocument::default().edition(), Edition::E2024);
    // Two tokens in each older edition.
    let by_default = LexedText::try_with("##", Steps::default()).unwrap();
    assert_eq!(by_default.tokens().len(), 1);
    assert_eq!(Steps::default(), Steps::new_in(Edition::E2024));
}

/// Two are equal if text and edition are, however they were made. `into_string` returns the current text.
#[test]
fn equality_and_into_string() {
    macro_rules! rows {
        ($Kept:ident) => {
            let mut lexed = $Kept::new("#!a\nlet x;");
            assert_eq!(lexed, lexed.clone());
            let by_stepper = |edition| $Kept::try_with("a", Steps::new_in(edition)).unwrap();
            assert_eq!(by_stepper(Edition::E2021), by_stepper(Edition::E2021));
            assert_ne!(by_stepper(Edition::E2021), by_stepper(Edition::E2024));
            // Both editions have the same tokens.
            let older = $Kept::new_in(lexed.text(), Edition::E2021);
            assert_eq!(lexed.tokens(), older.tokens());
            assert_ne!(lexed, older);
            lexed.set_edition(Edition::E2021);
            assert_eq!(lexed, older);
            lexed.edit(8..9, "é");
            assert_ne!(lexed, older);
            assert_eq!(lexed, $Kept::new_in("#!a\nlet é;", Edition::E2021));
            let held = lexed.text().as_ptr();
            let text = lexed.into_string();
            assert_eq!((text.as_str(), text.as_ptr()), ("#!a\nlet é;", held));
            let mut lexed = $Kept::new("#!a\nfn");
            lexed.edit(4..6, "b");
            assert_eq!(lexed.into_string(), "#!a\nb");
            let mut lexed = $Kept::new("let x;");
            lexed.edit(4..5, "é");
            assert_eq!(lexed.into_string(), "let é;");
            assert_eq!($Kept::default().into_string(), "");
            // Both texts have the same tokens.
            assert_ne!($Kept::new("a"), $Kept::new("b"));
            for &left in Edition::ALL {
                for &right in Edition::ALL {
                    for text in ["", "a"] {
                        let equal = $Kept::new_in(text, left) == $Kept::new_in(text, right);
                        assert_eq!(equal, left.year() == right.year(), "{left} and {right}");
                    }
                }
            }
        };
    }
    rows!(LexedText);
    rows!(LexedDocument);
}

/// Constructors accept a `&str` or a `String`.
#[test]
fn conversions_from_strings() {
    let text = || String::from("a + b");
    for lexed in [
        Ok(LexedText::new(text())),
        Ok(LexedText::new_in(text(), Edition::E2024)),
        LexedText::try_new_in(text(), Edition::E2024),
    ] {
        assert_eq!(lexed.unwrap().tokens().len(), 5);
    }
    let lexed = LexedText::try_with(text(), Steps::new()).unwrap();
    assert_eq!(lexed.tokens().len(), 5);
    for lexed in [
        Ok(LexedDocument::new(text())),
        Ok(LexedDocument::new_in(text(), Edition::E2024)),
        LexedDocument::try_new_in(text(), Edition::E2024),
    ] {
        assert_eq!(lexed.unwrap().tokens().len(), 5);
    }
    let lexed = LexedDocument::try_with(text(), Steps::new()).unwrap();
    assert_eq!(lexed.tokens().len(), 5);
    // `'r#a` is one token from 2021 on, and `##` from 2024 on.
    for (&edition, count) in Edition::ALL.iter().zip([6, 6, 4, 3]) {
        let text = || String::from("'r#a ##");
        let part = LexedText::try_from_string_in(text(), edition).unwrap();
        let document = LexedDocument::try_from_string_in(text(), edition).unwrap();
        assert_eq!((part.edition(), document.edition()), (edition, edition));
        assert_eq!(
            (part.tokens().len(), document.tokens().len()),
            (count, count)
        );
    }
    assert_eq!(LexedText::from(text()).edition(), Edition::E2024);
    assert_eq!(LexedDocument::from(text()).edition(), Edition::E2024);
}

#[test]
fn debug_output() {
    let shown = format!("{:?}", LexedText::new("a"));
    let wanted = r#"LexedText { text: "a", tokens: [Token { kind: Ident, len: 1 }], .. }"#;
    assert_eq!(shown, wanted);
    for (shown, name) in [
        (format!("{:#?}", LexedText::new("")), "LexedText"),
        (format!("{:#?}", LexedDocument::new("")), "LexedDocument"),
    ] {
        let wanted = " {\n    text: \"\",\n    tokens: [],\n    ..\n}";
        assert_eq!(shown, [name, wanted].concat());
    }
    let lexed = LexedText::new("a b");
    let mut pieces = lexed.pieces();
    pieces.next();
    assert_eq!(format!("{pieces:?}"), "Pieces { left: 2, .. }");
    assert_eq!(format!("{pieces:#?}"), "Pieces {\n    left: 2,\n    ..\n}");
    assert_eq!(pieces.by_ref().count(), 2);
    assert_eq!(format!("{pieces:?}"), "Pieces { left: 0, .. }");
}

/// A lexed text keeps every byte: a byte order mark at its start or at the start of an insertion, and U+0000 at the
/// end. A mark at the start of a document is not a token.
#[test]
fn byte_order_marks_and_nul() {
    macro_rules! keeps_them {
        ($lexed:ident, $mark:expr) => {
            let text = "\u{feff}a";
            let by_stepper = $lexed::try_with(text, Steps::new()).unwrap();
            assert_eq!(by_stepper.text(), text);
            for lexed in [
                Ok($lexed::new(text)),
                Ok($lexed::new_in(text, Edition::E2018)),
                $lexed::try_new_in(text, Edition::E2015),
            ] {
                let mut lexed = lexed.unwrap();
                assert_eq!(lexed.text(), text);
                lexed.set_edition(Edition::E2021);
                lexed.try_set_edition(Edition::E2024).unwrap();
                assert_eq!(lexed.text(), text);
                lexed.edit(4..4, "\u{feff}b\0");
                assert_eq!(lexed.text(), "\u{feff}a\u{feff}b\0");
                let (none, word) = (TokenKind::Unknown, TokenKind::Ident);
                let tokens: Vec<_> = lexed.tokens().iter().map(|it| (it.kind, it.len)).collect();
                let wanted = [(none, 3), (word, 1), (none, 3), (word, 1), (none, 1)];
                assert_eq!(tokens, wanted[$mark..]);
                lexed.shrink_to_fit();
                assert_eq!(lexed.into_string(), "\u{feff}a\u{feff}b\0");
            }
        };
    }
    keeps_them!(LexedText, 0);
    keeps_them!(LexedDocument, 1);
}
