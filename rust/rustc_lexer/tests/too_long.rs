//! Each call with a text of more than `u32::MAX` bytes reports that it is too long, also in release builds.
#![cfg(target_pointer_width = "64")]

mod panics;

use panics::{panic_message, too_long as too_long_string};
use rustc_lexer::{
    Cursor, Edition, FrontmatterAllowed, fits, is_ident, is_token_boundary, settled, settled_in,
    starts_raw, strip_shebang, tokenize, tokenize_as, tokenize_document, tokenize_in,
    validate_raw_str,
};
#[cfg(feature = "alloc")]
use rustc_lexer::{Edit, EditError, EditStop, FromStringError, LexedDocument, LexedText, Steps};
use std::sync::LazyLock;

static TOO_LONG: LazyLock<String> = LazyLock::new(too_long_string);

fn too_long() -> &'static str {
    &TOO_LONG
}

type Call = fn(&'static str);

/// Asserts that each call panics with the same message.
fn all_panic(calls: &[(&str, Call)]) {
    for (name, call) in calls {
        let message = panic_message(|| call(too_long()));
        assert_eq!(message, "the text has more than u32::MAX bytes", "{name}");
    }
}

#[test]
fn calls_that_panic() {
    assert!(fits(&too_long()[1..]) && !fits(too_long()));
    all_panic(&[
        ("tokenize", |text| {
            let _ = tokenize(text, FrontmatterAllowed::No);
        }),
        ("tokenize_in", |text| {
            let _ = tokenize_in(text, Edition::E2024);
        }),
        ("tokenize_as", |text| {
            let _ = tokenize_as(text, FrontmatterAllowed::No, Edition::E2024);
        }),
        ("tokenize_document", |text| {
            let _ = tokenize_document(text, Edition::E2024);
        }),
        ("Cursor::new", |text| {
            let _ = Cursor::new(text, FrontmatterAllowed::No);
        }),
        ("strip_shebang", |text| {
            let _ = strip_shebang(text);
        }),
        ("validate_raw_str", |text| {
            let _ = validate_raw_str(text, 1);
        }),
        ("settled", |text| {
            let _ = settled(text);
        }),
        ("settled_in", |text| {
            let _ = settled_in(text, Edition::E2018);
        }),
        ("is_token_boundary", |text| {
            let _ = is_token_boundary(text, 1, Edition::E2024);
        }),
    ]);
}

#[test]
fn calls_that_accept_any_text() {
    assert!(!is_ident(too_long()) && !starts_raw(too_long(), 1));
}

/// A text of `u32::MAX` bytes fits. These calls read only its start.
#[test]
fn the_longest_text() {
    let longest = &too_long()[1..];
    let first = tokenize(longest, FrontmatterAllowed::No).next();
    let token = Cursor::new(longest, FrontmatterAllowed::No).advance_token();
    assert_eq!((first, token.len), (Some(token), 1));
    assert_eq!(strip_shebang(longest), None);
}

/// Returns the cause of an error that contains the text.
#[cfg(feature = "alloc")]
fn cause(refused: Option<FromStringError>) -> Option<EditError> {
    let refused = refused?;
    assert_eq!(
        format!("{refused:?}"),
        "FromStringError { error: TooLong, .. }"
    );
    assert_eq!(refused.to_string(), EditError::TooLong.to_string());
    let error = refused.error();
    assert_eq!(refused.into_string().len(), 1 << 32);
    Some(error)
}

#[cfg(feature = "alloc")]
#[test]
fn lexed_texts() {
    all_panic(&[
        ("LexedText::new", |text| {
            let _ = LexedText::new(text);
        }),
        ("LexedText::new_in", |text| {
            let _ = LexedText::new_in(text, Edition::E2018);
        }),
        ("LexedDocument::new", |text| {
            let _ = LexedDocument::new(text);
        }),
        ("LexedDocument::new_in", |text| {
            let _ = LexedDocument::new_in(text, Edition::E2018);
        }),
        ("LexedText::set_text", |text| {
            let _ = LexedText::default().set_text(text);
        }),
        ("LexedDocument::set_text", |text| {
            let _ = LexedDocument::default().set_text(text);
        }),
        ("LexedText::from", |_| {
            let _ = LexedText::from(too_long_string());
        }),
        ("LexedDocument::from", |_| {
            let _ = LexedDocument::from(too_long_string());
        }),
    ]);
    let edition = Edition::E2024;
    let texts = [
        LexedText::try_new_in(too_long(), edition).err(),
        LexedText::try_with(too_long(), Steps::new()).err(),
        cause(LexedText::try_from_string_in(too_long_string(), edition).err()),
        cause(LexedDocument::try_from_string_in(too_long_string(), edition).err()),
        LexedText::try_from_string_in(too_long_string(), edition)
            .err()
            .map(EditError::from),
        LexedDocument::try_new_in(too_long(), edition).err(),
        LexedDocument::try_with(too_long(), Steps::new()).err(),
    ];
    assert_eq!(texts, [Some(EditError::TooLong); 7]);
}

#[cfg(feature = "alloc")]
#[test]
fn edits() {
    let (mut text, mut document) = (LexedText::new("aé"), LexedDocument::new("aé"));
    // With one byte fewer the text would fit.
    let insert = &too_long()[3..];
    assert!(!text.accepts(0..0, insert) && !document.accepts(0..0, insert));
    assert!(text.accepts(0..1, insert) && document.accepts(0..1, insert));
    assert_eq!(text.try_edit(0..0, insert), Err(EditError::TooLong));
    assert_eq!(document.try_edit(0..0, insert), Err(EditError::TooLong));
    let calls: [Call; 2] = [
        |insert| {
            let _ = LexedText::new("a").edit(0..0, insert);
        },
        |insert| {
            let _ = LexedDocument::new("a").edit(0..0, insert);
        },
    ];
    for call in calls {
        let wanted = "the edit of 0..0: the text has more than u32::MAX bytes";
        assert_eq!(panic_message(|| call(too_long())), wanted);
    }
    assert_eq!(text.try_set_text(too_long()), Err(EditError::TooLong));
    assert_eq!(document.try_set_text(too_long()), Err(EditError::TooLong));
    assert_eq!(text.try_edit(2..2, insert), Err(EditError::Range));
    assert_eq!(document.try_edit(2..2, insert), Err(EditError::Range));
    let edits = ["b", insert].map(|insert| Edit {
        start: 0,
        stop: 0,
        insert,
    });
    assert_eq!(text.edit_all(&edits), Err(EditStop::TooLong { at: 1 }));
    assert_eq!(document.edit_all(&edits), Err(EditStop::TooLong { at: 1 }));
    assert_eq!((text.text(), document.text()), ("baé", "baé"));
    for each in [text.edit_sequence(&edits), document.edit_sequence(&edits)] {
        assert_eq!(each.map_err(|it| it.stop), Err(EditStop::TooLong { at: 1 }));
    }
    assert_eq!((text.text(), document.text()), ("bbaé", "bbaé"));
}
