//! Ranges of edits and pieces: the accepted ones, and the errors and messages for the others.

use crate::made::edit;
use rustc_lexer::{EditError, EditStop, LexedDocument, LexedText};
use std::panic::catch_unwind;

/// A range must be inside the text and between characters, also in a shebang line.
#[test]
#[allow(clippy::reversed_empty_ranges)]
fn ranges_that_are_not_accepted() {
    for (range, good) in [
        (0..0, true),
        (2..4, true),
        (2..3, false),
        (3..4, false),
        (0..5, false),
        (5..5, false),
        (4..2, false),
    ] {
        let (text, document) = (LexedText::new("#!é"), LexedDocument::new("#!é"));
        assert_eq!(text.accepts(range.clone(), "b"), good, "{range:?}");
        assert_eq!(document.accepts(range.clone(), "b"), good, "{range:?}");
    }
}

/// The messages of calls that panic at an invalid range.
#[test]
#[allow(clippy::reversed_empty_ranges)]
fn ranges_that_panic() {
    const EDIT: &str = "the edit of 1..2: range out of bounds or not on a char boundary";
    type Call = fn() -> usize;
    let calls: [(Call, &str); 6] = [
        (|| LexedText::new("é").edit(1..2, "").lexed, EDIT),
        (|| LexedDocument::new("é").edit(1..2, "").lexed, EDIT),
        (
            || LexedText::new("a b").pieces_by_index(2..4).len(),
            "token range 2..4 out of range for 3 tokens",
        ),
        (
            || LexedDocument::new("#!a\nb").pieces_by_index(1..3).len(),
            "token range 1..3 out of range for 2 tokens",
        ),
        (
            || LexedText::new("a b").pieces_by_index(2..1).len(),
            "token range 2..1 out of range for 3 tokens",
        ),
        (
            || LexedDocument::new("#!a\nb c").pieces_by_index(2..1).len(),
            "token range 2..1 out of range for 4 tokens",
        ),
    ];
    for (call, wanted) in calls {
        let said = catch_unwind(call).expect_err(wanted);
        assert_eq!(said.downcast_ref::<String>().unwrap(), wanted);
    }
}

/// Invalid ranges: `try_edit` and the lists return an error, and text and tokens stay the same.
#[test]
fn ranges_that_are_rejected() {
    #[allow(clippy::reversed_empty_ranges)]
    for range in [1..2, 2..3, 0..4, 4..4, 3..1, usize::MAX..usize::MAX] {
        let mut text = LexedText::new("aé");
        let mut document = LexedDocument::new("aé");
        assert_eq!(text.try_edit(range.clone(), "b"), Err(EditError::Range));
        assert_eq!(document.try_edit(range.clone(), "b"), Err(EditError::Range));
        let nothing = edit(0, 0, "");
        let edits = [nothing, edit(range.start, range.end, "b"), nothing];
        let stop = Err(EditStop::Range { at: 1 });
        assert_eq!(text.edit_all(&edits), stop);
        assert_eq!(document.edit_all(&edits), stop);
        assert_eq!((text.text(), text.tokens().len()), ("aé", 1));
        assert_eq!((document.text(), document.tokens().len()), ("aé", 1));
    }
    for (error, name, said) in [
        (
            EditError::Range,
            "Range",
            "range out of bounds or not on a char boundary",
        ),
        (
            EditError::TooLong,
            "TooLong",
            "the text has more than u32::MAX bytes",
        ),
        (EditError::Memory, "Memory", "memory allocation failed"),
    ] {
        assert_eq!(format!("{error} {error:?}"), format!("{said} {name}"));
        // An error printed with its sources repeats nothing.
        assert!(std::error::Error::source(&error).is_none(), "{name}");
    }
    assert_eq!(EditError::from(rustc_lexer::AllocError), EditError::Memory);
}

/// Each kind of range, as for `String::replace_range`. A range that starts or ends after `usize::MAX` is in no text.
#[test]
fn kinds_of_ranges() {
    use std::ops::Bound::{Excluded, Included, Unbounded};
    macro_rules! rows {
        ($Kept:ident) => {
            for (range, wanted) in [
                ((Unbounded, Unbounded), "-"),
                ((Included(1), Excluded(3)), "a-def"),
                ((Excluded(1), Included(3)), "ab-ef"),
            ] {
                let mut lexed = $Kept::new("abcdef");
                lexed.edit(range, "-");
                assert_eq!(lexed.text(), wanted);
            }
            let mut lexed = $Kept::new("a b c");
            assert!(lexed.accepts(4..=4, "") && !lexed.accepts(5..=5, ""));
            assert!(lexed.accepts(3.., "x") && lexed.accepts(..3, "x") && lexed.accepts(.., "x"));
            assert!(
                lexed.accepts(5.., "x") && !lexed.accepts(6.., "x") && !lexed.accepts(..6, "x")
            );
            for past in [Included(usize::MAX), Excluded(usize::MAX)] {
                assert_eq!(lexed.try_edit((Unbounded, past), ""), Err(EditError::Range));
                assert_eq!(lexed.try_edit((past, Unbounded), ""), Err(EditError::Range));
            }
            let shown = |pieces: rustc_lexer::Pieces<'_>| -> String {
                pieces.map(|piece| piece.text).collect()
            };
            assert_eq!(shown(lexed.pieces_in_bytes(..2)), "a ");
            assert_eq!(shown(lexed.pieces_in_bytes(3..)), " c");
            assert_eq!(shown(lexed.pieces_by_index(1..=2)), " b");
            assert_eq!(shown(lexed.pieces_by_index(..)), "a b c");
        };
    }
    rows!(LexedText);
    rows!(LexedDocument);
}
