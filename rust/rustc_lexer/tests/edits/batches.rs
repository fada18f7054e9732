//! `edit_batch`: edits that all have offsets of the current text.

use crate::made::{counts, edit};
use crate::random::Random;
use crate::{BITS, check};
use rustc_lexer::{EditStop, Edition, LexedDocument, LexedText};

/// `edit_batch` agrees with the text built directly, with one edit, and with `edit_sequence` from the back.
#[test]
fn random_batches() {
    macro_rules! lists {
        ($Kept:ident) => {
            let mut random = Random(5, BITS);
            for round in 0..3000 {
                let old = random.text(80);
                let edition = Edition::ALL[round % Edition::ALL.len()];
                let mut lexed = $Kept::new_in(&old, edition);
                let (mut ranges, mut inserts, mut from) = (vec![], vec![], 0);
                for _ in 0..random.below(8) {
                    let range = random.range_in(&old[from..], 9, 6);
                    ranges.push(from + range.start..from + range.end);
                    inserts.push(random.text(3));
                    from += range.end;
                }
                let pairs = ranges.iter().zip(&inserts);
                let edits = pairs.map(|(range, insert)| edit(range.start, range.end, insert));
                let edits: Vec<_> = edits.collect();
                let mut each = lexed.clone();
                for edit in edits.iter().rev() {
                    each.edit(edit.start..edit.stop, edit.insert);
                }
                let mut one = lexed.clone();
                let relexed = lexed.edit_batch(&edits).unwrap();
                assert_eq!((lexed.text(), lexed.tokens()), (each.text(), each.tokens()));
                let (Some(first), Some(last)) = (edits.first(), edits.last()) else {
                    assert_eq!(
                        (lexed.text(), relexed),
                        (&old[..], counts(one.tokens().len(), 0, 0))
                    );
                    continue;
                };
                let (mut text, mut at) = (String::new(), 0);
                for edit in &edits {
                    text += &old[at..edit.start];
                    text += edit.insert;
                    at = edit.stop;
                }
                let insert = text[first.start..].to_owned();
                text += &old[at..];
                assert_eq!(lexed.text(), text, "{edits:?}");
                assert_eq!(
                    one.edit(first.start..last.stop, &insert),
                    relexed,
                    "{edits:?}"
                );
                assert_eq!(one.tokens(), lexed.tokens(), "{edits:?}");
            }
        };
    }
    lists!(LexedText);
    lists!(LexedDocument);
}

/// A rejected batch changes nothing. The error has the index of the first edit that is out of order.
#[test]
fn rejected_batches() {
    for (edits, at) in [
        (&[edit(0, 8, "")][..], 0),
        (&[edit(2, 3, "")], 0),
        (&[edit(1, 0, "")], 0),
        (&[edit(0, 1, "b"), edit(0, 1, "b")], 1),
        (&[edit(3, 4, "b"), edit(0, 1, "b"), edit(9, 9, "")], 1),
        (&[edit(0, 1, "b"), edit(1, 1, "b"), edit(3, 2, "")], 2),
    ] {
        let (mut text, mut document) = (
            LexedText::new("a\u{e9} b c"),
            LexedDocument::new("a\u{e9} b c"),
        );
        assert_eq!(
            text.edit_batch(edits),
            Err(EditStop::Range { at }),
            "{edits:?}"
        );
        assert_eq!(document.edit_batch(edits), Err(EditStop::Range { at }));
        assert_eq!(
            (text.text(), document.text()),
            ("a\u{e9} b c", "a\u{e9} b c")
        );
        check(&text, "edits that are refused");
    }
    let mut text = LexedText::new("ab");
    // They can touch.
    let edits = [edit(1, 1, "c"), edit(1, 2, "d"), edit(2, 2, "e")];
    assert_eq!(text.edit_batch(&edits), Ok(counts(0, 1, 0)));
    assert_eq!(text.text(), "acde");
}
