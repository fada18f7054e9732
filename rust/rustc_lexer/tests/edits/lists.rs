//! Lists of edits, each with offsets of the text that the previous edits made.

use crate::made::{counts, edit};
use crate::random::Random;
use crate::{BITS, check};
use rustc_lexer::{
    EditError, EditSequenceError, EditStop, Edition, LexedDocument, LexedText, Relexed, tokenize_in,
};

/// More edits than a `u16` counts.
const MANY: usize = 70_000;

/// Each edit of a list has offsets of the text that the previous edits made.
#[test]
fn a_list_of_edits() {
    let edits = [edit(8, 8, "z"), edit(0, 3, "")];
    let mut lexed = LexedText::new("ab cd ef");
    assert_eq!(lexed.edit_all(&edits), Ok(()));
    check(&lexed, "a list of edits");
    assert_eq!((lexed.text(), lexed.tokens().len()), ("cd efz", 3));
    assert_eq!(lexed.edit_all(&[]), Ok(()));
    assert_eq!(lexed.text(), "cd efz");
    // All of many edits are applied.
    let edits: Vec<_> = (0..MANY).map(|at| edit(at, at, ";")).collect();
    let (mut text, mut document) = (LexedText::new(""), LexedDocument::new(""));
    assert_eq!(text.edit_all(&edits), Ok(()));
    assert_eq!(document.edit_sequence(&edits), Ok(counts(0, MANY, 0)));
    assert_eq!((text.tokens().len(), document.tokens().len()), (MANY, MANY));
    // At once, all have offsets of the current text.
    let edits = vec![edit(0, 0, ";"); MANY];
    assert_eq!(text.edit_batch(&edits), Ok(counts(0, MANY, MANY)));
    assert_eq!(text.tokens().len(), 2 * MANY);
}

/// The tokens that all edits of a list keep, with hand-written counts. Each token has one byte.
#[test]
fn tokens_kept_by_a_list() {
    for (edits, kept) in [
        // No edit: all tokens stay at the front.
        (&[][..], counts(13, 0, 0)),
        // One edit: the counts that `edit` returns.
        (&[edit(8, 9, "+")][..], counts(6, 3, 4)),
        // The front of the later edit and the back of the earlier one, and the reverse.
        (&[edit(8, 9, "+"), edit(4, 5, "-")], counts(2, 7, 4)),
        (&[edit(4, 5, "-"), edit(8, 9, "+")], counts(2, 7, 4)),
        // One edit makes three tokens of two, and one removes them again: tokens that were lexed are not old.
        (&[edit(8, 9, "+ 1"), edit(8, 11, "e")], counts(6, 3, 4)),
        // The first opens a comment to the end, the second closes it.
        (&[edit(6, 6, "/*"), edit(9, 9, "*/")], counts(4, 9, 0)),
        // The whole text is removed.
        (&[edit(0, 13, "")], counts(0, 0, 0)),
    ] {
        let mut text = LexedText::new("a b c d e f g");
        let mut document = LexedDocument::new("a b c d e f g");
        assert_eq!(text.edit_sequence(edits), Ok(kept), "{edits:?}");
        assert_eq!(document.edit_sequence(edits), Ok(kept), "{edits:?}");
        check(&text, "a list of edits");
    }
}

/// The tokens that two lists in a row keep, of 13 tokens of one byte each, with hand-written counts. An empty list
/// changes nothing.
#[test]
fn tokens_kept_by_two_lists() {
    let none = counts(13, 0, 0);
    assert_eq!(Relexed::all(13), none);
    let (one, other) = (edit(8, 9, "+"), edit(4, 5, "-"));
    for (first, second, kept) in [
        (&[][..], &[][..], none),
        (&[one][..], &[], counts(6, 3, 4)),
        (&[], &[one], counts(6, 3, 4)),
        (&[edit(8, 9, "+ 1")], &[], counts(6, 5, 4)),
        // The front of the second and the back of the first, and the reverse.
        (&[one], &[other], counts(2, 7, 4)),
        (&[other], &[one], counts(2, 7, 4)),
        // The first leaves two more tokens at the back, and the second opens a comment over them.
        (&[edit(8, 9, "+ 1")], &[edit(11, 11, "/*")], counts(6, 6, 0)),
    ] {
        let mut lexed = LexedText::new("a b c d e f g");
        let [first_counts, second_counts] =
            [first, second].map(|edits| lexed.edit_sequence(edits).unwrap());
        let all = first_counts.then(second_counts, 13);
        assert_eq!(all, kept, "{first:?}, {second:?}");
        assert_eq!(none.then(all, 13), all);
        let len = lexed.tokens().len();
        assert_eq!(all.then(counts(len, 0, 0), 13), all);
    }
    // All tokens at the front are kept, but not the last old one: this list changes something.
    assert_eq!(
        counts(12, 0, 0).then(counts(0, 1, 11), 13),
        counts(0, 12, 0)
    );
    // Counts of no text.
    let most = counts(usize::MAX, usize::MAX, usize::MAX);
    assert_eq!(most.then(most, 13), most);
    assert_eq!(most.changed_tokens(), usize::MAX..usize::MAX);
}

/// A list keeps the tokens that each of its edits keeps, and they are the old ones.
#[test]
fn random_lists_of_edits() {
    macro_rules! lists {
        ($Kept:ident) => {
            let mut random = Random(3, BITS);
            for round in 0..2000 {
                let text = random.text(60);
                let mut lexed = $Kept::new_in(&text, Edition::ALL[round % Edition::ALL.len()]);
                let (mut made, old) = (lexed.clone(), lexed.tokens().to_vec());
                let (mut front, mut back) = (old.len(), old.len());
                let mut kept = counts(old.len(), 0, 0);
                let mut unpainted = Relexed::none(old.len());
                let (mut ranges, mut inserts) = (vec![], vec![]);
                for _ in 0..1 + random.below(4) {
                    let (range, insert) = (random.range(made.text()), random.text(3));
                    let relexed = made.edit(range.clone(), &insert);
                    front = front.min(relexed.kept_front);
                    back = back.min(relexed.kept_back);
                    kept = kept.then(relexed, old.len());
                    kept = kept.then(made.edit_sequence(&[]).unwrap(), old.len());
                    unpainted = unpainted.then(relexed, 0);
                    ranges.push(range);
                    inserts.push(insert);
                }
                let pairs = ranges.iter().zip(&inserts);
                let edits = pairs.map(|(range, insert)| edit(range.start, range.end, insert));
                let edits: Vec<_> = edits.collect();
                let relexed = lexed.edit_sequence(&edits).unwrap();
                let new = lexed.tokens();
                assert_eq!((lexed.text(), new), (made.text(), made.tokens()));
                assert_eq!((relexed.kept_front, relexed.kept_back), (front, back));
                assert_eq!(kept, relexed, "{text:?}: {edits:?}");
                assert_eq!(unpainted, counts(0, new.len(), 0));
                assert_eq!(front + relexed.lexed + back, new.len());
                assert!(front + back <= old.len(), "{text:?}: {edits:?}");
                assert_eq!(new[..front], old[..front], "{text:?}: {edits:?}");
                let behind = (&new[new.len() - back..], &old[old.len() - back..]);
                assert_eq!(behind.0, behind.1, "{text:?}: {edits:?}");
            }
        };
    }
    lists!(LexedText);
    lists!(LexedDocument);
}

/// A long list, mostly in order, has the same effect as its edits one by one.
#[test]
fn long_lists_in_order() {
    macro_rules! lists {
        ($Kept:ident) => {
            let mut random = Random(4, BITS);
            for round in 0..80 {
                let mut lexed = $Kept::new_in(random.text(300), Edition::ALL[round % 4]);
                let (mut made, old) = (lexed.clone(), lexed.tokens().len());
                let (mut front, mut back) = (old, old);
                let (mut ranges, mut inserts, mut at) = (vec![], vec![], 0);
                for _ in 0..63 + random.below(40) {
                    let mut from = usize::saturating_sub(at, random.below(4));
                    if random.below(200) == 0 {
                        from = 0;
                    }
                    while !made.text().is_char_boundary(from) {
                        from -= 1;
                    }
                    let range = random.range_in(&made.text()[from..], 6, 4);
                    let (range, insert) = (from + range.start..from + range.end, random.text(3));
                    let relexed = made.edit(range.clone(), &insert);
                    front = front.min(relexed.kept_front);
                    back = back.min(relexed.kept_back);
                    at = range.start + random.below(2) * insert.len();
                    ranges.push(range);
                    inserts.push(insert);
                }
                let pairs = ranges.iter().zip(&inserts);
                let edits = pairs.map(|(range, insert)| edit(range.start, range.end, insert));
                let edits: Vec<_> = edits.collect();
                let relexed = lexed.edit_sequence(&edits).unwrap();
                let (text, new) = (lexed.text(), lexed.tokens());
                assert_eq!((text, new), (made.text(), made.tokens()), "{edits:?}");
                let back = back.min(new.len().min(old) - front);
                let kept = counts(front, new.len() - front - back, back);
                assert_eq!(relexed, kept, "{edits:?}");
                // The checkpoints belong to the new tokens.
                let range = random.range(text);
                assert_eq!(lexed.edit(range.clone(), "b"), made.edit(range, "b"));
                assert_eq!(lexed.tokens(), made.tokens(), "{edits:?}");
            }
        };
    }
    lists!(LexedText);
    lists!(LexedDocument);
}

/// In every pair, the second edit is one character after the tokens that the first keeps, and changes the token there.
#[test]
fn a_long_list_that_goes_back() {
    let inserts = (0..40).flat_map(|at| [(7 * at + 3, "9"), (7 * at + 2, "5")]);
    let edits: Vec<_> = inserts.map(|(at, insert)| edit(at, at, insert)).collect();
    let mut lexed = LexedText::new("1..2 ".repeat(40));
    assert_eq!(lexed.edit_sequence(&edits), Ok(counts(0, 159, 1)));
    assert_eq!(lexed.text(), "1.5.92 ".repeat(40));
    check(&lexed, "a list that goes back");
}

/// The edits of a long list before an edit that is out of bounds stay applied, and their counts are returned.
#[test]
fn a_long_list_with_a_rejected_edit() {
    macro_rules! stops {
        ($Kept:ident) => {
            for at in [0, 1, 2, 63, 64, 99] {
                let mut edits = vec![];
                for number in 0..100 {
                    let place = if number == at { 999 } else { 3 * number };
                    edits.push(edit(place, place + 1, "bb"));
                }
                let mut lexed = $Kept::new("a ".repeat(100));
                // The edits change the tokens from the first on, which have a space between them.
                let relexed = match at {
                    0 => counts(200, 0, 0),
                    _ => counts(0, 2 * at - 1, 201 - 2 * at),
                };
                let stop = EditStop::Range { at };
                assert_eq!(
                    lexed.edit_sequence(&edits),
                    Err(EditSequenceError { stop, relexed })
                );
                let text = "bb ".repeat(at) + &"a ".repeat(100 - at);
                assert_eq!(lexed.text(), text);
                assert!(tokenize_in(&text, Edition::NEWEST).eq(lexed.tokens().iter().copied()));
            }
        };
    }
    stops!(LexedText);
    stops!(LexedDocument);
}

/// Without its details, the error of a list is the error of a single edit.
#[test]
fn errors_without_details() {
    for (stop, error) in [
        (EditStop::Range { at: 1 }, EditError::Range),
        (EditStop::TooLong { at: 1 }, EditError::TooLong),
        (EditStop::Memory { at: 1 }, EditError::Memory),
    ] {
        let relexed = counts(0, 1, 0);
        assert_eq!(EditError::from(stop), error);
        assert_eq!(EditError::from(EditSequenceError { stop, relexed }), error);
    }
}

/// The edits before a rejected one stay applied. The error names the first rejected edit.
#[test]
fn a_list_with_a_rejected_edit() {
    macro_rules! stops {
        ($lexed:expr, $at:expr, $edits:expr) => {
            let (mut lexed, stop) = ($lexed, EditStop::Range { at: $at });
            let relexed = match $at {
                0 => counts(1, 0, 0),
                _ => counts(0, 1, 0),
            };
            assert_eq!(
                lexed.edit_sequence($edits),
                Err(EditSequenceError { stop, relexed })
            );
            assert_eq!(lexed.text(), "b".repeat($at) + "a");
            let mut lexed = $lexed;
            assert_eq!(lexed.edit_all($edits), Err(stop));
            assert_eq!(lexed.text(), "b".repeat($at) + "a");
        };
    }
    for at in 0..5 {
        let mut edits = vec![edit(0, 0, "b"); at];
        edits.extend([edit(9, 9, ""), edit(8, 8, "")]);
        stops!(LexedText::new("a"), at, &edits);
        stops!(LexedDocument::new("a"), at, &edits);
    }
    for (stop, said) in [
        (EditStop::Range { at: 0 }, "edit 0: bad range"),
        (EditStop::TooLong { at: 10 }, "edit 10: text too long"),
        (EditStop::Memory { at: 2 }, "edit 2: no memory"),
    ] {
        let relexed = counts(0, 0, 0);
        assert_eq!(stop.to_string(), said);
        assert_eq!(EditSequenceError { stop, relexed }.to_string(), said);
    }
}
