//! `set_text`, which applies one edit of the part that differs.

use crate::made::counts;
use crate::random::Random;
use crate::{BITS, check};
use rustc_lexer::{LexedDocument, LexedText};

/// `set_text` is one edit of the part that differs, on char boundaries, with hand-written counts.
#[test]
fn set_text() {
    for (old, new, range, insert, kept) in [
        ("a b c d e f g", "a b c d + f g", 8..9, "+", counts(6, 3, 4)),
        // Both characters start with the same bytes, and end with the same bytes.
        ("a \u{e9} c", "a \u{e8} c", 2..4, "\u{e8}", counts(0, 3, 2)),
        (
            "a \u{e9} c",
            "a \u{129} c",
            2..4,
            "\u{129}",
            counts(0, 3, 2),
        ),
        // Front and back must not overlap.
        ("a;;b", "a;;;b", 3..3, ";", counts(1, 3, 1)),
        ("a;;;b", "a;;b", 3..4, "", counts(1, 2, 1)),
        ("a", "", 0..1, "", counts(0, 0, 0)),
        ("", "a", 0..0, "a", counts(0, 1, 0)),
    ] {
        let (mut lexed, mut edited) = (LexedText::new(old), LexedText::new(old));
        assert_eq!(
            lexed.set_text(new),
            edited.edit(range, insert),
            "{old:?}, {new:?}"
        );
        assert_eq!(edited.text(), new);
        check(&lexed, new);
        let mut lexed = LexedText::new(old);
        assert_eq!(lexed.set_text(new), kept, "{old:?}, {new:?}");
        let len = lexed.tokens().len();
        assert_eq!(lexed.set_text(new), counts(len, 0, 0));
    }
}

/// The length of the common prefix of two texts, on a character boundary.
fn common(old: impl Iterator<Item = char>, new: impl Iterator<Item = char>) -> usize {
    let both = old.zip(new).take_while(|(old, new)| old == new);
    both.map(|(char, _)| char.len_utf8()).sum()
}

/// `set_text` of random texts. Long ones are compared in blocks.
#[test]
fn random_new_texts() {
    macro_rules! others {
        ($Kept:ident) => {
            let mut random = Random(5, BITS);
            for _ in 0..1000 {
                let (front, back) = (random.text(60), random.text(60));
                let [old, new] = [0; 2].map(|_| front.clone() + &random.text(3) + &back);
                let (mut lexed, mut edited) = ($Kept::new(&old), $Kept::new(&old));
                let relexed = lexed.set_text(&new);
                assert_eq!(lexed, $Kept::new(&new), "{old:?}, {new:?}");
                if old == new {
                    assert_eq!(relexed, counts(lexed.tokens().len(), 0, 0));
                    continue;
                }
                let start = common(old.chars(), new.chars());
                let back = common(old[start..].chars().rev(), new[start..].chars().rev());
                let kept = edited.edit(start..old.len() - back, &new[start..new.len() - back]);
                assert_eq!(relexed, kept, "{old:?}, {new:?}");
            }
        };
    }
    others!(LexedText);
    others!(LexedDocument);
}
