//! Steppers that break a rule or panic: the messages of the calls, and the text and tokens afterwards.

mod made;
mod panics;

use made::edit;
use panics::panic_message;
use rustc_lexer::{EditError, LexedDocument, LexedText, Relexed, Stepper, Token, TokenKind};
use std::panic::{AssertUnwindSafe, catch_unwind};

/// A stepper whose tokens have one byte, or this many bytes at `!`.
#[derive(Clone, PartialEq)]
struct Bytes(u32);

impl Stepper for Bytes {
    fn step(&mut self, rest: &str) -> Token {
        let len = if rest.starts_with('!') { self.0 } else { 1 };
        let kind = TokenKind::Unknown;
        Token { kind, len }
    }
}

/// A stepper with this many tokens of one byte.
#[derive(Clone, PartialEq)]
struct Few(u32);

impl Stepper for Few {
    fn step(&mut self, _: &str) -> Token {
        self.0 = self.0.checked_sub(1).expect("no step is left");
        let kind = TokenKind::Unknown;
        Token { kind, len: 1 }
    }
}

/// The message for a token of `len` bytes in a text of `left`.
fn broken(len: u32, left: usize) -> String {
    format!(
        "`Stepper::step` returned a token of {len} bytes for a text of {left}: \
         a token is neither empty nor longer than the text, and ends between characters"
    )
}

/// The message of calls that need the tokens after a step has panicked.
const LEFT: &str = "a panic in `Stepper::step` left this text without tokens";

/// Asserts that the text includes the edit in which a step panicked, and has no tokens.
macro_rules! has_no_tokens {
    ($lexed:expr, $text:expr) => {
        let mut lexed = $lexed;
        let mut second = lexed.clone();
        assert_eq!(panic_message(|| lexed.tokens().len()), LEFT);
        assert_eq!(panic_message(|| lexed.pieces().len()), LEFT);
        assert_eq!(panic_message(|| lexed.pieces_by_index(0..0).len()), LEFT);
        assert_eq!(panic_message(|| lexed.pieces_in_bytes(0..1).len()), LEFT);
        assert_eq!(panic_message(|| lexed.token_start_at(0)), LEFT);
        assert_eq!(panic_message(|| lexed.piece_at(0).is_some()), LEFT);
        assert_eq!(panic_message(|| lexed.edit(0..0, "")), LEFT);
        assert_eq!(panic_message(|| lexed.try_edit(0..0, "")), LEFT);
        // If a step panics again in `set_text`, nothing changes.
        assert_ne!(panic_message(|| lexed.set_text($text)), LEFT);
        assert_eq!(panic_message(|| lexed.tokens().len()), LEFT);
        assert_eq!(lexed.try_edit(0..99, ""), Err(EditError::Range));
        assert_eq!(panic_message(|| lexed == second), LEFT);
        assert_eq!(panic_message(|| lexed.edit_all(&[])), LEFT);
        assert_eq!(panic_message(|| lexed.edit_sequence(&[])), LEFT);
        assert_eq!(panic_message(|| lexed.edit_batch(&[])), LEFT);
        assert_eq!(panic_message(|| second.edit(0..0, "")), LEFT);
        assert_eq!((lexed.text(), second.text()), ($text, $text));
        assert!(lexed.accepts(0..1, "") && !lexed.accepts(0..99, ""));
        let shown = format!("{lexed:?}");
        assert!(shown.ends_with(&format!("{{ text: {:?}, .. }}", $text)));
        lexed.shrink_to_fit();
        assert_eq!(lexed.into_string(), $text);
        assert_eq!(second.try_set_text(""), Ok(Relexed::none(0)));
        assert_eq!((second.text(), second.tokens().len()), ("", 0));
    };
}

/// Tokens that are empty, end after the text, or end inside the character after the `!`.
#[test]
fn tokens_that_break_the_rule() {
    macro_rules! calls {
        ($Kept:ident) => {
            for len in [0, 2, 5, 6, u32::MAX] {
                let kept = || $Kept::try_with("ab", Bytes(len)).unwrap();
                assert_eq!(
                    panic_message(|| $Kept::try_with("a!é", Bytes(len))),
                    broken(len, 3)
                );
                let bad = [edit(0, 0, "c"), edit(2, 2, "!é"), edit(0, 0, "d")];

                let mut lexed = kept();
                assert_eq!(panic_message(|| lexed.edit(1..1, "!é")), broken(len, 4));
                has_no_tokens!(lexed, "a!éb");
                let mut lexed = kept();
                assert_eq!(panic_message(|| lexed.try_edit(0..2, "!é")), broken(len, 3));
                has_no_tokens!(lexed, "!é");
                let mut lexed = kept();
                assert_eq!(panic_message(|| lexed.edit_all(&bad)), broken(len, 4));
                has_no_tokens!(lexed, "ca!éb");
                let mut lexed = kept();
                assert_eq!(panic_message(|| lexed.edit_sequence(&bad)), broken(len, 4));
                has_no_tokens!(lexed, "ca!éb");
            }
            // A token can be the whole remaining text, or all but its last character.
            let lexed = $Kept::try_with("a!é", Bytes(3)).unwrap();
            assert_eq!(lexed.tokens().len(), 2);
            let lexed = $Kept::try_with("a!éb", Bytes(3)).unwrap();
            assert_eq!(lexed.pieces().last().map(|piece| piece.text), Some("b"));
        };
    }
    calls!(LexedText);
    calls!(LexedDocument);
}

/// Steps lex only the body of a document. Without tokens, neither its start nor the final part of a fragment is known.
#[test]
fn calls_of_documents_and_fragments() {
    let mut lexed = LexedDocument::try_with("#!a\nb", Bytes(0)).unwrap();
    assert_eq!((lexed.tokens_start(), lexed.tokens().len()), (3, 2));
    assert_eq!(panic_message(|| lexed.edit(0..4, "!")), broken(0, 2));
    assert_eq!(panic_message(|| lexed.tokens_start()), LEFT);
    assert_eq!(panic_message(|| lexed.body_start()), LEFT);
    has_no_tokens!(lexed, "!b");
    let mut lexed = LexedText::try_with("abc", Few(3)).unwrap();
    assert_eq!(lexed.settled(), 1);
    assert_eq!(panic_message(|| lexed.edit(3..3, "d")), "no step is left");
    assert_eq!(panic_message(|| lexed.settled()), LEFT);
}

/// `set_text` lexes the whole text, and then the tokens are available again.
#[test]
fn set_text_after_a_panic() {
    let mut lexed = LexedText::try_with("ab!", Bytes(1)).unwrap();
    assert_eq!(
        lexed.set_text("ab"),
        Relexed {
            kept_front: 0,
            lexed: 2,
            kept_back: 0
        }
    );
    let mut lexed = LexedText::try_with("abcdef", Bytes(0)).unwrap();
    panic_message(|| lexed.edit(3..3, "!"));
    assert_eq!(lexed.set_text("abcdef"), Relexed::none(6));
    assert_eq!(lexed.tokens().len(), 6);
    assert_eq!(lexed.edit(6..6, "g").kept_front, 4);
    let mut lexed = LexedDocument::try_with("#!a\nb", Bytes(0)).unwrap();
    panic_message(|| lexed.edit(0..4, "!"));
    assert_eq!(lexed.set_text("#!ab\n---\n---\nc"), Relexed::none(4));
    assert_eq!((lexed.tokens_start(), lexed.body_start().index), (4, 2));
    assert_eq!(lexed.edit(13..14, "d").kept_front, 2);
}

/// A panic at each step of a text, and then of an edit.
#[test]
fn a_panic_at_each_step() {
    macro_rules! calls {
        ($Kept:ident) => {
            for steps in 0..5 {
                let text = || $Kept::try_with("abcde", Few(steps));
                assert_eq!(panic_message(text), "no step is left");
            }
            // There are six tokens: two are kept at the front and one at the back.
            let (mut panicked, mut edited) = (0, 0);
            for steps in 5..9 {
                let mut lexed = $Kept::try_with("abcde", Few(steps)).unwrap();
                let edit = AssertUnwindSafe(|| lexed.edit(4..4, "x"));
                match catch_unwind(edit) {
                    Ok(relexed) => {
                        edited += 1;
                        assert_eq!((relexed.kept_front, relexed.kept_back), (2, 1));
                        assert_eq!((lexed.text(), lexed.tokens().len()), ("abcdxe", 6));
                        assert_eq!(lexed.stepper().0, steps - 8);
                    }
                    Err(_) => {
                        panicked += 1;
                        has_no_tokens!(lexed, "abcdxe");
                    }
                }
            }
            assert_eq!((panicked, edited), (3, 1));
            // A list is applied edit by edit, so the text is the text after one of them.
            let mut lexed = $Kept::try_with("a;".repeat(70), Few(140 + 90)).unwrap();
            let edits: Vec<_> = (0..70).map(|at| edit(3 * at, 3 * at, "b")).collect();
            assert_eq!(
                panic_message(|| lexed.edit_sequence(&edits)),
                "no step is left"
            );
            let made = lexed.text().len() - 140;
            assert!(1 < made && made < 70, "{made}");
            let text = "ba;".repeat(made) + &"a;".repeat(70 - made);
            assert_eq!(lexed.text(), text);
            assert_eq!(panic_message(|| lexed.tokens().len()), LEFT);
            // A batch has too few steps, and then the text includes all of its edits.
            let mut lexed = $Kept::try_with("ab", Few(3)).unwrap();
            let edits = [edit(0, 0, "c"), edit(2, 2, "d")];
            assert_eq!(
                panic_message(|| lexed.edit_batch(&edits)),
                "no step is left"
            );
            has_no_tokens!(lexed, "cabd");
            // A new text has too few steps, and then the text is the new one.
            let mut lexed = $Kept::try_with("ab", Few(3)).unwrap();
            let set_text = || lexed.set_text("acdb");
            assert_eq!(panic_message(set_text), "no step is left");
            has_no_tokens!(lexed, "acdb");
            // The first edit of a list makes its two steps, and the second has none left.
            for each in [false, true] {
                let mut lexed = $Kept::try_with("a", Few(3)).unwrap();
                let edits = [edit(1, 1, "b"), edit(2, 2, "c"), edit(3, 3, "d")];
                let made = || match each {
                    true => lexed.edit_sequence(&edits).map(drop).map_err(|it| it.stop),
                    false => lexed.edit_all(&edits),
                };
                assert_eq!(panic_message(made), "no step is left");
                has_no_tokens!(lexed, "abc");
            }
        };
    }
    calls!(LexedText);
    calls!(LexedDocument);
}

/// A call that is rejected before its first step changes neither text nor tokens.
#[test]
fn edits_without_a_step() {
    let mut lexed = LexedText::try_with("ab", Few(2)).unwrap();
    assert!(lexed.try_edit(0..9, "").is_err());
    assert!(lexed.edit_all(&[edit(9, 9, "")]).is_err());
    assert_eq!((lexed.text(), lexed.tokens().len()), ("ab", 2));
    // The whole text is removed, which needs no step.
    lexed.edit(0..2, "");
    assert_eq!((lexed.text(), lexed.tokens().len()), ("", 0));
}

/// Equal texts with different steppers are not equal.
#[test]
fn different_steppers() {
    let text = LexedText::try_with("ab", Few(2)).unwrap();
    assert!(text == LexedText::try_with("ab", Few(2)).unwrap());
    assert!(text != LexedText::try_with("ab", Few(3)).unwrap());
    assert!(text != LexedText::try_with("abc", Few(3)).unwrap());
    // A value that lost its tokens in an edit has another text.
    let mut lost = text.clone();
    panic_message(|| lost.edit(2..2, "c"));
    assert_ne!(text, lost);
    assert_ne!(lost, text);
}
