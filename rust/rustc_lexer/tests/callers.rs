//! A call whose caller broke a rule panics at the caller's line.

#[macro_use]
mod panics;

#[cfg(target_pointer_width = "64")]
use panics::too_long;
use rustc_lexer::{
    Cursor, Edition, FrontmatterAllowed, is_token_boundary, settled, settled_in, strip_shebang,
    tokenize, tokenize_as, tokenize_document, tokenize_in, validate_raw_str,
};
#[test]
fn bad_offsets() {
    panics_here!(is_token_boundary("é", 1, Edition::E2024));
    panics_here!(validate_raw_str("\"", 1));
}

#[cfg(target_pointer_width = "64")]
#[test]
fn texts_that_are_too_long() {
    let (no, newest) = (FrontmatterAllowed::No, Edition::NEWEST);
    let long = too_long();
    let text = long.as_str();
    panics_here!(tokenize(text, no));
    panics_here!(tokenize_in(text, newest));
    panics_here!(tokenize_as(text, no, newest));
    panics_here!(tokenize_document(text, newest));
    panics_here!(Cursor::new(text, no));
    panics_here!(strip_shebang(text));
    panics_here!(validate_raw_str(text, 1));
    panics_here!(is_token_boundary(text, 0, newest));
    panics_here!(settled(text));
    panics_here!(settled_in(text, newest));
}

#[cfg(feature = "alloc")]
mod kept {
    use super::*;
    use crate::panics::panic_place;
    use rustc_lexer::{Edit, JoinedText, LexedDocument, LexedText, Stepper, Token, TokenKind};

    #[test]
    fn edits_and_pieces() {
        macro_rules! calls {
            ($Kept:ident) => {
                let mut lexed = $Kept::new("é");
                panics_here!(lexed.edit(1..2, ""));
                panics_here!(lexed.edit(9.., ""));
                panics_here!(lexed.pieces_by_index(0..9));
                #[cfg(target_pointer_width = "64")]
                {
                    let long = too_long();
                    panics_here!($Kept::new(&long));
                    panics_here!($Kept::new_in(&long, Edition::E2015));
                    panics_here!(lexed.edit(.., &long));
                    panics_here!(lexed.set_text(&long));
                    panics_here!($Kept::from(long));
                }
            };
        }
        calls!(LexedText);
        calls!(LexedDocument);
    }

    #[test]
    fn rejected_pieces() {
        let mut text = JoinedText::new();
        text.push("\"");
        panics_here!(text.push("a"));
        panics_here!(text.extend(["a"]));
        panics_here!(JoinedText::from_iter(["\"", "a"]));
        panics_here!(JoinedText::from_iter(["ab"]).truncate(1));
    }

    /// A stepper whose tokens have one byte, and which panics at `!`.
    #[derive(Clone, PartialEq)]
    struct Bytes;

    impl Stepper for Bytes {
        fn step(&mut self, rest: &str) -> Token {
            assert!(!rest.starts_with('!'));
            let kind = TokenKind::Unknown;
            Token { kind, len: 1 }
        }
    }

    /// After a step has panicked there are no tokens, so calls that need them panic.
    #[test]
    fn tokens_after_a_panic() {
        let mut text = LexedText::try_with("ab", Bytes).unwrap();
        panic_place(|| text.edit(1..1, "!"));
        let edits: [Edit<'_>; 0] = [];
        panics_here!(text.tokens().len());
        panics_here!(text.pieces());
        panics_here!(text.pieces_by_index(0..0));
        panics_here!(text.pieces_in_bytes(0..1));
        panics_here!(text.token_start_at(0));
        panics_here!(text.piece_at(0));
        panics_here!(text.edit(0..0, ""));
        panics_here!(text.try_edit(0..0, ""));
        panics_here!(text.edit_all(&edits));
        panics_here!(text.edit_sequence(&edits));
        panics_here!(text.edit_batch(&edits));
        panics_here!(text.settled());
        let second = text.clone();
        panics_here!(text == second);
        let mut file = LexedDocument::try_with("ab", Bytes).unwrap();
        panic_place(|| file.edit(1..1, "!"));
        panics_here!(file.body_start());
        panics_here!(file.tokens_start());
    }
}
