//! The edition of a lexed text, and a change of it.

use crate::made::{edit, token};
use rattle_support::Global;
use rustc_lexer::{
    Edition, FrontmatterAllowed, LexedText, TokenKind, generated, tokenize, tokenize_in,
};

#[test]
fn editions() {
    for &edition in Edition::ALL {
        let count = match edition.year() {
            ..2021 => 5,
            2021..2024 => 3,
            2024.. => 2,
        };
        assert_eq!(tokenize_in("'r#a##", edition).count(), count);
    }
    assert!(Edition::ALL.is_sorted() && Edition::ALL[0] < Edition::ALL[1]);
    let text = "a ".repeat(1000) + "r#\"b\"# c\"d\" 'é";
    assert!(tokenize_in(&text, Edition::E2024).eq(tokenize(&text, FrontmatterAllowed::No)));
    assert_eq!(tokenize_in("", Edition::E2015).next(), None);
}

/// `set_edition`, by a new text and by the proved source, which lexes the old text again. `shrink_to_fit` changes
/// nothing.
#[test]
fn set_edition() {
    let lifetime = TokenKind::Lifetime {
        starts_with_number: false,
    };
    let older = [(lifetime, 2), (TokenKind::Pound, 1), (TokenKind::Ident, 3)];
    let older = older.map(|(kind, len)| token(kind, len));
    let newer = [token(TokenKind::RawLifetime, 6)];
    macro_rules! rows {
        ($make:expr, $set_edition:ident) => {
            let mut lexed = $make;
            let edits = [edit(6, 6, " + 1"), edit(6, 10, "")];
            for (edition, tokens) in [
                (Edition::E2024, &newer[..]),
                (Edition::E2018, &older),
                (Edition::E2021, &newer),
                (Edition::E2015, &older),
            ] {
                if lexed.edition() != edition {
                    lexed.$set_edition(edition).unwrap();
                }
                for edits in [&[][..], &edits] {
                    assert_eq!(lexed.edit_all(edits), Ok(()));
                    lexed.shrink_to_fit();
                    let held = (lexed.edition(), lexed.text(), lexed.tokens());
                    assert_eq!(held, (edition, "'r#foo", tokens));
                }
            }
        };
    }
    rows!(LexedText::new("'r#foo"), try_set_edition);
    let proved = generated::LexedText::new(Global, "'r#foo");
    rows!(proved.unwrap(), set_edition);
}
