//! `edit` next to a full re-lex, with its counts.

use crate::made::counts;
use crate::random::Random;
use crate::{BITS, check, edit_and_check};
use rustc_lexer::{Edition, LexedText, TokenKind};

#[test]
fn random_edits_of_short_texts() {
    let mut random = Random(1, BITS);
    for round in 0..800 {
        let edition = Edition::ALL[round % Edition::ALL.len()];
        let mut lexed = LexedText::new_in(random.text(40), edition);
        check(&lexed, "at the start");
        for _ in 0..12 {
            let range = random.range(lexed.text());
            let insert = random.text(3);
            edit_and_check(&mut lexed, range, &insert);
        }
    }
}

/// Ten thousand edits of one text in each edition, or the number in the variable EDITS.
#[test]
fn many_edits_of_one_text() {
    let asked = std::env::var("EDITS").map(|count| count.parse());
    let count = asked.map_or(10_000, |count| count.expect("EDITS is a number"));
    for &edition in Edition::ALL {
        let mut random = Random(u64::from(edition.year()), BITS);
        let mut lexed = LexedText::new_in(random.text(200), edition);
        for _ in 0..count {
            let range = random.range(lexed.text());
            let most = if lexed.text().len() < 400 { 20 } else { 2 };
            let insert = random.text(most);
            edit_and_check(&mut lexed, range, &insert);
        }
    }
}

#[test]
fn random_edits_of_a_long_text() {
    let mut random = Random(2, BITS);
    let mut lexed =
        LexedText::new("fn add(left: u32, right: u32) -> u32 { left + right } // é\n".repeat(400));
    for _ in 0..400 {
        let range = random.range(lexed.text());
        let insert = random.text(4);
        edit_and_check(&mut lexed, range, &insert);
        if random.below(40) == 0 {
            let edition = Edition::ALL[random.below(Edition::ALL.len())];
            lexed.set_edition(edition);
            assert_eq!(lexed.edition(), edition);
            check(&lexed, "in another edition");
        }
    }
}

#[test]
fn more_tokens_than_one_batch() {
    let mut lexed = LexedText::new("a + b");
    edit_and_check(&mut lexed, 1..1, &" - c".repeat(10_000));
    edit_and_check(&mut lexed, 0..0, "/*");
    assert_eq!(lexed.tokens().len(), 1);
    edit_and_check(&mut lexed, 0..1, "");
    let all = 0..lexed.text().len();
    edit_and_check(&mut lexed, all, "");
    assert_eq!(lexed.tokens().len(), 0);
}

#[test]
fn the_example_in_the_documents() {
    let mut lexed = LexedText::new("let ab = cd + ef;");
    edit_and_check(&mut lexed, 12..13, "- 1 -");
    assert_eq!(lexed.edit(12..17, "+"), counts(6, 3, 3));
    assert_eq!(lexed.tokens()[2].kind, TokenKind::Ident);
    assert_eq!(lexed.tokens()[11].kind, TokenKind::Semi);
    assert_eq!(lexed.tokens().len(), 12);
}
