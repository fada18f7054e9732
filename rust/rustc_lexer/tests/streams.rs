//! Fragments that grow at their end: which tokens are final.

#[allow(dead_code, reason = "no text is edited here")]
mod random;

use random::Random;
use rustc_lexer::{Edition, LexedText, Piece};

/// Random texts consist of these: tokens with a lookahead, and unterminated ones.
#[rustfmt::skip]
const BITS: &[&str] = &[
    "a", "bc", "r#", "1", "0x", ".", " ", "\n", "é", "😀", "\"", "'", "#", "/", "//", "/*", "*/", "let x = 1;",
    "b'", "\\", "1e", "k#", "\u{2028}", "\r\n", "[", "!",
];

/// The offsets between the characters of a text.
fn places(text: &str) -> impl Iterator<Item = usize> {
    text.char_indices().map(|(at, _)| at).chain([text.len()])
}

/// The end of the last piece that two characters follow, or 0.
fn last_followed<'a>(text: &str, pieces: impl Iterator<Item = Piece<'a>>) -> usize {
    let ends = pieces.map(|piece| piece.range().end);
    let is_followed = |end: &usize| text[*end..].chars().count() >= 2;
    ends.filter(is_followed).last().unwrap_or(0)
}

/// The pieces that end at or before an offset.
fn up_to<'a>(pieces: impl Iterator<Item = Piece<'a>>, end: usize) -> Vec<(usize, Piece<'a>)> {
    let pieces = pieces.map(|piece| (piece.range().end, piece));
    pieces.take_while(|(at, _)| *at <= end).collect()
}

/// A fragment is final up to the last token that two characters follow, whole or still growing, in each edition.
#[test]
fn final_tokens() {
    let mut random = Random(11, BITS);
    for at in 0..600 {
        let text = random.text(12);
        let edition = Edition::ALL[at % 4];
        let whole = LexedText::new_in(&text, edition);
        let mut growing = LexedText::new_in("", edition);
        for end in places(&text) {
            growing.edit(growing.text().len().., &text[growing.text().len()..end]);
            let settled = growing.settled();
            assert_eq!(LexedText::new_in(&text[..end], edition).settled(), settled);
            let wanted = last_followed(&text[..end], growing.pieces());
            assert_eq!(settled, wanted, "{:?}", &text[..end]);
            let known = up_to(growing.pieces(), settled);
            assert_eq!(known, up_to(whole.pieces(), settled), "{end} of {text:?}");
        }
    }
}

/// An unterminated comment of 1 MB is not final, and each edit at its end lexes all of it.
#[test]
fn an_unterminated_comment() {
    let mut lexed = LexedText::new("fn /*");
    for _ in 0..16 {
        lexed.edit(lexed.text().len().., &"é * ".repeat(1 << 14));
        assert_eq!(lexed.settled(), 3);
    }
    lexed.edit(lexed.text().len().., "*/ x");
    assert_eq!(lexed.settled(), lexed.text().len() - 2);
}
