//! The token at an offset, with hand-written results, and compared with the sums of token lengths.

mod random;

use random::Random;
use rustc_lexer::{LexedDocument, LexedText, Piece, Pieces, Token, TokenStart};
use std::ops::Range;

/// Random edits consist of these: they join with the tokens next to them, or make heads of documents.
#[rustfmt::skip]
const BITS: &[&str] = &[
    "a", "bc", "r#", "1", "0x", ".", " ", "\n", "é", "😀", "\"", "'", "#", "/", "//", "/*", "*/", "let x = 1;",
    "fn f() {}\n", "#!", "#!a\n", "---\n", "\n---\n",
];

/// The indices and offsets of tokens from `start` on, and the end of the last one.
fn starts(tokens: &[Token], mut start: usize) -> Vec<usize> {
    let mut starts = vec![start];
    for token in tokens {
        start += token.len as usize;
        starts.push(start);
    }
    starts
}

/// The token at the offset, by a linear search.
fn found(starts: &[usize], offset: usize) -> Option<TokenStart> {
    let mut ends = starts.windows(2);
    let index = ends.position(|ends| (ends[0]..ends[1]).contains(&offset))?;
    let offset = starts[index];
    Some(TokenStart { index, offset })
}

/// The indices of the tokens that contain a byte of the range, by a linear search.
fn touched(starts: &[usize], range: &Range<usize>) -> Vec<usize> {
    let touches = |n: &usize| starts[*n].max(range.start) < starts[n + 1].min(range.end);
    (0..starts.len() - 1).filter(touches).collect()
}

/// The pieces in order, from either end at random.
fn from_both_ends<'a>(mut pieces: Pieces<'a>, random: &mut Random) -> Vec<Piece<'a>> {
    let (mut front, mut back) = (Vec::new(), Vec::new());
    for left in (0..pieces.len()).rev() {
        match random.below(2) {
            0 => front.extend(pieces.next()),
            _ => back.extend(pieces.next_back()),
        }
        assert_eq!(pieces.len(), left);
    }
    assert_eq!((pieces.next_back(), pieces.next()), (None, None));
    front.extend(back.into_iter().rev());
    front
}

/// Checks offsets and ranges of a text: those near `place`, and some anywhere.
macro_rules! check {
    ($lexed:expr, $starts:expr, $random:expr, $place:expr) => {{
        let (lexed, starts) = (&$lexed, $starts);
        let end = lexed.text().len() + 3;
        let first = $place - $place.min(3);
        let offsets = (first..first + 6).chain((0..6).map(|_| $random.below(end)));
        for offset in offsets.chain([usize::MAX]) {
            let found = found(&starts, offset);
            assert_eq!(lexed.token_start_at(offset), found, "{offset} in {lexed:?}");
            let wanted = found.and_then(|at| lexed.pieces().nth(at.index));
            assert_eq!(lexed.piece_at(offset), wanted, "{offset} in {lexed:?}");
        }
        for _ in 0..4 {
            let range = $random.below(end)..$random.below(end);
            let numbers = touched(&starts, &range);
            let first = numbers.first().copied().unwrap_or(0);
            let wanted = lexed.pieces_by_index(first..first + numbers.len());
            let pieces = lexed.pieces_in_bytes(range.clone());
            let mixed = from_both_ends(pieces.clone(), &mut $random);
            assert!(pieces.eq(wanted.clone()), "{range:?} in {lexed:?}");
            assert!(wanted.eq(mixed), "{range:?} in {lexed:?}");
        }
        let mixed = from_both_ends(lexed.pieces(), &mut $random);
        assert!(lexed.pieces().eq(mixed.iter().copied()), "{lexed:?}");
        assert!(
            lexed.pieces().rev().eq(mixed.into_iter().rev()),
            "{lexed:?}"
        );
    }};
}

/// Thirteen offsets and four ranges after each of five hundred edits, or the number in the variable EDITS.
#[test]
fn offsets_after_random_edits() {
    let asked = std::env::var("EDITS").map(|count| count.parse());
    let count: usize = asked.map_or(500, |count| count.expect("EDITS is a number"));
    let mut random = Random(7, BITS);
    let mut text = LexedText::new(random.text(200));
    let mut document = LexedDocument::new(text.text());
    for _ in 0..count {
        let range = random.range_in(text.text(), text.text().len(), 8);
        let most = if text.text().len() < 400 { 20 } else { 2 };
        let insert = random.text(most);
        text.edit(range.clone(), &insert);
        document.edit(range.clone(), &insert);
        check!(text, starts(text.tokens(), 0), random, range.start);
        let starts = starts(document.tokens(), document.tokens_start());
        check!(document, starts, random, range.start);
    }
}

#[test]
fn offsets_in_a_long_text() {
    let mut random = Random(8, BITS);
    let mut text = LexedText::new("fn add(left: u32) -> u32 { left } // é\n".repeat(2000));
    for _ in 0..20 {
        let range = random.range_in(text.text(), text.text().len(), 8);
        text.edit(range.clone(), "x + /* */");
        check!(text, starts(text.tokens(), 0), random, range.start);
    }
    let all = text.pieces_in_bytes(0..usize::MAX);
    assert!(all.eq(text.pieces()));
}

/// At a token boundary it is the token that starts there.
#[test]
fn offsets_of_a_text() {
    let text = LexedText::new("let é = 1;");
    for (offset, wanted) in [
        (0, Some((0, 0))),
        (2, Some((0, 0))),
        (3, Some((1, 3))),
        (4, Some((2, 4))),
        (5, Some((2, 4))),
        (6, Some((3, 6))),
        (10, Some((7, 10))),
        (11, None),
        (usize::MAX, None),
    ] {
        let found = text.token_start_at(offset).map(|at| (at.index, at.offset));
        assert_eq!(found, wanted, "{offset}");
    }
    assert_eq!(LexedText::new("").token_start_at(0), None);
}

#[test]
fn offsets_of_a_document() {
    let document = LexedDocument::new("#!/bin/sh\n---\na\n---\nfn");
    for (offset, wanted) in [
        (0, None),
        (8, None),
        (9, Some((0, 9))),
        (10, Some((1, 10))),
        (18, Some((1, 10))),
        (19, Some((2, 19))),
        (21, Some((3, 20))),
        (22, None),
    ] {
        let found = document
            .token_start_at(offset)
            .map(|at| (at.index, at.offset));
        assert_eq!(found, wanted, "{offset}");
    }
    assert_eq!(LexedDocument::new("#!a").token_start_at(1), None);
}

#[test]
#[allow(clippy::reversed_empty_ranges)]
fn pieces_in_a_range() {
    let text = LexedText::new("ab + cd;");
    let document = LexedDocument::new("#!a\nb c");
    let rows: [(Range<usize>, &[&str]); 9] = [
        (0..0, &[]),
        (1..1, &[]),
        (0..1, &["ab"]),
        (0..2, &["ab"]),
        (1..3, &["ab", " "]),
        (3..6, &["+", " ", "cd"]),
        (6..99, &["cd", ";"]),
        (8..9, &[]),
        (6..2, &[]),
    ];
    for (range, wanted) in rows {
        let pieces = text.pieces_in_bytes(range.clone()).map(|piece| piece.text);
        assert!(pieces.eq(wanted.iter().copied()), "{range:?}");
    }
    for (range, wanted) in [
        (0..3, vec![]),
        (0..4, vec![(3, "\n")]),
        (2..5, vec![(3, "\n"), (4, "b")]),
        (6..usize::MAX, vec![(6, "c")]),
        (7..8, vec![]),
    ] {
        let pieces = document.pieces_in_bytes(range.clone());
        let pieces: Vec<_> = pieces.map(|piece| (piece.start, piece.text)).collect();
        assert_eq!(pieces, wanted, "{range:?}");
    }
}

/// The offsets and texts of pieces, whose length is exact and which are fused. From the back they are the same.
fn told(mut pieces: Pieces<'_>) -> Vec<(u32, &str)> {
    let count = pieces.len();
    assert_eq!(pieces.size_hint(), (count, Some(count)));
    let back = pieces.clone().rev();
    let mut back: Vec<_> = back.map(|piece| (piece.start, piece.text)).collect();
    back.reverse();
    let mut told = Vec::new();
    for piece in pieces.by_ref() {
        assert_eq!(piece.token.len as usize, piece.text.len());
        told.push((piece.start, piece.text));
    }
    assert_eq!((told.len(), pieces.next()), (count, None));
    assert_eq!(told, back);
    told
}

/// All pieces, pieces by index, pieces in a byte range, and the token at an offset, with hand-written results.
#[test]
fn pieces_by_hand() {
    let text = LexedText::new("a 😀 é");
    let all = [(0, "a"), (1, " "), (2, "😀"), (6, " "), (7, "é")];
    assert_eq!(told(text.pieces()), all);
    for (range, wanted) in [(1..3, 1..3), (6..99, 3..5), (2..2, 2..2)] {
        assert_eq!(told(text.pieces_in_bytes(range)), all[wanted]);
    }
    let bound = |index, offset| Some(TokenStart { index, offset });
    for (offset, number, start) in [(0, 0, 0), (1, 1, 1), (5, 2, 2), (6, 3, 6), (8, 4, 7)] {
        assert_eq!(
            text.token_start_at(offset),
            bound(number, start),
            "{offset}"
        );
        let piece = text.piece_at(offset).unwrap();
        assert_eq!((piece.start, piece.text), all[number], "{offset}");
        assert_eq!(piece.token, text.tokens()[number]);
    }
    assert_eq!((text.token_start_at(9), text.piece_at(9)), (None, None));
    let document = LexedDocument::new("#!a\n---\nb\n---\nfn");
    let all = [(3, "\n"), (4, "---\nb\n---"), (13, "\n"), (14, "fn")];
    assert_eq!(told(document.pieces()), all);
    for range in [0..0, 0..2, 1..3, 3..4, 4..4] {
        assert_eq!(told(document.pieces_by_index(range.clone())), all[range]);
    }
    assert_eq!(told(document.pieces_in_bytes(0..5)), all[..2]);
    assert_eq!(told(document.pieces_in_bytes(14..99)), all[3..]);
    let found = [2, 3].map(|offset| document.token_start_at(offset));
    assert_eq!(found, [None, bound(0, 3)]);
    let found = [2, 3, 12, 15, 16].map(|offset| document.piece_at(offset));
    let found = found.map(|piece| piece.map(|piece| (piece.start, piece.text)));
    assert_eq!(
        found,
        [None, Some(all[0]), Some(all[1]), Some(all[3]), None]
    );
}

/// Pieces at the end of a text of 2000 tokens, four in each 8 bytes: none, the last one, and the tokens that an edit
/// lexes and moves. After a frontmatter they are two tokens and 8 bytes later.
#[test]
fn pieces_at_the_end_of_a_long_text() {
    macro_rules! rows {
        ($Kept:ident, $front:literal, $tokens:literal, $bytes:literal) => {
            let mut lexed = $Kept::new([$front, &"abé 12 ".repeat(500)].concat());
            let check = |lexed: &$Kept, from: usize, wanted: &[(u32, &str)]| {
                let from = from + $tokens;
                let wanted = wanted.iter().map(|&(start, text)| (start + $bytes, text));
                let pieces = told(lexed.pieces_by_index(from..from + wanted.len()));
                assert!(wanted.eq(pieces.iter().copied()), "{pieces:?}");
            };
            check(&lexed, 1501, &[(3004, " "), (3005, "12"), (3007, " ")]);
            check(&lexed, 1501, &[]);
            check(&lexed, 2000, &[]);
            check(&lexed, 1999, &[(3999, " ")]);
            let range = 3000 + $bytes..3004 + $bytes;
            assert!(lexed.accepts(range.clone(), "x-y"));
            lexed.edit(range, "x-y");
            check(&lexed, 1498, &[(2997, "12"), (2999, " "), (3000, "x")]);
            check(&lexed, 1501, &[(3001, "-"), (3002, "y")]);
            check(&lexed, 1904, &[(3804, "12")]);
        };
    }
    rows!(LexedText, "", 0, 0);
    rows!(LexedDocument, "---\n---\n", 2, 8);
}
