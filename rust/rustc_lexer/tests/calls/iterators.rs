//! Iterators and cursors: each way to iterate returns the same tokens.

use crate::{lens, token};
use rustc_lexer::{
    Cursor, DocStyle, Edition, FrontmatterAllowed, Token, TokenKind, tokenize, tokenize_as,
    tokenize_document, tokenize_in,
};

/// Short texts with their tokens.
const SHORT: [(&str, &[TokenKind]); 4] = [
    ("", &[]),
    (" ", &[TokenKind::Whitespace]),
    ("/// a", &[LINE]),
    (
        "a,\u{85}",
        &[TokenKind::Ident, TokenKind::Comma, TokenKind::Whitespace],
    ),
];

const LINE: TokenKind = TokenKind::LineComment {
    doc_style: Some(DocStyle::Outer),
};

#[test]
fn all_ways_to_iterate_agree() {
    let long = format!("{}\n// é\n", "let x = 'a' + \"b\"; ".repeat(100));
    let word = ["+", &"a".repeat(100)].concat();
    let texts = SHORT.iter().map(|(text, _)| *text);
    let texts = texts.chain([&long[..], &word]);
    for text in texts {
        let mut by_next = Vec::new();
        let mut tokens = tokenize(text, FrontmatterAllowed::No);
        while let Some(token) = tokens.next() {
            let (least, most) = tokens.size_hint();
            by_next.push((token, least, most.unwrap()));
        }
        assert_eq!((tokens.next(), tokens.size_hint()), (None, (0, Some(0))));
        for (number, (_, least, most)) in by_next.iter().enumerate() {
            let left = by_next.len() - number - 1;
            assert!(*least <= left && left <= *most && (*least > 0) == (left > 0));
        }
        let all: Vec<Token> = by_next.iter().map(|row| row.0).collect();
        for taken in [0, 1, 2, 5, 9, 20, all.len()] {
            let mut tokens = tokenize(text, FrontmatterAllowed::No);
            let mut folded: Vec<Token> = tokens.by_ref().take(taken).collect();
            tokens.for_each(|token| folded.push(token));
            assert_eq!(folded, all);
            let mut tokens = tokenize(text, FrontmatterAllowed::No);
            let _ = tokens.by_ref().take(taken).count();
            let last = tokens.clone().pieces().last().map(|piece| piece.token);
            let wanted = all[taken.min(all.len())..].last().copied();
            assert_eq!((tokens.last(), last), (wanted, wanted), "of {text:?}");
            let mut tokens = tokenize(text, FrontmatterAllowed::No);
            let front = all.iter().copied().take(taken);
            assert!(tokens.by_ref().take(taken).eq(front));
            assert_eq!(tokens.count(), all.len().saturating_sub(taken));
        }
        for taken in 0..=all.len() {
            let mut tokens = tokenize(text, FrontmatterAllowed::No);
            assert!(tokens.by_ref().take(taken).eq(all[..taken].iter().copied()));
            #[cfg(feature = "alloc")]
            {
                let made = tokens.clone().into_vec();
                assert_eq!(made, all[taken..]);
                let most = 2 * made.len() + 32;
                assert!(made.capacity() <= most, "room for the bytes of {text:?}");
            }
            assert_eq!(tokens.collect::<Vec<_>>(), all[taken..]);
        }
        assert!(tokenize_in(text, Edition::E2024).eq(all.iter().copied()));
    }
    for (text, kinds) in SHORT {
        let found = tokenize(text, FrontmatterAllowed::No).map(|token| token.kind);
        assert!(found.eq(kinds.iter().copied()), "{text:?}");
    }
}

/// The remaining text borrows from the text, not from the iterator or cursor.
#[test]
fn the_remaining_text_outlives_its_iterator() {
    fn by_tokens(text: &str) -> &str {
        let mut tokens = tokenize(text, FrontmatterAllowed::No);
        tokens.next();
        tokens.as_str()
    }
    fn by_cursor(text: &str) -> &str {
        let mut cursor = Cursor::new(text, FrontmatterAllowed::No);
        cursor.advance_token();
        cursor.as_str()
    }
    assert_eq!((by_tokens("a b"), by_cursor("a b")), (" b", " b"));
}

/// Offsets, ranges and texts of pieces, after any number of tokens. In a document they start after the shebang line.
#[test]
fn offsets_of_pieces() {
    let text = "#!a\né +b";
    let whole: &[_] = &[
        (3, 4, "\n"),
        (4, 6, "é"),
        (6, 7, " "),
        (7, 8, "+"),
        (8, 9, "b"),
    ];
    let part = [&[(0, 1, "#"), (1, 2, "!"), (2, 3, "a")], whole].concat();
    for (all, wanted) in [
        (tokenize_document(text, Edition::E2021), whole),
        (tokenize_in(text, Edition::E2021), &part),
        (tokenize(text, FrontmatterAllowed::Yes), &part),
    ] {
        for taken in 0..=wanted.len() {
            let mut tokens = all.clone();
            let mut buffer = [token(TokenKind::Eof, 0); 8];
            tokens.fill(&mut buffer[..taken]);
            let starts = wanted.iter().map(|&(start, ..)| start).chain([9]);
            assert_eq!(Some(tokens.offset()), starts.into_iter().nth(taken));
            let mut pieces = tokens.clone().pieces();
            assert_eq!(pieces.size_hint(), tokens.size_hint());
            for (token, &(start, end, text)) in tokens.zip(&wanted[taken..]) {
                let piece = pieces.next().unwrap();
                let told = (piece.start as usize, piece.range(), piece.text);
                assert_eq!((piece.token, told), (token, (start, start..end, text)));
            }
            assert_eq!((pieces.next(), pieces.next()), (None, None));
        }
    }
    assert_eq!(tokenize_document("#!a", Edition::E2024).offset(), 3);
    assert_eq!(tokenize_document("", Edition::E2024).offset(), 0);
}

#[test]
fn first_and_third() {
    let mut cursor = Cursor::new("é-", FrontmatterAllowed::No);
    assert_eq!((cursor.first(), cursor.third()), ('é', '\0'));
    assert_eq!(cursor.advance_token().len, 2);
    assert_eq!((cursor.as_str(), cursor.first()), ("-", '-'));
    assert_eq!(cursor.advance_token().kind, TokenKind::Minus);
    assert_eq!((cursor.as_str(), cursor.first()), ("", '\0'));
    assert_eq!(Cursor::new("abcd", FrontmatterAllowed::No).third(), 'c');
}

/// A clone continues from its creation, independently of the original.
#[test]
fn clones() {
    let mut cursor = Cursor::new("##x y", FrontmatterAllowed::No);
    assert_eq!(cursor.guarded_double_quoted_string(), None);
    let mut second = cursor.clone();
    assert_eq!(cursor.advance_token().len, 3);
    assert_eq!((second.as_str(), second.advance_token().len), ("x y", 3));
    let mut tokens = tokenize_as("\n---\n---\n##", FrontmatterAllowed::Yes, Edition::E2018);
    tokens.next();
    assert_eq!(lens(tokens.clone()), [7, 1, 1, 1]);
    assert_eq!(tokens.next().map(|token| token.len), Some(7));
}

#[test]
fn skipped_tokens() {
    let mut tokens = tokenize("a + bc d", FrontmatterAllowed::No);
    assert_eq!(tokens.nth(2).map(|token| token.kind), Some(TokenKind::Plus));
    assert_eq!(tokens.as_str(), " bc d");
    assert_eq!(tokens.nth(1).map(|token| token.len), Some(2));
    assert_eq!(tokens.as_str(), " d");
    assert_eq!((tokens.nth(2), tokens.as_str()), (None, ""));
}

/// `fill` and `next` return the same tokens of a long text with a frontmatter.
#[test]
fn fill_agrees_with_next() {
    let text = format!("\n---\na = 1\n---\n{}", "let x = 'r#a + \"b\";".repeat(30));
    for &edition in Edition::ALL {
        let start = || tokenize_as(&text, FrontmatterAllowed::Yes, edition);
        let mut tokens = start();
        let stepped: Vec<Token> = std::iter::from_fn(|| tokens.next()).collect();
        assert!(matches!(stepped[1].kind, TokenKind::Frontmatter { .. }));
        for room in [1, 2, 3, 40, 2 * stepped.len()] {
            let (mut tokens, mut filled) = (start(), Vec::new());
            let mut buffer = vec![stepped[0]; room];
            while !tokens.as_str().is_empty() {
                let count = tokens.fill(&mut buffer);
                filled.extend_from_slice(&buffer[..count]);
                let is_done = tokens.as_str().is_empty();
                assert!(count == room || is_done, "{count} where {room} fit");
            }
            assert_eq!(filled, stepped);
        }
        #[cfg(feature = "alloc")]
        assert_eq!(start().into_vec(), stepped);
    }
}

/// Whatever an iterator has cached, each token is the first token that a new cursor finds in the remaining text.
#[test]
fn cached_state_changes_no_token() {
    let line = "let x = 'r#a + b\"c\"; /* d */ fn éa(g: &'h str) { } 0x1f.i()  \u{2028}j // k\n";
    // Each run is longer than a SIMD block.
    let runs = [" ", "l"].map(|run| run.repeat(70)).join("'m'; ");
    let text = format!("n{runs}/{line}").repeat(40);
    for room in 0..5 {
        let mut tokens = tokenize(&text, FrontmatterAllowed::No);
        let mut buffer = vec![tokens.clone().next().unwrap(); room];
        loop {
            let rest = tokens.as_str();
            let mut kept = tokens.clone();
            let Some(token) = tokens.next() else {
                break;
            };
            let alone = Cursor::new(rest, FrontmatterAllowed::No).advance_token();
            let left = rest.len();
            assert_eq!((token, kept.next()), (alone, Some(alone)), "{left} left");
            assert_eq!(tokens.as_str(), &rest[token.len as usize..]);
            if left % 5 < room {
                tokens.fill(&mut buffer);
            }
        }
        assert_eq!(tokens.as_str(), "");
    }
}
