//! Long texts, tokens of every length, and the offset up to which tokens are final.

use crate::{guarded, token};
use rustc_lexer::{
    Cursor, Edition, FrontmatterAllowed, RawStrError, Token, TokenKind, is_ident, settled,
    settled_in, strip_shebang, tokenize, validate_raw_str,
};

/// A call that reads only the start of a long text is far faster than lexing it.
#[test]
fn only_the_start_of_a_text_is_read() {
    let rest = " b".repeat(1 << 22);
    let start = std::time::Instant::now();
    assert_eq!(tokenize(&rest, FrontmatterAllowed::No).count(), 1 << 23);
    let whole = start.elapsed();
    let text = format!("#\"a\"#{rest}");
    let raw = format!("r\"a\"{rest}");
    let script = format!("#!a\n{rest}");
    let start = std::time::Instant::now();
    for _ in 0..1_000 {
        let mut cursor = Cursor::new(&text, FrontmatterAllowed::No);
        assert_eq!(cursor.guarded_double_quoted_string(), guarded(1, true, 5));
        assert_eq!(validate_raw_str(&raw, 1), Ok(()));
        assert_eq!(strip_shebang(&script), Some(3));
        assert!(tokenize(&rest, FrontmatterAllowed::No).next().is_some());
        assert_eq!(tokenize(&rest, FrontmatterAllowed::No).size_hint().0, 1);
    }
    let short = start.elapsed();
    assert!(short < whole, "{short:?} for 5000 reads, {whole:?} for all");
}

/// Each offset is the end of the last token that two characters follow.
#[test]
fn settled_offsets() {
    for (text, end) in [
        ("ab cd ef", 6),
        ("a 😀 é", 6),
        ("k# ", 1),
        ("k#", 0),
        ("1. ", 0),
        ("'a# ", 2),
        ("---\n", 2),
        ("", 0),
    ] {
        assert_eq!(settled(text), end, "{text:?}");
    }
    let of_editions = Edition::ALL
        .iter()
        .map(|&edition| settled_in("##a", edition));
    assert!(of_editions.eq([1, 1, 1, 0]));
}

#[test]
fn more_tokens_than_a_batch() {
    let text = "a ".repeat(1000);
    let tokens: Vec<Token> = tokenize(&text, FrontmatterAllowed::No).collect();
    assert_eq!(tokens.len(), 2000);
    assert!(tokens.iter().all(|token| token.len == 1));
    let mut buffer = vec![tokens[1]; 2001];
    let count = tokenize(&text, FrontmatterAllowed::No).fill(&mut buffer);
    assert_eq!((count, &buffer[..count]), (2000, &*tokens));
}

/// One call fills the whole buffer: fewer tokens mean that none is left.
#[test]
fn many_tokens_at_once() {
    let text = ";".repeat(70_000);
    let wanted = vec![token(TokenKind::Semi, 1); 70_000];
    for room in [70_000, 100_000] {
        let mut buffer = vec![token(TokenKind::Eof, 0); room];
        let mut tokens = tokenize(&text, FrontmatterAllowed::No);
        assert_eq!((tokens.fill(&mut buffer), tokens.as_str()), (70_000, ""));
        assert_eq!(tokens.fill(&mut buffer), 0, "after the last token");
        assert!(buffer[..70_000] == wanted, "in a room for {room}");
    }
    let tokens = tokenize(&text, FrontmatterAllowed::No);
    assert!(tokens.size_hint().1 >= Some(70_000) && tokens.eq(wanted.iter().copied()));
    // Two characters follow.
    assert_eq!(settled(&text), 69_998);
    assert_eq!(strip_shebang(&["#!", &text].concat()), Some(70_002));
    #[cfg(feature = "alloc")]
    {
        use rustc_lexer::{Edit, LexedDocument, LexedText, Steps};
        assert!(tokenize(&text, FrontmatterAllowed::No).into_vec() == wanted);
        let lexed = LexedText::new(&text);
        assert!(lexed.tokens() == wanted && lexed.pieces_by_index(0..70_000).count() == 70_000);
        let edit = Edit {
            start: 1,
            stop: 1,
            insert: &text[2..],
        };
        let mut lexed = LexedDocument::try_with(";;", Steps::new()).unwrap();
        let relexed = lexed.edit_sequence(&[edit]).unwrap();
        assert!(
            lexed.tokens() == wanted
                && lexed.pieces_by_index(relexed.changed_tokens()).len() > 69_990
        );
        assert_eq!(lexed.pieces_in_bytes(0..70_000).count(), 70_000);
    }
}

/// An identifier and a string of 70,000 bytes.
#[test]
fn long_tokens() {
    let word = "a".repeat(70_000);
    assert!(is_ident(&word));
    let text = format!("#\"{word}\"#");
    let mut cursor = Cursor::new(&text, FrontmatterAllowed::No);
    let string = cursor.guarded_double_quoted_string();
    assert_eq!(string, guarded(1, true, 70_004));
    assert_eq!(validate_raw_str(&["r", &text].concat(), 1), Ok(()));
}

#[test]
fn too_many_hashes() {
    let text = format!("r{0}\"abc\"{0}", "#".repeat(256));
    let error = RawStrError::TooManyDelimiters { found: 256 };
    assert_eq!(validate_raw_str(&text, 1), Err(error));
}

/// Tokens of every length up to a few SIMD blocks, at the end of the text and before another token.
#[test]
fn tokens_of_every_length() {
    for (front, run, stop) in [
        ("a", "b", "+"),
        (" ", " ", "a"),
        ("\n", "\t", "é"),
        ("1", "2", ";"),
        ("//", "c", "\n"),
        ("_", "_", "\u{2028}"),
        ("'a", "b", " "),
        ("0x", "f", ")"),
    ] {
        for times in 1..200 {
            let token = format!("{front}{}", run.repeat(times));
            for text in [token.clone(), format!("{token}{stop}{token}")] {
                let first = tokenize(&text, FrontmatterAllowed::No).next().unwrap();
                assert_eq!(first.len as usize, token.len(), "in {text:?}");
                let mut buffer = [self::token(TokenKind::Eof, 0)];
                tokenize(&text, FrontmatterAllowed::No).fill(&mut buffer);
                assert_eq!(buffer, [first], "in {text:?}");
            }
        }
    }
}
