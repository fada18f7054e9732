//! The types: their traits, orders and numbers, and their text in messages and debug output.

use crate::{guarded, token};
use RawStrError::{InvalidStarter, NoTerminator, TooManyDelimiters};
use rustc_lexer::{
    Base, Cursor, DocStyle, Edition, FrontmatterAllowed, GuardedStr, LiteralKind, RawStrError,
    Steps, Token, TokenKind, TokenStart, Tokens, UnknownEdition, incremental, tokenize,
    validate_raw_str,
};

/// Asserts that each value is less than those after it and equal only to itself.
fn ascend<T: Ord + std::fmt::Debug>(values: &[T]) {
    for (at, left) in values.iter().enumerate() {
        for (other, right) in values.iter().enumerate() {
            assert_eq!(left.cmp(right), at.cmp(&other), "{left:?} to {right:?}");
            let is = (left < right, left == right);
            assert_eq!(is, (at < other, at == other), "{left:?} to {right:?}");
        }
    }
}

fn no_terminator(expected: u32, found: u32, offset: Option<u32>) -> RawStrError {
    NoTerminator {
        expected,
        found,
        possible_terminator_offset: offset,
    }
}

/// Values are ordered by variant, then by field, in the order of their declaration.
#[test]
#[rustfmt::skip]
fn orders_and_numbers() {
    use Base::*;
    use LiteralKind::*;
    let bases = [Binary, Octal, Decimal, Hexadecimal];
    assert_eq!(bases.map(|base| base as u32), [2, 8, 10, 16]);
    ascend(&bases);
    ascend(Edition::ALL);
    let bounds = [(0, 0), (0, 1), (1, 0), (2, 9)].map(|(index, offset)| TokenStart { index, offset });
    assert_eq!(bounds[0], TokenStart::default());
    ascend(&bounds);
    ascend(&[
        Int { base: Binary, empty_int: true }, Int { base: Octal, empty_int: false },
        Int { base: Octal, empty_int: true }, Float { base: Binary, empty_exponent: false },
        Float { base: Binary, empty_exponent: true }, Float { base: Decimal, empty_exponent: false },
        Char { terminated: false }, Char { terminated: true }, Byte { terminated: false }, Str { terminated: false },
        ByteStr { terminated: false }, CStr { terminated: false }, RawStr { n_hashes: None },
        RawStr { n_hashes: Some(0) }, RawStr { n_hashes: Some(1) }, RawStr { n_hashes: Some(255) },
        RawByteStr { n_hashes: None }, RawByteStr { n_hashes: Some(1) }, RawCStr { n_hashes: None },
    ]);
    ascend(&[
        guarded(1, false, 9), guarded(1, true, 1), guarded(1, true, 8), guarded(1, true, 9), guarded(2, false, 1),
        guarded(2, false, 3),
    ]);
    ascend(&[
        InvalidStarter { bad_char: 'a' }, InvalidStarter { bad_char: 'z' }, InvalidStarter { bad_char: 'é' },
        no_terminator(0, 0, None), no_terminator(1, 1, None), no_terminator(1, 2, None), no_terminator(1, 9, Some(9)),
        no_terminator(2, 0, None), no_terminator(2, 1, None), no_terminator(2, 1, Some(3)),
        no_terminator(2, 1, Some(4)), no_terminator(9, 9, None), TooManyDelimiters { found: 0 },
        TooManyDelimiters { found: 256 },
    ]);
}

/// The editions in order, by the text and the number of their years.
#[test]
fn years() {
    let years = [
        ("2015", 2015, Edition::E2015),
        ("2018", 2018, Edition::E2018),
        ("2021", 2021, Edition::E2021),
        ("2024", 2024, Edition::E2024),
    ];
    assert_eq!(Edition::ALL, years.map(|row| row.2));
    assert_eq!(Edition::NEWEST, Edition::E2024);
    for (word, year, edition) in years {
        assert_eq!(word.parse(), Ok(edition));
        assert_eq!(Edition::try_from(year), Ok(edition));
        assert_eq!(edition.year(), year);
    }
    for word in ["", "1999", "2016", "02015", "2024 ", "E2024"] {
        assert_eq!(word.parse::<Edition>(), Err(UnknownEdition), "{word:?}");
    }
    for year in [0, 15, 2016, 65535] {
        assert_eq!(Edition::try_from(year), Err(UnknownEdition), "{year}");
    }
}

#[test]
fn error_messages() {
    let hashes = "#".repeat(256);
    let many = format!("r{hashes}\"a\"{hashes}");
    for (text, said) in [
        ("r~", "invalid raw string: missing opening quote"),
        ("r#~", "invalid raw string: missing opening quote"),
        ("r##~", "invalid raw string: missing opening quote"),
        ("r\"a", "unterminated raw string: missing closing quote"),
        (
            "r#\"a",
            "unterminated raw string: expected a closing quote and 1 `#`",
        ),
        (
            "r##\"a",
            "unterminated raw string: expected a closing quote and 2 `#`",
        ),
        (
            "r##\"a\"#",
            "unterminated raw string: expected 2 `#` after the closing quote, found 1 at byte 6",
        ),
        (
            many.as_str(),
            "raw string with 256 `#` on each side: at most 255 are allowed",
        ),
    ] {
        let error = validate_raw_str(text, 1).unwrap_err();
        assert_eq!(error.to_string(), said, "{text}");
    }
    let said = UnknownEdition.to_string();
    assert_eq!(said, "no edition of Rust has this year");
}

/// Equal kinds have equal hashes, and different kinds are different elements of a set.
#[test]
fn kinds_in_a_set() {
    let text = "a b 'c' \"d\" 1 0x1 1.0 // \n/// \n/* */ /** */";
    let kinds = || tokenize(text, FrontmatterAllowed::No).map(|token| token.kind);
    let set: std::collections::HashSet<TokenKind> = kinds().collect();
    let list: Vec<TokenKind> = kinds().collect();
    assert!(list.iter().all(|kind| set.contains(kind)));
    let apart = (0..list.len()).filter(|&n| !list[..n].contains(&list[n]));
    // An identifier, whitespace, five literals and four comments.
    assert_eq!((set.len(), apart.count()), (11, 11));
    // Tokens are equal by kind and length.
    let word = token(TokenKind::Ident, 1);
    assert_eq!(word, token(TokenKind::Ident, 1));
    assert_ne!(word, token(TokenKind::Unknown, 1));
    assert_ne!(word, token(TokenKind::Ident, 2));
}

/// Traits that callers rely on. Errors work with `?`, iterators are fused, and every type can be named.
#[test]
fn traits() {
    fn is_error<T: std::error::Error + Send + Sync + Copy + 'static>() {}
    fn stays_at_its_end<T: std::iter::FusedIterator + Clone + std::fmt::Debug>() {}
    #[cfg(feature = "alloc")]
    fn has_two_ends<T: DoubleEndedIterator + ExactSizeIterator>() {}
    fn is_measured<T: incremental::TextLen>() {}
    fn steps<T: rustc_lexer::Stepper + Clone + std::fmt::Debug>() {}
    fn is_key<T: Copy + Eq + std::hash::Hash>() {}
    fn crosses_threads<T: Send + Sync + std::panic::UnwindSafe + std::panic::RefUnwindSafe>() {}
    is_error::<rustc_lexer::AllocError>();
    is_error::<rustc_lexer::UnknownEdition>();
    is_error::<RawStrError>();
    stays_at_its_end::<rustc_lexer::EditionTokens<'_>>();
    stays_at_its_end::<rustc_lexer::TokenPieces<'_>>();
    is_measured::<Token>();
    steps::<Steps>();
    is_key::<(
        incremental::BodyChange,
        incremental::Change,
        incremental::Head,
        incremental::RelexState,
    )>();
    is_key::<(
        TokenStart,
        rustc_lexer::Relexed,
        rustc_lexer::UnknownEdition,
    )>();
    is_key::<rustc_lexer::Piece<'_>>();
    is_key::<(Token, TokenKind, LiteralKind, Base, DocStyle)>();
    is_key::<(GuardedStr, RawStrError, FrontmatterAllowed, Edition)>();
    crosses_threads::<(Tokens<'_>, rustc_lexer::TokenPieces<'_>, Cursor<'_>, Steps)>();
    #[cfg(feature = "alloc")]
    {
        is_error::<rustc_lexer::EditError>();
        is_error::<rustc_lexer::EditStop>();
        is_error::<rustc_lexer::EditSequenceError>();
        is_key::<(rustc_lexer::EditError, rustc_lexer::EditStop)>();
        is_key::<rustc_lexer::EditSequenceError>();
        is_key::<rustc_lexer::Edit<'_>>();
        stays_at_its_end::<rustc_lexer::Pieces<'_>>();
        has_two_ends::<rustc_lexer::Pieces<'_>>();
        crosses_threads::<(rustc_lexer::LexedText, rustc_lexer::LexedDocument)>();
        crosses_threads::<rustc_lexer::Pieces<'_>>();
        fn is_held<T: Clone + Eq + std::fmt::Debug + Default>() {}
        is_held::<(rustc_lexer::LexedText, rustc_lexer::LexedDocument)>();
        fn is_wrapped<T: Clone + Eq + std::hash::Hash + std::fmt::Debug>() {}
        is_wrapped::<rustc_lexer::Checked<u8>>();
        fn is_joined<
            T: Clone + Default + std::fmt::Debug + FromIterator<String> + Extend<String>,
        >() {
        }
        is_joined::<rustc_lexer::JoinedText>();
        crosses_threads::<rustc_lexer::JoinedText>();
    }
}

/// Editions and errors are non-exhaustive.
#[test]
#[deny(unreachable_patterns)]
fn non_exhaustive_enums() {
    use Edition::*;
    match E2024 {
        E2015 | E2018 | E2021 | E2024 => {}
        _ => unreachable!(),
    }
    #[cfg(feature = "alloc")]
    {
        use rustc_lexer::{EditError, EditStop};
        match EditError::Range {
            EditError::Range | EditError::TooLong | EditError::Memory => {}
            _ => unreachable!(),
        }
        match (EditStop::Range { at: 0 }) {
            EditStop::Range { .. } | EditStop::TooLong { .. } | EditStop::Memory { .. } => {}
            _ => unreachable!(),
        }
    }
}

#[test]
fn formatting() {
    assert_eq!(format!("{:?}", FrontmatterAllowed::Yes), "Yes");
    assert_eq!(format!("{:?}", FrontmatterAllowed::No), "No");
    // A width has no effect, as in each derived `Debug` of an enum.
    assert_eq!(format!("{:>9?}", FrontmatterAllowed::No), "No");
    let cursor = Cursor::new("a b", FrontmatterAllowed::No);
    assert_eq!(format!("{cursor:?}"), r#"Cursor("a b")"#);
    let mut tokens = tokenize("a b", FrontmatterAllowed::No);
    tokens.next();
    assert_eq!(format!("{tokens:?}"), r#"Tokens(" b")"#);
    let pieces = tokens.clone().pieces();
    assert_eq!(format!("{pieces:?}"), r#"TokenPieces(" b")"#);
    assert_eq!(format!("{:?}", Steps::new()), "Steps { .. }");
    // Alternate output is indented, as in each derived `Debug`.
    let lines = format!("{cursor:#?} {tokens:#?}");
    assert_eq!(lines, "Cursor(\n    \"a b\",\n) Tokens(\n    \" b\",\n)");
    assert_eq!(format!("{:>6}", Edition::E2021), "  2021");
    for &edition in Edition::ALL {
        let year = edition.to_string();
        assert_eq!(format!("{edition:?}"), format!("E{year}"));
        let number = edition.year();
        assert_eq!(year, number.to_string());
        let told = format!("{edition:6}{edition:<6}{edition:06}");
        assert_eq!(told, format!("{number:6}{number:<6}{number:06}"));
        assert_eq!(year.parse(), Ok(edition));
        assert_eq!(Edition::try_from(edition.year()), Ok(edition));
    }
}
