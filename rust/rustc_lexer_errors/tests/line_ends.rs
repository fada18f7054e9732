//! Literals in files with CRLF line endings, which rustc reads as newlines. Each test case has the errors and warnings
//! that rustc reports, with their ranges.

use core::ops::Range;
use rustc_lexer_errors::EscapeErrorsInFile;
use rustc_literal_escaper::{EscapeError, EscapeError::*, Mode, Mode::*};

const STRINGS: [Mode; 3] = [Str, ByteStr, CStr];
const RAW_STRINGS: [Mode; 3] = [RawStr, RawByteStr, RawCStr];

fn errors(contents: &str, mode: Mode) -> Vec<(Range<usize>, EscapeError)> {
    EscapeErrorsInFile::new(contents, mode).collect()
}

#[test]
fn strings() {
    for (contents, wanted) in [
        ("a\r\nb", vec![]),
        ("\r\n", vec![]),
        ("a\\\r\n  b", vec![]),
        ("a\\\n  b\r\n", vec![]),
        ("a\\\r\n\r\n  b", vec![(1..8, MultipleSkippedLinesWarning)]),
        ("a\\\r\n \r b", vec![]),
        ("a\\\r\r\nb", vec![(1..3, InvalidEscape)]),
        ("a\r\r\nb", vec![(1..2, BareCarriageReturn)]),
        (
            "a\rb\r\nc\r",
            vec![(1..2, BareCarriageReturn), (6..7, BareCarriageReturn)],
        ),
        ("\\x\r\n", vec![(0..4, InvalidCharInHexEscape)]),
        ("\\x1\r\n", vec![(0..5, InvalidCharInHexEscape)]),
        (
            "\\q\r\n\\q",
            vec![(0..2, InvalidEscape), (4..6, InvalidEscape)],
        ),
    ] {
        for mode in STRINGS {
            assert_eq!(
                errors(contents, mode),
                wanted,
                "of {contents:?} as {mode:?}"
            );
        }
    }
    for (contents, wanted) in [
        ("\\u\r\n", (0..4, NoBraceInUnicodeEscape)),
        ("\\u{\r\n", (0..5, InvalidCharInUnicodeEscape)),
        ("\\u{1\r\n}", (0..6, InvalidCharInUnicodeEscape)),
        ("a\\\r\n \u{a0} b", (1..7, UnskippedWhitespaceWarning)),
        ("\r\n\\u{1234567}", (2..13, OverlongUnicodeEscape)),
        ("\r\n\\u{dead}", (2..10, LoneSurrogateUnicodeEscape)),
    ] {
        assert_eq!(errors(contents, Str), [wanted], "of {contents:?}");
    }
}

#[test]
fn raw_strings() {
    for mode in RAW_STRINGS {
        assert_eq!(errors("a\r\n\\\r\nb", mode), []);
        let wanted = [(1..2, BareCarriageReturnInRawString)];
        assert_eq!(errors("a\r\r\nb\r\n", mode), wanted);
    }
}

#[test]
fn characters_and_bytes() {
    for (contents, wanted) in [
        ("\r\n", (0..2, EscapeOnlyChar)),
        ("(\r\n", (0..3, MoreThanOneChar)),
        // The range ends after the second character.
        ("(\r\n)", (0..3, MoreThanOneChar)),
        ("(\r)", (0..2, MoreThanOneChar)),
        ("ab\r\n", (0..2, MoreThanOneChar)),
        ("\\\r\n", (0..3, InvalidEscape)),
        ("\\x1\r\n", (0..5, InvalidCharInHexEscape)),
        ("\r", (0..1, BareCarriageReturn)),
        ("", (0..0, ZeroChars)),
    ] {
        let wanted = [wanted];
        for mode in [Char, Byte] {
            assert_eq!(
                errors(contents, mode),
                wanted,
                "of {contents:?} as {mode:?}"
            );
        }
    }
    assert_eq!(errors("a", Char), []);
    assert_eq!(errors("\\n", Byte), []);
}
