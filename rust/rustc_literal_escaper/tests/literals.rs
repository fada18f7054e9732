//! The values and errors of literals, with test cases from the Rust Reference and from the tests of
//! `rustc_literal_escaper`.

use core::num::NonZero;
use rustc_literal_escaper::EscapeError::*;
use rustc_literal_escaper::generated::{Elements, EscapeErrors};
use rustc_literal_escaper::{
    EscapeError, MixedUnit, Mode, check_for_errors, check_raw_byte_str, check_raw_c_str,
    check_raw_str, unescape_byte, unescape_byte_str, unescape_c_str, unescape_char, unescape_str,
};
use std::collections::HashSet;
use std::ops::Range;

type Units<T> = Vec<(Range<usize>, Result<T, EscapeError>)>;

macro_rules! units {
    ($call:ident, $text:expr) => {{
        let mut units = Vec::new();
        $call($text, |range, unit| units.push((range, unit)));
        units
    }};
}

/// Returns the errors that the callback receives. The iterator returns the same errors and is fused.
fn errors(text: &str, mode: Mode) -> Vec<(Range<usize>, EscapeError)> {
    let mut errors = Vec::new();
    check_for_errors(text, mode, |range, error| errors.push((range, error)));
    let mut escape_errors = EscapeErrors::new(text, mode);
    assert!(
        escape_errors.by_ref().eq(errors.iter().cloned()),
        "in {text:?}"
    );
    assert_eq!(escape_errors.next(), None, "in {text:?}");
    errors
}

/// The errors of a string are the errors of its units, in texts of up to four of these pieces.
#[test]
fn errors_of_units() {
    let pieces = [
        "a", "é", "\\", "\n", "\r", " ", "\u{a0}", "\"", "n", "xff", "u{e9}", "0", "\0",
    ];
    macro_rules! same {
        ($text:expr; $($mode:ident $call:ident),*) => {
            $(
                let told = units!($call, $text).into_iter();
                let told: Vec<_> = told.filter_map(|(range, unit)| Some((range, unit.err()?))).collect();
                assert_eq!(errors($text, Mode::$mode), told, "in {:?}", $text);
            )*
        };
    }
    let mut texts = vec![String::new()];
    for _ in 0..4 {
        let longer = |text: &String| pieces.map(|piece| text.clone() + piece);
        let longer = texts.iter().flat_map(longer);
        texts = [String::new()].into_iter().chain(longer).collect();
    }
    for text in &texts {
        same!(text; Str unescape_str, ByteStr unescape_byte_str, CStr unescape_c_str);
        same!(text; RawStr check_raw_str, RawByteStr check_raw_byte_str, RawCStr check_raw_c_str);
    }
}

/// A bare CR is reported in each kind of string, after texts of many lengths.
#[test]
fn a_bare_cr_anywhere() {
    for front in ["", "a", "é", "\\n", "\\né", "é\\n", "é\\\"ü"] {
        for (times, back) in [(1, ""), (1, "é"), (7, "b"), (40, "\u{80}")] {
            let front = front.repeat(times);
            let (text, range) = (format!("{front}\r{back}"), front.len()..front.len() + 1);
            for mode in [Mode::Str, Mode::CStr] {
                assert_eq!(errors(&text, mode), [(range.clone(), BareCarriageReturn)]);
            }
            for mode in [Mode::RawStr, Mode::RawCStr] {
                let raw = [(range.clone(), BareCarriageReturnInRawString)];
                assert_eq!(errors(&text, mode), raw);
            }
        }
    }
}

/// Errors that are close together, and errors that are far apart after them. Each is reported with its range.
#[test]
fn many_errors() {
    for times in [1, 30, 85, 86, 600] {
        let text = "\ré".repeat(times) + &"b".repeat(40) + "\r";
        let places = (0..times).map(|at| 3 * at).chain([3 * times + 40]);
        let all = |error: EscapeError| places.clone().map(move |at| (at..at + 1, error));
        for mode in [Mode::Str, Mode::CStr] {
            assert!(errors(&text, mode).into_iter().eq(all(BareCarriageReturn)));
        }
        for mode in [Mode::RawStr, Mode::RawCStr] {
            let raw = all(BareCarriageReturnInRawString);
            assert!(errors(&text, mode).into_iter().eq(raw), "{times} times");
        }
    }
}

/// Errors after runs of simple characters: at the start of a literal, after an escape, and after another error.
#[test]
fn errors_after_simple_characters() {
    for len in (0..70).chain([1000]) {
        let run = "a".repeat(len);
        let text = format!("{run}\\n{run}\\q{run}\r{run}");
        let (escape, cr) = (2 * len + 2, 3 * len + 4);
        let want = [
            (escape..escape + 2, InvalidEscape),
            (cr..cr + 1, BareCarriageReturn),
        ];
        for mode in [Mode::Str, Mode::ByteStr, Mode::CStr] {
            assert_eq!(errors(&text, mode), want, "{mode:?} {len}");
        }
        for (stop, mode, error) in [
            ("\r", Mode::RawStr, BareCarriageReturnInRawString),
            ("\r", Mode::RawByteStr, BareCarriageReturnInRawString),
            ("\r", Mode::RawCStr, BareCarriageReturnInRawString),
            ("\0", Mode::RawCStr, NulInCStr),
            ("é", Mode::RawByteStr, NonAsciiCharInByte),
        ] {
            let text = format!("{run}{stop}{run}");
            let want = [(len..len + stop.len(), error)];
            assert_eq!(errors(&text, mode), want, "{stop:?} {mode:?} {len}");
        }
        for (valid, mode) in [
            ("\0", Mode::RawStr),
            ("é", Mode::RawStr),
            ("\x0e", Mode::RawCStr),
            ("\x7f", Mode::RawByteStr),
        ] {
            assert_eq!(errors(&format!("{run}{valid}{run}"), mode), []);
        }
    }
}

/// Errors between single quotes, and the ends of their ranges.
#[test]
fn characters() {
    for (text, end, want) in [
        ("", 0, ZeroChars),
        ("\\", 1, LoneSlash),
        ("\n", 1, EscapeOnlyChar),
        ("\t", 1, EscapeOnlyChar),
        ("'", 1, EscapeOnlyChar),
        ("\r", 1, BareCarriageReturn),
        ("spam", 2, MoreThanOneChar),
        ("an", 2, MoreThanOneChar),
        ("é●", 5, MoreThanOneChar),
        (r"\x0ff", 5, MoreThanOneChar),
        (r"\u{0}x", 6, MoreThanOneChar),
        ("\\\n", 2, InvalidEscape),
        (r"\v", 2, InvalidEscape),
        (r"\X41", 2, InvalidEscape),
        (r"\U{41}", 2, InvalidEscape),
        (r"\●a", 4, InvalidEscape),
        ("\\\r", 2, InvalidEscape),
        (r"\xf", 3, TooShortHexEscape),
        (r"\xx", 3, InvalidCharInHexEscape),
        (r"\x80", 4, OutOfRangeHexEscape),
        (r"\u", 2, NoBraceInUnicodeEscape),
        (r"\u{0x}", 5, InvalidCharInUnicodeEscape),
        (r"\u{0-0}", 5, InvalidCharInUnicodeEscape),
        (r"\u{41x", 6, InvalidCharInUnicodeEscape),
        (r"\u{0", 4, UnclosedUnicodeEscape),
        (r"\u{}", 4, EmptyUnicodeEscape),
        (r"\u{_0}", 4, LeadingUnderscoreUnicodeEscape),
        (r"\u{0000000}", 11, OverlongUnicodeEscape),
        (r"\u{110000}", 10, OutOfRangeUnicodeEscape),
        (r"\u{D800}", 8, LoneSurrogateUnicodeEscape),
    ] {
        assert_eq!(unescape_char(text), Err(want), "in {text:?}");
        assert_eq!(errors(text, Mode::Char), [(0..end, want)], "in {text:?}");
    }
}

/// Errors between single quotes, in characters and in bytes.
#[rustfmt::skip]
const WRONG_IN_BOTH: [(EscapeError, &[&str]); 14] = [
    (ZeroChars, &[""]),
    (LoneSlash, &["\\"]),
    (EscapeOnlyChar, &["\n", "\t", "'"]),
    (BareCarriageReturn, &["\r"]),
    (MoreThanOneChar, &["spam", "ab", r"\x0ff", "\\\"a", r"\na", r"\ra", r"\ta", r"\\a", r"\'a", r"\0a"]),
    (InvalidEscape, &[r"\v", r"\💩", r"\●", "\\\r"]),
    (TooShortHexEscape, &[r"\x", r"\x0", r"\xf", r"\xa"]),
    (InvalidCharInHexEscape, &[r"\xx", r"\xы", r"\x🦀", r"\xtt"]),
    (NoBraceInUnicodeEscape, &[r"\u", r"\u[0123]"]),
    (InvalidCharInUnicodeEscape, &[r"\u{0x}"]),
    (UnclosedUnicodeEscape, &[r"\u{", r"\u{0000"]),
    (EmptyUnicodeEscape, &[r"\u{}"]),
    (LeadingUnderscoreUnicodeEscape, &[r"\u{_0000}"]),
    (OverlongUnicodeEscape, &[r"\u{0000000}"]),
];

type Literal<'a> = (
    Result<char, EscapeError>,
    Result<u8, EscapeError>,
    &'a [&'a str],
);

/// The values of texts between single quotes, as a character and as a byte.
#[rustfmt::skip]
const LITERALS: [Literal<'_>; 22] = [
    (Ok('a'), Ok(b'a'), &["a"]),
    (Ok('ы'), Err(NonAsciiCharInByte), &["ы"]),
    (Ok('é'), Err(NonAsciiCharInByte), &["é"]),
    (Ok('🦀'), Err(NonAsciiCharInByte), &["🦀"]),
    (Ok('"'), Ok(b'"'), &["\"", "\\\""]),
    (Ok('\n'), Ok(b'\n'), &[r"\n"]),
    (Ok('\r'), Ok(b'\r'), &[r"\r"]),
    (Ok('\t'), Ok(b'\t'), &[r"\t"]),
    (Ok('\\'), Ok(b'\\'), &[r"\\"]),
    (Ok('\''), Ok(b'\''), &[r"\'"]),
    (Ok('\0'), Ok(0), &[r"\0", r"\x00"]),
    (Ok('Z'), Ok(90), &[r"\x5a", r"\x5A"]),
    (Ok('\x7f'), Ok(127), &[r"\x7f"]),
    (Ok('\0'), Err(UnicodeEscapeInByte), &[r"\u{0}", r"\u{000000}"]),
    (Ok('A'), Err(UnicodeEscapeInByte), &[r"\u{41}", r"\u{0041}", r"\u{00_41}", r"\u{4__1__}"]),
    (Ok('😻'), Err(UnicodeEscapeInByte), &[r"\u{1F63b}", r"\u{1_F_6__3_b__}"]),
    (Ok(char::MAX), Err(UnicodeEscapeInByte), &[r"\u{10FFFF}", r"\u{10_ffff}"]),
    (Err(MoreThanOneChar), Err(UnicodeEscapeInByte), &[r"\u{0}x", r"\u{1F63b}}"]),
    (Err(OutOfRangeHexEscape), Ok(255), &[r"\xff", r"\xFF"]),
    (Err(OutOfRangeHexEscape), Ok(128), &[r"\x80"]),
    (Err(OutOfRangeUnicodeEscape), Err(UnicodeEscapeInByte), &[r"\u{FFFFFF}", r"\u{ffffff}", r"\u{110000}"]),
    (Err(LoneSurrogateUnicodeEscape), Err(UnicodeEscapeInByte), &[
        r"\u{DC00}", r"\u{DDDD}", r"\u{DFFF}", r"\u{D800}", r"\u{DAAA}", r"\u{DBFF}",
    ]),
];

/// Checks the value or the error, which the callback receives too.
#[test]
fn characters_and_bytes() {
    let in_both = WRONG_IN_BOTH.map(|(error, texts)| (Err(error), Err(error), texts));
    for (char, byte, texts) in in_both.into_iter().chain(LITERALS) {
        for text in texts {
            assert_eq!(unescape_char(text), char, "in {text:?}");
            assert_eq!(unescape_byte(text), byte, "in {text:?}");
            let told = |mode| errors(text, mode).into_iter().map(|(_, error)| error);
            assert!(told(Mode::Char).eq(char.err()), "in {text:?}");
            assert!(told(Mode::Byte).eq(byte.err()), "in {text:?}");
        }
    }
    assert_eq!(errors("é", Mode::Byte), [(0..2, NonAsciiCharInByte)]);
}

#[test]
fn strings() {
    let none: Units<char> = Vec::new();
    assert_eq!(units!(unescape_str, ""), none);
    let wanted = [
        (0..1, Ok('a')),
        (1..3, Ok('\t')),
        (7..8, Ok('b')),
        (8..9, Err(EscapeOnlyChar)),
        (9..10, Err(BareCarriageReturn)),
    ];
    assert_eq!(units!(unescape_str, "a\\t\\\n  b\"\r"), wanted);
    let wanted = [
        (0..3, Err(MultipleSkippedLinesWarning)),
        (0..5, Err(UnskippedWhitespaceWarning)),
        (3..5, Ok('\u{a0}')),
    ];
    assert_eq!(units!(unescape_str, "\\\n\n\u{a0}"), wanted);
    let wanted = [
        (0..4, Ok(255)),
        (4..6, Err(NonAsciiCharInByte)),
        (6..12, Err(UnicodeEscapeInByte)),
    ];
    assert_eq!(units!(unescape_byte_str, r"\xffé\u{41}"), wanted);
    let wanted = [
        (0..1, Ok('\\')),
        (1..2, Ok('n')),
        (2..3, Err(BareCarriageReturnInRawString)),
    ];
    assert_eq!(units!(check_raw_str, "\\n\r"), wanted);
    let wanted = [(0..1, Ok(b'a')), (1..3, Err(NonAsciiCharInByte))];
    assert_eq!(units!(check_raw_byte_str, "aé"), wanted);
    let wanted = [
        (0..1, Err(BareCarriageReturnInRawString)),
        (1..5, Err(NonAsciiCharInByte)),
        (5..6, Ok(b'a')),
    ];
    assert_eq!(units!(check_raw_byte_str, "\r🦀a"), wanted);
    let wanted = [(1..2, BareCarriageReturnInRawString)];
    assert_eq!(errors("a\r", Mode::RawStr), wanted);
}

/// Characters, and bytes that are not part of a character. U+0000 is an error.
#[test]
fn c_strings() {
    let char = |c| Ok(MixedUnit::Char(NonZero::new(c).unwrap()));
    let wanted = [
        (0..2, char('é')),
        (2..6, Ok(MixedUnit::HighByte(NonZero::new(255).unwrap()))),
        (6..10, char('A')),
        (10..12, Err(NulInCStr)),
    ];
    assert_eq!(units!(unescape_c_str, r"é\xff\x41\0"), wanted);
    let wanted = [
        (0..4, char('A')),
        (4..8, Ok(MixedUnit::HighByte(NonZero::new(0xa5).unwrap()))),
        (8..10, char('¥')),
        (10..12, Err(NulInCStr)),
    ];
    assert_eq!(units!(unescape_c_str, r"\x41\xa5¥\0"), wanted);
    let wanted = [
        (0..2, Ok(NonZero::new('é').unwrap())),
        (2..3, Err(NulInCStr)),
    ];
    assert_eq!(units!(check_raw_c_str, "é\0"), wanted);
    let wanted = [
        (0..1, Ok(NonZero::new('a').unwrap())),
        (1..2, Err(NulInCStr)),
    ];
    assert_eq!(units!(check_raw_c_str, "a\0"), wanted);
    assert_eq!(errors(r"a\0", Mode::CStr), [(1..3, NulInCStr)]);
}

/// The elements of strings, from the callback and from the iterator.
#[test]
fn elements_of_strings() {
    let raw = Err(BareCarriageReturnInRawString);
    let rows: [(&str, bool, &[_]); 6] = [
        ("\\\n", false, &[]),
        ("\\\n ", false, &[]),
        (
            "\\\n \u{a0} x",
            false,
            &[
                (0..5, Err(UnskippedWhitespaceWarning)),
                (3..5, Ok('\u{a0}')),
                (5..6, Ok(' ')),
                (6..7, Ok('x')),
            ],
        ),
        (
            "\\\n  \n  x",
            false,
            &[(0..7, Err(MultipleSkippedLinesWarning)), (7..8, Ok('x'))],
        ),
        ("\rx", true, &[(0..1, raw), (1..2, Ok('x'))]),
        ("\r", true, &[(0..1, raw)]),
    ];
    for (text, is_raw, wanted) in rows {
        let (units, elements) = match is_raw {
            true => (units!(check_raw_str, text), Elements::new_raw(text)),
            false => (units!(unescape_str, text), Elements::new(text)),
        };
        assert_eq!(units, wanted, "in {text:?}");
        let found = elements.map(|(range, element)| (range, element.to_char()));
        assert!(found.eq(units), "in {text:?}");
    }
}

/// The values of a string and of a byte string with the same contents.
#[test]
fn values_of_strings() {
    for (src, text) in [
        ("foo", "foo"),
        ("", ""),
        (" \t\n", " \t\n"),
        ("hello \\\n     world", "hello world"),
        ("hello \\\n\t\r world", "hello world"),
        ("thread's", "thread's"),
    ] {
        let chars = units!(unescape_str, src).into_iter().map(|unit| unit.1);
        assert!(chars.eq(text.chars().map(Ok)), "in {src:?}");
        let bytes = units!(unescape_byte_str, src).into_iter();
        assert!(
            bytes.map(|unit| unit.1).eq(text.bytes().map(Ok)),
            "in {src:?}"
        );
    }
    let wanted = [(1..3, InvalidEscape), (4..14, OutOfRangeUnicodeEscape)];
    assert_eq!(errors(r"a\qb\u{110000}", Mode::Str), wanted);
}

/// Literals with 127 to 129 units, and with 1,000.
#[test]
fn long_strings() {
    for count in [127, 128, 129, 1000] {
        let want = |unit| {
            let units = (0..count).map(|at| (2 * at..2 * at + 2, Ok(unit)));
            units.collect::<Units<char>>()
        };
        assert_eq!(units!(unescape_str, &r"\n".repeat(count)), want('\n'));
        assert_eq!(units!(check_raw_str, &"é".repeat(count)), want('é'));
    }
}

/// Escapes and errors after up to 19 simple characters, and after 70,000.
#[test]
fn simple_characters_around() {
    for before in (0..20).chain([70_000]) {
        let text = |x: &str| "a".repeat(before) + x + &"b".repeat(20);
        let around = |x: &str, unit: Result<char, EscapeError>| {
            let end = before + x.len();
            let mut units: Units<char> = (0..before).map(|at| (at..at + 1, Ok('a'))).collect();
            units.push((before..end, unit));
            units.extend((end..end + 20).map(|at| (at..at + 1, Ok('b'))));
            units
        };
        let same = |x: &str, units: Units<char>, unit| {
            assert!(units == around(x, unit), "{x:?} after {before}");
        };
        let in_raw = Err(BareCarriageReturnInRawString);
        for (x, in_string, in_raw_string) in [
            ("\"", Err(EscapeOnlyChar), Ok('"')),
            ("\r", Err(BareCarriageReturn), in_raw),
            ("\0", Ok('\0'), Ok('\0')),
            ("\x7f", Ok('\x7f'), Ok('\x7f')),
            ("\u{80}", Ok('\u{80}'), Ok('\u{80}')),
            ("●", Ok('●'), Ok('●')),
        ] {
            same(x, units!(unescape_str, &text(x)), in_string);
            same(x, units!(check_raw_str, &text(x)), in_raw_string);
        }
        for x in [r"\n", r"\x0a", r"\u{a}"] {
            same(x, units!(unescape_str, &text(x)), Ok('\n'));
        }
        let wrong = |units: Units<u8>| units.iter().position(|unit| unit.1.is_err());
        assert_eq!(wrong(units!(unescape_byte_str, &text("é"))), Some(before));
        assert_eq!(wrong(units!(check_raw_byte_str, &text("é"))), Some(before));
        let nul = units!(unescape_c_str, &text("\0"));
        assert_eq!(nul[before], (before..before + 1, Err(NulInCStr)));
        let nul = units!(check_raw_c_str, &text("\0"));
        assert_eq!(nul[before], (before..before + 1, Err(NulInCStr)));
    }
}

/// Two warnings that start at the same offset, after many units and after many warnings. Both are reported.
#[test]
fn warnings_of_long_strings() {
    for before in 0..100 {
        let at = 2 * before;
        let text = r"\n".repeat(before) + "\\\n\n\u{a0}" + &"b".repeat(200);
        let mut want: Units<char> = (0..before).map(|n| (2 * n..2 * n + 2, Ok('\n'))).collect();
        want.push((at..at + 3, Err(MultipleSkippedLinesWarning)));
        want.push((at..at + 5, Err(UnskippedWhitespaceWarning)));
        want.push((at + 3..at + 5, Ok('\u{a0}')));
        want.extend((at + 5..at + 205).map(|at| (at..at + 1, Ok('b'))));
        assert_eq!(units!(unescape_str, &text), want, "after {before}");
    }
    for before in 0..2 {
        let text = r"\q".repeat(before) + &"\\\n\n\u{a0}".repeat(150);
        let count = errors(&text, Mode::Str).len();
        assert_eq!(count, before + 300, "after {before}");
    }
}

#[test]
fn modes_and_units() {
    assert!(!Mode::Byte.in_double_quotes() && Mode::RawCStr.in_double_quotes());
    assert!(!Mode::Char.in_double_quotes());
    let prefixes = [Mode::RawStr, Mode::RawByteStr, Mode::CStr].map(Mode::prefix_noraw);
    assert_eq!(prefixes, ["", "b", "c"]);
    let warnings = [UnskippedWhitespaceWarning, MultipleSkippedLinesWarning];
    assert!(!warnings.iter().any(EscapeError::is_fatal) && NulInCStr.is_fatal());
    assert_eq!(MixedUnit::try_from('\0'), Err(NulInCStr));
    assert_eq!(MixedUnit::try_from(0u8), Err(NulInCStr));
    assert_eq!(MixedUnit::try_from(b'a'), MixedUnit::try_from('a'));
    let byte = MixedUnit::HighByte(NonZero::new(128).unwrap());
    assert_eq!(MixedUnit::try_from(128u8), Ok(byte));
    let twice = (1..=255u8).chain(1..=255).map(MixedUnit::try_from);
    let units: HashSet<MixedUnit> = twice.map(Result::unwrap).collect();
    assert_eq!(units.len(), 255);
    fn is_key<T: Copy + Eq + std::hash::Hash + std::fmt::Debug>() {}
    is_key::<(MixedUnit, Mode, EscapeError)>();
}

/// An error works with `?` and has a message. `rustc_lexer_highlight/tests/messages.rs` covers every message.
#[test]
fn error_messages() {
    fn is_error<T: std::error::Error + Send + Sync + 'static>() {}
    is_error::<EscapeError>();
    for (error, sentence) in [
        (ZeroChars, "empty literal: expected one character"),
        (
            LoneSlash,
            "incomplete escape: missing character after the backslash",
        ),
        (NulInCStr, "NUL in a C string: it would end the string"),
        (
            MultipleSkippedLinesWarning,
            "skipped blank line: an escaped newline skips it too",
        ),
    ] {
        assert_eq!(error.to_string(), sentence);
    }
}
