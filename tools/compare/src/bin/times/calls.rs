//! Single calls of both crates, with `black_box` around arguments and results, and calls on long strings.

use crate::{Sum, Use};
use std::hint::black_box;

/// A name with the input, and a function that makes the call many times, or on a long text.
pub type Call = (&'static str, Use);

/// The number of calls for each item.
const TIMES: u64 = 256;

/// Calls a function for each item, and counts the calls.
#[inline(always)]
fn each<T: Copy, A>(items: &[T], call: impl Fn(T) -> A) -> Sum {
    for _ in 0..TIMES {
        for &item in items {
            black_box(call(black_box(item)));
        }
    }
    Sum::new(TIMES * items.len() as u64, 0)
}

const WORDS: &[&str] = &["fn", "self", "usize", "iter", "as_bytes", "FromIterator"];
const LETTER: &[&str] = &["x", "y"];
const EMPTY: &[&str] = &[""];
const LETTERS: &[char] = &['a', 'q', 'Z', '_', '7'];
const WIDE: &[char] = &['é', 'α', 'ж', '漢', '名', '€'];
const SPACES: &[char] = &[' ', '\n', '\t', 'a', ';', '\u{2028}'];
const LINES: &[&str] = &[
    "    let mut end = start + 1;",
    "impl<'a> Iterator for Lines<'a> {",
    "}",
];
const SHEBANGS: &[&str] = &[
    "#!/bin/sh\n",
    "#![allow(dead_code)]",
    "use std::fmt;",
    "fn main() {}",
];
const GUARDED: &[&str] = &["#\"a guarded string\"# ", "##\"another one\"# "];
const HASHES: &[&str] = &["#[derive(Debug)]", "#![no_std]", "## "];
const RAW: &[&str] = &[
    "r#\"a raw string\"#",
    "r\"one with no hash\"",
    "r##\"one \"# more\"##",
];
const PLAIN: &[&str] = &["a", "q", "Z", "7", "~"];
const ESCAPES: &[&str] = &["\\n", "\\t", "\\\\", "\\0", "\\'"];
const BAD: &[&str] = &["\\q", "\\z"];
const HEX: &[&str] = &["\\x41", "\\x7f", "\\x00"];
const UNICODE: &[&str] = &["\\u{e9}", "\\u{1F63b}", "\\u{10_FFFF}"];
const STRINGS: &[&str] = &[
    "a message",
    "{}\\n",
    "expected {}, found \\\"{}\\\"",
    "",
    "usage: \\t[FILE]\\n",
];
const RAW_STRINGS: &[&str] = &["a message", "^[a-z]+$", "C:\\path\\to", ""];

/// A call for each of the items.
macro_rules! call {
    ($name:literal, $items:ident, $call:expr) => {
        ($name, |_| each($items, $call))
    };
}

/// A call that passes each unit to a closure.
macro_rules! units {
    ($call:ident, $texts:ident $(, $of:literal)?) => {
        (concat!("`", stringify!($call), "`" $(, " of ", $of)?), |_| {
            each($texts, |text| {
                $call(text, |range, unit| {
                    let _ = black_box((range, unit));
                })
            })
        })
    };
}

/// The search for errors in a mode, for each of the items.
macro_rules! errors {
    ($mode:ident, $texts:ident $(, $of:literal)?) => {
        (concat!("`check_for_errors` with `", stringify!($mode), "`" $(, " of ", $of)?), |_| {
            each($texts, |text| {
                check_for_errors(text, Mode::$mode, |range, error| {
                    black_box((range, error));
                })
            })
        })
    };
}

/// The same for a long text.
macro_rules! long {
    ($call:ident) => {
        (concat!("`", stringify!($call), "`"), |text| {
            let mut sum = Sum::default();
            $call(text, |range, unit| {
                sum = sum.add(u64::from(unit.is_ok()), range.end as u32);
            });
            sum.of_bytes(text)
        })
    };
}

/// The search for errors in a long text.
macro_rules! long_errors {
    ($mode:ident) => {
        (
            concat!("`check_for_errors` with `", stringify!($mode), "`"),
            |text| {
                let mut sum = Sum::default();
                check_for_errors(text, Mode::$mode, |range, error| {
                    sum = sum.add(u64::from(error.is_fatal()), range.end as u32);
                });
                sum.of_bytes(text)
            },
        )
    };
}

macro_rules! calls {
    ($module:ident, $lexer:ident, $escaper:ident) => {
        pub mod $module {
            use super::*;
            use $escaper::*;
            use $lexer::{
                Cursor, FrontmatterAllowed, GuardedStr, RawStrError, Token,
                is_horizontal_whitespace, is_id_continue, is_id_start, is_ident, is_whitespace,
                strip_shebang, tokenize, validate_raw_str,
            };

            fn next(text: &str) -> Option<Token> {
                tokenize(text, FrontmatterAllowed::No).next()
            }

            fn next_yes(text: &str) -> Option<Token> {
                tokenize(text, FrontmatterAllowed::Yes).next()
            }

            fn collected(text: &str) -> Vec<Token> {
                tokenize(text, FrontmatterAllowed::No).collect()
            }

            fn guarded(text: &str) -> Option<GuardedStr> {
                Cursor::new(text, FrontmatterAllowed::No).guarded_double_quoted_string()
            }

            fn validated(text: &str) -> Result<(), RawStrError> {
                validate_raw_str(text, 1)
            }

            fn advanced(text: &str) -> Token {
                Cursor::new(text, FrontmatterAllowed::No).advance_token()
            }

            pub const CALLS: &[Call] = &[
                call!("`strip_shebang`", SHEBANGS, strip_shebang),
                call!("`next` of a line", LINES, next),
                call!("`next` of a line with `Yes`", LINES, next_yes),
                call!("`next` of a word", WORDS, next),
                call!("`advance_token` of a line", LINES, advanced),
                call!("`collect` of a word", WORDS, collected),
                call!("`collect` of a line", LINES, collected),
                call!("`guarded_double_quoted_string`", GUARDED, guarded),
                call!("`guarded_double_quoted_string` of hashes", HASHES, guarded),
                call!("`validate_raw_str`", RAW, validated),
                call!("`is_ident` of words", WORDS, is_ident),
                call!("`is_ident` of a letter", LETTER, is_ident),
                call!("`is_whitespace`", SPACES, is_whitespace),
                call!(
                    "`is_horizontal_whitespace`",
                    SPACES,
                    is_horizontal_whitespace
                ),
                call!("`is_id_start` of letters", LETTERS, is_id_start),
                call!("`is_id_start` past ASCII", WIDE, is_id_start),
                call!(
                    "`is_id_start` by a pointer",
                    LETTERS,
                    black_box(is_id_start as fn(char) -> bool)
                ),
                call!("`is_id_continue` of letters", LETTERS, is_id_continue),
                call!("`is_id_continue` past ASCII", WIDE, is_id_continue),
                call!("`unescape_char` of a plain one", PLAIN, unescape_char),
                call!("`unescape_char` of `\\n`", ESCAPES, unescape_char),
                call!("`unescape_char` of `\\x41`", HEX, unescape_char),
                call!("`unescape_char` of `\\u{e9}`", UNICODE, unescape_char),
                call!("`unescape_byte` of a plain one", PLAIN, unescape_byte),
                call!("`unescape_byte` of `\\n`", ESCAPES, unescape_byte),
                call!("`unescape_byte` of `\\x41`", HEX, unescape_byte),
                units!(unescape_str, STRINGS),
                units!(unescape_byte_str, STRINGS),
                units!(unescape_c_str, STRINGS),
                units!(check_raw_str, RAW_STRINGS),
                units!(check_raw_byte_str, RAW_STRINGS),
                units!(check_raw_c_str, RAW_STRINGS),
                errors!(Char, PLAIN, "a plain one"),
                errors!(Char, ESCAPES, "`\\n`"),
                errors!(Char, UNICODE, "`\\u{e9}`"),
                errors!(Byte, PLAIN, "a plain one"),
                errors!(Byte, HEX, "`\\x41`"),
                errors!(Str, STRINGS),
                errors!(ByteStr, STRINGS),
                errors!(CStr, STRINGS),
                errors!(RawStr, RAW_STRINGS),
                errors!(RawByteStr, RAW_STRINGS),
                errors!(RawCStr, RAW_STRINGS),
                call!("`unescape_char` of a wrong escape", BAD, unescape_char),
                call!("`unescape_byte` of a wrong escape", BAD, unescape_byte),
                errors!(Char, BAD, "a wrong escape"),
                errors!(Byte, BAD, "a wrong escape"),
                call!("`unescape_char` of an empty one", EMPTY, unescape_char),
                call!("`unescape_byte` of an empty one", EMPTY, unescape_byte),
                units!(unescape_str, EMPTY, "an empty one"),
                units!(unescape_byte_str, EMPTY, "an empty one"),
                units!(unescape_c_str, EMPTY, "an empty one"),
                units!(check_raw_str, EMPTY, "an empty one"),
                errors!(Str, EMPTY, "an empty one"),
                errors!(RawStr, EMPTY, "an empty one"),
                units!(unescape_str, LETTER, "a letter"),
                units!(unescape_byte_str, LETTER, "a letter"),
                units!(unescape_c_str, LETTER, "a letter"),
                units!(check_raw_str, LETTER, "a letter"),
                errors!(Str, LETTER, "a letter"),
                errors!(RawStr, LETTER, "a letter"),
            ];

            pub const LONG: &[Call] = &[
                long!(unescape_str),
                long!(unescape_byte_str),
                long!(unescape_c_str),
                long!(check_raw_str),
                long!(check_raw_byte_str),
                long!(check_raw_c_str),
                long_errors!(Str),
                long_errors!(ByteStr),
                long_errors!(CStr),
                long_errors!(RawStr),
                long_errors!(RawByteStr),
                long_errors!(RawCStr),
            ];
        }
    };
}

calls!(theirs, original, original_escaper);
calls!(ours, rustc_lexer, rustc_literal_escaper);

/// The contents of literals, for each kind of text.
#[rustfmt::skip]
pub const TEXTS: [(&str, &str); 9] = [
    ("plain", "some words that stand for themselves, and no other. "),
    ("an escape a line", "some words that stand for themselves, and no other.\\n"),
    ("short plain runs", "ab\\ncde\\tf\\\\gh\\x41"),
    ("all escapes", "\\n\\x41\\u{e9}\\\\\\t\\0"),
    ("skipped line ends", "a \\\n        b \\\n    "),
    ("two warnings", "a \\\n\n \u{a0}b"),
    ("lone carriage returns", "ab\rcd\r"),
    ("lines that end in `\\r\\n`", "some words that stand for themselves, and no other.\r\n"),
    ("wide characters", "é漢字a字é名😀 名 "),
];
