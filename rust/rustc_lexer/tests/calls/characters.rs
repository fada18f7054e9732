//! Classes of characters, and the calls that test an identifier or a prefix.

use rustc_lexer::{
    UNICODE_VERSION, generated, is_horizontal_whitespace, is_id_continue, is_id_start, is_ident,
    is_whitespace, starts_raw, validate_raw_str,
};

/// Every character: whitespace as the Reference lists it, identifiers by the tables of this build.
#[test]
fn classes_of_characters() {
    let spaces = "\t\n\u{b}\u{c}\r \u{85}\u{200e}\u{200f}\u{2028}\u{2029}";
    for c in '\0'..=char::MAX {
        assert_eq!(is_whitespace(c), spaces.contains(c), "{c:?}");
        assert_eq!(is_horizontal_whitespace(c), "\t ".contains(c), "{c:?}");
        let start = c == '_' || unicode_ident::is_xid_start(c);
        assert_eq!(is_id_start(c), start, "{c:?}");
        let continues = unicode_ident::is_xid_continue(c);
        assert_eq!(is_id_continue(c), continues, "{c:?}");
    }
    assert_eq!(UNICODE_VERSION, unicode_ident::UNICODE_VERSION);
    // The version of the proved source's tables, which this build does not contain.
    assert_eq!(generated::UNICODE_VERSION, (18, 0, 0));
    let none = "-'😀\0\u{8}\u{e}\u{a0}\u{2027}\u{202a}\u{feff}";
    for (text, is) in [
        ("\t ", [true, true, false, false]),
        ("\n\u{b}\u{c}\r\u{85}", [true, false, false, false]),
        ("\u{200e}\u{200f}", [true, false, false, false]),
        ("\u{2028}\u{2029}", [true, false, false, false]),
        ("_aZé\u{2139}", [false, false, true, true]),
        ("0\u{200c}\u{200d}", [false, false, false, true]),
        ("\u{30fb}\u{ff65}", [false, false, false, true]),
        (none, [false; 4]),
    ] {
        for c in text.chars() {
            let spaces = [is_whitespace(c), is_horizontal_whitespace(c)];
            let words = [is_id_start(c), is_id_continue(c)];
            assert_eq!([spaces, words].as_flattened(), is, "{c:?}");
        }
    }
}

#[test]
#[rustfmt::skip]
fn identifiers() {
    for text in ["_", "a1", "é", "fn", "while", "\u{2139}", "a\u{b7}", "a\u{200d}"] {
        assert!(is_ident(text), "{text:?}");
    }
    for text in ["", "1a", "\u{b7}a", "a😀", "😀", "a b", "a ", " a", "r#a", "\u{200d}a", "a\0"] {
        assert!(!is_ident(text), "{text:?}");
    }
}

/// Texts with the prefix lengths of a raw string, and with other lengths.
#[test]
fn prefixes_of_raw_strings() {
    for (text, with, without) in [
        ("", &[][..], &[0, 1][..]),
        ("r", &[1], &[0, 2, 257, 65_537, u32::MAX]),
        ("R", &[], &[1]),
        ("rr", &[1, 2], &[]),
        ("br", &[2], &[1, 3]),
        ("br\"a\"", &[2], &[1]),
        ("ér", &[2], &[1, 3]),
        ("r\"", &[1], &[]),
    ] {
        let starts = |len: &u32| starts_raw(text, *len);
        assert!(with.iter().all(starts), "{text:?}");
        assert!(!without.iter().any(starts), "{text:?}");
    }
}

#[test]
#[should_panic(expected = "character number `prefix_len`, from 1, is not `r`")]
fn not_a_raw_string() {
    let _ = validate_raw_str("b\"a\"", 2);
}
