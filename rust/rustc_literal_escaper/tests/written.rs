//! Escaped texts and bytes: compared with the escapes of `std`, and with allocation failures.
#![cfg(feature = "alloc")]

#[path = "../../rattle_support/tests/refusing/mod.rs"]
mod refusing;

use core::num::NonZero;
use refusing::given;
use rustc_literal_escaper::{
    AllocError, EscapeCStrError, MixedUnit, check_raw_c_str, escape_byte_str, escape_c_str,
    escape_str, unescape_c_str, unescape_str,
};

/// Output is appended: each text after the previous ones, and 70,000 characters and bytes at once.
#[test]
fn escapes_of_std() {
    let mut out = String::new();
    let mut wanted = String::new();
    let many = "é".repeat(70_000);
    for text in [
        "",
        "a\"b'c\\",
        "\n\r\t\0\x7f",
        "é\u{200d}😀",
        "plain text",
        &many,
    ] {
        escape_str(text, &mut out).unwrap();
        wanted.extend(text.escape_default());
        assert!(out == wanted, "{text:.9}");
    }
    let mut units = 0;
    unescape_str(&out[out.len() - 6 * 70_000..], |_, unit| {
        units += usize::from(unit == Ok('é'))
    });
    assert_eq!(units, 70_000);
    let bytes: Vec<u8> = (1..=255).cycle().take(70_000).collect();
    let with_zero = [&[0], &bytes[..]].concat();
    escape_byte_str(&with_zero, &mut out).unwrap();
    wanted += &with_zero.escape_ascii().to_string();
    assert!(out == wanted, "bytes");
    escape_c_str(&bytes, &mut out).unwrap();
    let written = bytes.escape_ascii().to_string();
    assert!(out == wanted + &written, "bytes of a C string");
    let mut units = 0;
    unescape_c_str(&written, |_, unit| units += usize::from(unit.is_ok()));
    check_raw_c_str(&many, |_, unit| units += usize::from(unit.is_ok()));
    assert_eq!(units, 140_000);
}

/// Each output is appended to a text.
#[test]
fn escapes_by_hand() {
    for (text, wanted) in [
        ("", "<"),
        ("a\"b'\\", r#"<a\"b\'\\"#),
        ("\n\r\t", r"<\n\r\t"),
        ("\0é😻", r"<\u{0}\u{e9}\u{1f63b}"),
    ] {
        let mut out = String::from("<");
        escape_str(text, &mut out).unwrap();
        assert_eq!(out, wanted);
    }
    let mut out = String::from("<");
    escape_byte_str(&[0, 7, b'\n', b'"', b'A', 127, 128, 255], &mut out).unwrap();
    assert_eq!(out, r#"<\x00\x07\n\"A\x7f\x80\xff"#);
    let mut out = String::from("<");
    assert_eq!(escape_c_str("é\n".as_bytes(), &mut out), Ok(()));
    assert_eq!(escape_c_str(b"a\0b", &mut out), Err(EscapeCStrError::Nul));
    assert_eq!(out, r"<\xc3\xa9\n");
}

/// A call that returns an error does not change the output.
#[test]
fn errors_write_nothing() {
    let mut out = String::from("front");
    out.shrink_to_fit();
    assert_eq!(escape_c_str(b"a\0b", &mut out), Err(EscapeCStrError::Nul));
    assert_eq!(out, "front");
    let long = "a".repeat(100);
    out.shrink_to_fit();
    assert_eq!(given(0, || escape_str(&long, &mut out)), Err(AllocError));
    let bytes = long.as_bytes();
    let answer = given(0, || escape_byte_str(bytes, &mut out));
    assert_eq!(answer, Err(AllocError));
    let memory = Err(EscapeCStrError::Memory);
    assert_eq!(given(0, || escape_c_str(bytes, &mut out)), memory);
    assert_eq!(out, "front");
    for (error, said) in [
        (
            EscapeCStrError::Nul,
            "NUL in a C string: it would end the string",
        ),
        (EscapeCStrError::Memory, "memory allocation failed"),
    ] {
        let error: Box<dyn std::error::Error + Send + Sync> = error.into();
        assert_eq!(error.to_string(), said);
        assert!(error.source().is_none());
    }
}

/// The capacity that the caller reserved is used and kept.
#[test]
fn reserved_capacity() {
    let mut out = String::with_capacity(1000);
    for _ in 0..10 {
        assert_eq!(given(0, || escape_str("a\n", &mut out)), Ok(()));
        assert_eq!(given(0, || escape_byte_str(b"\xff", &mut out)), Ok(()));
        assert_eq!(given(0, || escape_c_str(b"b", &mut out)), Ok(()));
    }
    assert_eq!(out, r"a\n\xffb".repeat(10));
    assert!(out.capacity() >= 1000);
    // A text without escapes needs only as much space as its bytes.
    let text = "a".repeat(100);
    let mut full = String::with_capacity(300);
    assert_eq!(given(0, || escape_str(&text, &mut full)), Ok(()));
    let bytes = text.as_bytes();
    assert_eq!(given(0, || escape_byte_str(bytes, &mut full)), Ok(()));
    assert_eq!(given(0, || escape_c_str(bytes, &mut full)), Ok(()));
    assert_eq!(full, text.repeat(3));
}

/// A character is one unit, even if it has several bytes. A byte below 128 is a character.
#[test]
fn units_of_c_strings() {
    let char = |c| MixedUnit::Char(NonZero::new(c).unwrap());
    let byte = |byte| MixedUnit::HighByte(NonZero::new(byte).unwrap());
    for c in ['\u{1}', 'A', 'a', '\x7f', '\u{80}', 'é', '\u{ff}', '😀'] {
        assert_eq!(MixedUnit::from(NonZero::new(c).unwrap()), char(c));
        assert_eq!(MixedUnit::try_from(c), Ok(char(c)));
    }
    for n in 1..=255u8 {
        let wanted = if n < 128 { char(n as char) } else { byte(n) };
        assert_eq!(MixedUnit::from(NonZero::new(n).unwrap()), wanted);
        assert_eq!(MixedUnit::try_from(n), Ok(wanted));
    }
    assert_ne!(char('\u{e9}'), byte(0xe9), "two bytes, and one");
    let bytes = |unit| match unit {
        MixedUnit::Char(c) => c.get().to_string().into_bytes(),
        MixedUnit::HighByte(byte) => vec![byte.get()],
    };
    assert_eq!(bytes(char('\u{e9}')), "\u{e9}".as_bytes());
    assert_eq!(bytes(byte(0xe9)), [0xe9]);
}
