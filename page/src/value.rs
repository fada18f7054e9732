//! The value of a literal.

use rustc_lexer::TokenKind;
use rustc_lexer_errors::literal_contents;
use rustc_literal_escaper::{
    EscapeError, MixedUnit, Mode, check_raw_byte_str, check_raw_c_str, check_raw_str,
    escape_byte_str, escape_str, unescape_byte, unescape_byte_str, unescape_c_str, unescape_char,
    unescape_str,
};

/// Returns the value of a literal with quotes, with escapes; CR LF is a newline. Returns `None` if the token is not
/// such a literal, or is unterminated.
pub fn value(kind: TokenKind, text: &str) -> Option<String> {
    let (mode, range) = literal_contents(kind, text)?;
    let inside = &text[range].replace("\r\n", "\n");
    let mut read = Read::default();
    match mode {
        Mode::Char => read.char(unescape_char(inside)),
        Mode::Byte => read.byte(unescape_byte(inside)),
        Mode::Str => unescape_str(inside, |_, c| read.char(c)),
        Mode::RawStr => check_raw_str(inside, |_, c| read.char(c)),
        Mode::ByteStr => unescape_byte_str(inside, |_, byte| read.byte(byte)),
        Mode::RawByteStr => check_raw_byte_str(inside, |_, byte| read.byte(byte)),
        Mode::CStr => unescape_c_str(inside, |_, unit| read.unit(unit)),
        Mode::RawCStr => check_raw_c_str(inside, |_, c| read.unit(c.map(MixedUnit::Char))),
    }
    if matches!(mode, Mode::CStr | Mode::RawCStr) {
        read.byte(Ok(0));
    }
    Some(read.sentence(matches!(mode, Mode::Char | Mode::Str | Mode::RawStr)))
}

/// The value of a literal while its units are read.
#[derive(Default)]
struct Read {
    text: String,
    bytes: Vec<u8>,
    is_wrong: bool,
}

impl Read {
    fn char(&mut self, read: Result<char, EscapeError>) {
        match read {
            Ok(c) => self.text.push(c),
            Err(error) => self.is_wrong |= error.is_fatal(),
        }
    }

    fn byte(&mut self, read: Result<u8, EscapeError>) {
        match read {
            Ok(byte) => self.bytes.push(byte),
            Err(error) => self.is_wrong |= error.is_fatal(),
        }
    }

    fn unit(&mut self, read: Result<MixedUnit, EscapeError>) {
        match read {
            Ok(MixedUnit::Char(c)) => self.bytes.extend(c.get().encode_utf8(&mut [0; 4]).bytes()),
            Ok(MixedUnit::HighByte(byte)) => self.bytes.push(byte.get()),
            Err(error) => self.is_wrong |= error.is_fatal(),
        }
    }

    /// Returns the number of characters or bytes, and the value between quotes.
    fn sentence(&self, of_characters: bool) -> String {
        if self.is_wrong {
            return "nothing: it is wrong".to_string();
        }
        let mut shown = String::new();
        let (count, unit, done) = if of_characters {
            let done = escape_str(&self.text, &mut shown);
            (self.text.chars().count(), "character", done)
        } else {
            let done = escape_byte_str(&self.bytes, &mut shown);
            (self.bytes.len(), "byte", done)
        };
        done.expect("memory allocation failed");
        let end = if count == 1 { "" } else { "s" };
        format!("{count} {unit}{end}: \"{shown}\"")
    }
}
