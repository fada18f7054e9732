//! Lists the tokens of files, in the format of `lexdump`.

use rustc_lexer::LiteralKind::{self, *};
use rustc_lexer::{DocStyle, Edition, Token, TokenKind, tokenize_document};
use std::io::{self, Write};

/// Writes a line for each token of a file: its offset, length and kind, and the fields of the kind.
pub fn list(text: &str, edition: Edition, output: &mut impl Write) -> io::Result<()> {
    let mut tokens = tokenize_document(text, edition);
    let mut start = tokens.offset();
    tokens.try_for_each(|Token { kind, len }| {
        write!(output, "{start} {len} {}", kind.name())?;
        start += len as usize;
        write_fields(kind, output)?;
        output.write_all(b"\n")
    })
}

fn write_fields(kind: TokenKind, output: &mut impl Write) -> io::Result<()> {
    match kind {
        TokenKind::LineComment { doc_style } | TokenKind::BlockComment { doc_style, .. } => {
            let style = match doc_style {
                None => "none",
                Some(DocStyle::Outer) => "outer",
                Some(DocStyle::Inner) => "inner",
            };
            write!(output, " doc_style={style}")?;
            if let TokenKind::BlockComment { terminated, .. } = kind {
                write!(output, " terminated={terminated}")?;
            }
        }
        TokenKind::Frontmatter {
            has_invalid_preceding_whitespace: space,
            invalid_infostring,
        } => {
            write!(output, " has_invalid_preceding_whitespace={space}")?;
            write!(output, " invalid_infostring={invalid_infostring}")?;
        }
        TokenKind::Lifetime { starts_with_number } => {
            write!(output, " starts_with_number={starts_with_number}")?;
        }
        TokenKind::Literal { kind, suffix_start } => {
            write!(output, " kind={}", kind.name())?;
            write_literal_fields(kind, output)?;
            write!(output, " suffix_start={suffix_start}")?;
        }
        _ => {}
    }
    Ok(())
}

fn write_literal_fields(kind: LiteralKind, output: &mut impl Write) -> io::Result<()> {
    match kind {
        Int { base, .. } | Float { base, .. } => write!(output, " base={}", base as u8)?,
        Char { terminated }
        | Byte { terminated }
        | Str { terminated }
        | ByteStr { terminated }
        | CStr { terminated } => write!(output, " terminated={terminated}")?,
        RawStr { n_hashes } | RawByteStr { n_hashes } | RawCStr { n_hashes } => match n_hashes {
            Some(n_hashes) => write!(output, " n_hashes={n_hashes}")?,
            None => write!(output, " n_hashes=none")?,
        },
    }
    match kind {
        Int { empty_int, .. } => write!(output, " empty_int={empty_int}"),
        Float { empty_exponent, .. } => write!(output, " empty_exponent={empty_exponent}"),
        _ => Ok(()),
    }
}
