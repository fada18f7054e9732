//! The results of a lexer for a text, as lines, because the two lexers have different types.

use std::fmt::{Debug, Write};

/// Writes a value with its name as the next line.
pub fn line(lines: &mut String, name: &str, value: impl Debug) {
    writeln!(lines, "{name} {value:?}").expect("a String takes all that is written");
}

/// Writes the ordering of each two neighbours in a list.
fn order<T: Ord>(lines: &mut String, name: &str, list: &[T]) {
    for two in list.windows(2) {
        line(lines, name, two[0].cmp(&two[1]));
    }
}

/// The classes of a character.
#[derive(PartialEq)]
pub struct Classes {
    /// Whether it is whitespace, and horizontal whitespace, which are the same in each version of Unicode.
    pub spaces: [bool; 2],
    /// Whether a word can start with it, and continue with it.
    pub words: [bool; 2],
    pub is_emoji: bool,
}

macro_rules! answers_of {
    ($name:ident, $lexer:ident) => {
        mod $name {
            use super::{Classes, line, order};
            use $lexer::{
                Cursor, FrontmatterAllowed, is_ident, strip_shebang, tokenize, validate_raw_str,
            };
            use $lexer::{LiteralKind, RawStrError, TokenKind};

            /// Writes the result of validating the raw string at the start of the remaining text.
            fn raw(rest: &str, prefix_len: u32, lines: &mut String) -> Option<RawStrError> {
                let checked = validate_raw_str(rest, prefix_len);
                line(lines, "raw string", &checked);
                checked.err()
            }

            /// Writes the number of a literal's base, or the result of validating the literal.
            fn literal(kind: LiteralKind, rest: &str, lines: &mut String) -> Option<RawStrError> {
                match kind {
                    LiteralKind::Int { base, .. } | LiteralKind::Float { base, .. } => {
                        line(lines, "base", base as u32);
                        None
                    }
                    LiteralKind::RawStr { .. } => raw(rest, 1, lines),
                    LiteralKind::RawByteStr { .. } | LiteralKind::RawCStr { .. } => {
                        raw(rest, 2, lines)
                    }
                    _ => None,
                }
            }

            /// Writes the tokens of `tokenize`, with the details of literals.
            fn tokens(text: &str, allowed: fn() -> FrontmatterAllowed, lines: &mut String) {
                let mut rest = text;
                let (mut literals, mut errors) = (Vec::new(), Vec::new());
                for token in tokenize(text, allowed()) {
                    line(lines, "token", (token.kind, token.len));
                    if let TokenKind::Literal { kind, .. } = token.kind {
                        literals.push(kind);
                        errors.extend(literal(kind, rest, lines));
                    }
                    rest = &rest[token.len as usize..];
                }
                order(lines, "order of literals", &literals);
                order(lines, "order of errors", &errors);
            }

            /// Writes the state of a cursor before each token, and at the end.
            fn cursor(text: &str, allowed: fn() -> FrontmatterAllowed, lines: &mut String) {
                let mut cursor = Cursor::new(text, allowed());
                loop {
                    let ahead = (cursor.first(), cursor.third(), cursor.as_str().len());
                    line(lines, "ahead", ahead);
                    let token = cursor.advance_token();
                    line(lines, "advance", (token.kind, token.len));
                    if token.kind == TokenKind::Eof {
                        return;
                    }
                }
            }

            /// Writes the guarded string at the start and at each hash that does not follow another, with the token
            /// after it.
            fn guarded(text: &str, lines: &mut String) {
                let mut strings = Vec::new();
                let mut before = ' ';
                for (at, c) in text.char_indices() {
                    if at == 0 || (c == '#' && before != '#') {
                        let mut cursor = Cursor::new(&text[at..], FrontmatterAllowed::No);
                        let string = cursor.guarded_double_quoted_string();
                        line(lines, "guarded", (&string, cursor.as_str().len()));
                        let token = cursor.advance_token();
                        let after = (token.kind, token.len, cursor.as_str().len());
                        line(lines, "after it", after);
                        strings.extend(string);
                    }
                    before = c;
                }
                order(lines, "order of guarded strings", &strings);
            }

            /// Writes all results for a text.
            pub fn answers(text: &str, lines: &mut String) {
                line(lines, "shebang", strip_shebang(text));
                line(lines, "ident", is_ident(text));
                for allowed in [|| FrontmatterAllowed::No, || FrontmatterAllowed::Yes] {
                    tokens(text, allowed, lines);
                    cursor(text, allowed, lines);
                }
                guarded(text, lines);
            }

            /// Returns the classes of a character. An emoji is not an identifier, and lexes as an invalid one.
            pub fn classes(c: char) -> Classes {
                let first = tokenize(c.encode_utf8(&mut [0; 4]), FrontmatterAllowed::No).next();
                Classes {
                    spaces: [
                        $lexer::is_whitespace(c),
                        $lexer::is_horizontal_whitespace(c),
                    ],
                    words: [$lexer::is_id_start(c), $lexer::is_id_continue(c)],
                    is_emoji: first.is_some_and(|token| token.kind == TokenKind::InvalidIdent),
                }
            }
        }
    };
}

answers_of!(theirs, original);
answers_of!(ours, rustc_lexer);

/// Returns the classes of a character in the original and in our crate.
pub fn classes(c: char) -> [Classes; 2] {
    [theirs::classes(c), ours::classes(c)]
}

/// The functions that write the results of the original and of our crate.
pub const ANSWERS: [fn(&str, &mut String); 2] = [theirs::answers, ours::answers];
