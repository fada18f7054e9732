//! Calls that allocate nothing: they return the same if every allocation fails.

#[path = "../../rattle_support/tests/refusing/mod.rs"]
mod refusing;

use refusing::given;
use rustc_lexer::Base::{Binary, Decimal};
use rustc_lexer::FrontmatterAllowed::{self, No, Yes};
use rustc_lexer::LiteralKind::{self, Char, Float, Int, RawStr};
use rustc_lexer::RawStrError::{self, InvalidStarter, NoTerminator, TooManyDelimiters};
use rustc_lexer::TokenKind::{self, *};
use rustc_lexer::{
    Cursor, Edition, GuardedStr, Token, fits, is_horizontal_whitespace, is_id_continue,
    is_id_start, is_ident, is_token_boundary, is_whitespace, settled, starts_raw, strip_shebang,
    tokenize, validate_raw_str,
};

/// A text, whether a frontmatter is allowed, its tokens, the offset up to which they are final, and the error of the
/// raw string that it starts with, if any.
type Row<'a> = (
    &'a str,
    FrontmatterAllowed,
    &'a [Token],
    usize,
    Option<RawStrError>,
);

const fn token(kind: TokenKind, len: u32) -> Token {
    Token { kind, len }
}

const fn literal(kind: LiteralKind, suffix_start: u32, len: u32) -> Token {
    token(Literal { kind, suffix_start }, len)
}

const CHAR: LiteralKind = Char { terminated: true };
const OPEN: Token = literal(Char { terminated: false }, 1, 1);
const RAW: LiteralKind = RawStr { n_hashes: None };
const DOT: Token = token(Dot, 1);
const SPACE: Token = token(Whitespace, 1);

#[rustfmt::skip]
const ROWS: [Row<'_>; 15] = {
    const ONE: Token = literal(Int { base: Decimal, empty_int: false }, 1, 1);
    const CLOSED: TokenKind = BlockComment { doc_style: None, terminated: true };
    const TOO_FEW: RawStrError = NoTerminator { expected: 2, found: 1, possible_terminator_offset: Some(8) };
    const fn front(has_invalid_preceding_whitespace: bool, invalid_infostring: bool, len: u32) -> Token {
        token(Frontmatter { has_invalid_preceding_whitespace, invalid_infostring }, len)
    }
    [
        ("/* /* */ */'a'", No, &[token(CLOSED, 11), literal(CHAR, 3, 3)], 11, None),
        ("/* /* */", No, &[token(BlockComment { doc_style: None, terminated: false }, 8)], 0, None),
        ("1..2", No, &[ONE, DOT, DOT, ONE], 2, None),
        ("1.", No, &[literal(Float { base: Decimal, empty_exponent: false }, 2, 2)], 0, None),
        ("0b_", No, &[literal(Int { base: Binary, empty_int: true }, 3, 3)], 0, None),
        ("1em", No, &[literal(Float { base: Decimal, empty_exponent: true }, 2, 3)], 0, None),
        ("'/x'", No, &[OPEN, token(Slash, 1), token(UnknownPrefix, 1), OPEN], 2, None),
        ("'''", No, &[literal(CHAR, 3, 3)], 0, None),
        ("'(\0'", No, &[literal(CHAR, 4, 4)], 0, None),
        ("r##\"abc\"#", No, &[literal(RAW, 9, 9)], 0, Some(TOO_FEW)),
        ("r#", No, &[literal(RAW, 2, 2)], 0, Some(InvalidStarter { bad_char: '\0' })),
        ("---\n//!d\nuse a", Yes, &[front(false, false, 8), SPACE, token(Ident, 3), SPACE, token(Ident, 1)], 12, None),
        ("---\nq------\nfn x", Yes, &[front(false, false, 11), SPACE, token(Ident, 2), SPACE, token(Ident, 1)], 14,
            None),
        ("---", Yes, &[front(false, true, 3)], 1, None),
        (" ---\n---\n", Yes, &[front(true, false, 8), SPACE], 7, None),
    ]
};

/// The test cases, raw strings with 256 hashes, and the remaining calls.
#[test]
fn tokens_and_checks() {
    let hashes = "#".repeat(256);
    let open = ["r", &hashes, "\"abc\""].concat();
    let closed = [&open, &*hashes].concat();
    let many = TooManyDelimiters { found: 256 };
    let none = NoTerminator {
        expected: 256,
        found: 0,
        possible_terminator_offset: None,
    };
    let [of_open, of_closed] = [262, 518].map(|len| [literal(RAW, len, len)]);
    let with_hashes = [
        (&*open, No, &of_open[..], 0, Some(none)),
        (&*closed, No, &of_closed[..], 0, Some(many)),
    ];
    for row in ROWS.into_iter().chain(with_hashes) {
        assert!(given(0, || holds(row)), "{:?}", row.0);
    }
    assert!(given(0, others_hold));
}

/// Returns whether the calls return the values of the row, for its text and each of its characters.
fn holds((text, allowed, wanted, end, refusal): Row<'_>) -> bool {
    fits(text)
        && gives_tokens(text, allowed, wanted)
        && !is_ident(text)
        && strip_shebang(text).is_none()
        && settled(text) == end
        && text.chars().all(is_in_its_classes)
        && starts_raw(text, 1) == refusal.is_some()
        && refusal.is_none_or(|refusal| validate_raw_str(text, 1) == Err(refusal))
}

/// Returns whether an iterator and a cursor return exactly these tokens, and the remaining text after each.
fn gives_tokens(text: &str, allowed: FrontmatterAllowed, wanted: &[Token]) -> bool {
    let mut guarded = Cursor::new(text, allowed);
    if guarded.guarded_double_quoted_string().is_some() || !is_at(&guarded, text) {
        return false;
    }
    let (mut tokens, mut cursor) = (tokenize(text, allowed), Cursor::new(text, allowed));
    let mut rest = text;
    let has_wanted = wanted.iter().all(|token| {
        let before = rest;
        rest = &rest[token.len as usize..];
        is_at(&cursor, before)
            && tokens.as_str() == before
            && cursor.advance_token() == *token
            && tokens.next() == Some(*token)
    });
    has_wanted
        && rest.is_empty()
        && is_at(&cursor, "")
        && tokens.as_str().is_empty()
        && cursor.advance_token() == token(Eof, 0)
        && tokens.next().is_none()
}

/// Returns whether this is the cursor's remaining text, and its lookahead is right.
fn is_at(cursor: &Cursor<'_>, rest: &str) -> bool {
    let at = |number| rest.chars().nth(number).unwrap_or('\0');
    cursor.as_str() == rest && cursor.first() == at(0) && cursor.third() == at(2)
}

/// Returns whether the classes of an ASCII character are right.
fn is_in_its_classes(c: char) -> bool {
    let starts = matches!(c, 'a'..='z' | 'A'..='Z' | '_');
    is_whitespace(c) == matches!(c, '\t'..='\r' | ' ')
        && is_horizontal_whitespace(c) == matches!(c, '\t' | ' ')
        && is_id_start(c) == starts
        && is_id_continue(c) == (starts || c.is_ascii_digit())
}

/// Returns whether the calls without a column in the rows are right.
fn others_hold() -> bool {
    let mut cursor = Cursor::new("é+b c", No);
    let string = GuardedStr {
        n_hashes: 2,
        terminated: true,
        token_len: 7,
    };
    is_at(&cursor, "é+b c")
        && cursor.advance_token() == token(Ident, 2)
        && cursor.advance_token() == token(Plus, 1)
        && is_at(&cursor, "b c")
        && Cursor::new("##\"a\"#x", No).guarded_double_quoted_string() == Some(string)
        && strip_shebang("#!///x\n[a]") == Some(6)
        && settled("k# ") == 1
        && is_ident("a1")
        && is_whitespace('\u{2028}')
        && !is_whitespace('\u{a0}')
        && is_id_start('é')
}

#[test]
fn token_boundaries() {
    for (text, at, touch) in [("a+", 1, true), ("ab", 1, false), ("\"é\"s", 4, false)] {
        assert_eq!(
            given(0, || is_token_boundary(text, at, Edition::E2024)),
            touch,
            "{text:?}"
        );
    }
}
