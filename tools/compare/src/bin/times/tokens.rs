//! Each way to lex a text, with each consumer, in both crates.

use crate::{Sum, Use};
use ours::Consumer;
use rustc_lexer::{
    Edition, FrontmatterAllowed, LexedText, Token, TokenKind, tokenize, tokenize_in,
};

/// The consumers of tokens: they read all fields, `match` on each kind, read the lengths of tokens other than `Eof`, or
/// collect them in a `Vec`.
pub const CONSUMERS: [&str; 4] = ["all fields", "`match`", "lengths", "`push`"];

/// A way to lex: its name, and a function for each consumer.
pub type Way = (&'static str, [Use; 4]);

/// The functions of the original and of our crate, for each consumer.
type Pairs = Vec<[Use; 2]>;

/// A way from a function that is generic over the number of the consumer.
macro_rules! way {
    ($name:literal, $by:ident) => {
        ($name, [$by::<0>, $by::<1>, $by::<2>, $by::<3>])
    };
}

/// A `match` with an arm for each kind: kinds with fields have given numbers, and kinds without fields are numbered
/// here.
macro_rules! numbers {
    ($kind:ident; $($fields:pat => $number:expr),*; $($plain:ident)*) => {{
        enum Number { $($plain),* }
        #[allow(unreachable_patterns)]
        match $kind {
            $($fields => $number,)*
            $(TokenKind::$plain => Number::$plain as u64 + 6,)*
            _ => 0,
        }
    }};
}

/// The ways that both crates have, from the same source.
macro_rules! ways {
    ($module:ident, $lexer:ident) => {
        mod $module {
            use super::Way;
            use crate::Sum;
            use std::hint::black_box;
            use $lexer::*;

            fn style(style: Option<DocStyle>) -> u64 {
                match style {
                    None => 0,
                    Some(DocStyle::Outer) => 64,
                    Some(DocStyle::Inner) => 128,
                }
            }

            fn hashes(hashes: Option<u8>) -> u64 {
                match hashes {
                    None => 1 << 20,
                    Some(count) => u64::from(count) << 12,
                }
            }

            fn literal(kind: LiteralKind) -> u64 {
                match kind {
                    LiteralKind::Int { base, empty_int } => base as u64 * 64 + u64::from(empty_int),
                    LiteralKind::Float {
                        base,
                        empty_exponent,
                    } => base as u64 * 96 + u64::from(empty_exponent),
                    LiteralKind::Char { terminated } => 3 + u64::from(terminated),
                    LiteralKind::Byte { terminated } => 5 + u64::from(terminated),
                    LiteralKind::Str { terminated } => 7 + u64::from(terminated),
                    LiteralKind::ByteStr { terminated } => 9 + u64::from(terminated),
                    LiteralKind::CStr { terminated } => 11 + u64::from(terminated),
                    LiteralKind::RawStr { n_hashes } => 13 + hashes(n_hashes),
                    LiteralKind::RawByteStr { n_hashes } => 14 + hashes(n_hashes),
                    LiteralKind::RawCStr { n_hashes } => 15 + hashes(n_hashes),
                }
            }

            /// Returns a number for the kind, with or without its fields; 0 for a kind that only one crate has.
            #[rustfmt::skip]
            fn number<const FIELDS: bool>(kind: TokenKind) -> u64 {
                let with = |number, fields| if FIELDS { number + fields } else { number };
                use TokenKind::*;
                numbers!(kind;
                    LineComment { doc_style } => with(1, style(doc_style)),
                    BlockComment { doc_style, terminated } => with(2, style(doc_style) + u64::from(terminated) * 256),
                    Frontmatter { has_invalid_preceding_whitespace: invalid, invalid_infostring } =>
                        with(3, u64::from(invalid) * 64 + u64::from(invalid_infostring) * 128),
                    Literal { kind, suffix_start } => with(4, literal(kind) + (u64::from(suffix_start) << 24)),
                    Lifetime { starts_with_number } => with(5, u64::from(starts_with_number) * 64);
                    Whitespace Ident InvalidIdent RawIdent ForcedKeywordIdent UnknownPrefix UnknownPrefixLifetime
                    RawLifetime GuardedStrPrefix Semi Comma Dot OpenParen CloseParen OpenBrace CloseBrace OpenBracket
                    CloseBracket At Pound Tilde Question Colon Dollar Eq Bang Lt Gt Minus And Or Plus Star Slash Caret
                    Percent Unknown Eof
                )
            }

            /// The consumer with a number.
            pub struct Consumer<const NUMBER: usize> {
                sum: Sum,
                kinds: [u64; 64],
                tokens: Vec<Token>,
            }

            impl<const NUMBER: usize> Consumer<NUMBER> {
                pub fn new() -> Consumer<NUMBER> {
                    Consumer {
                        sum: Sum::default(),
                        kinds: [0; 64],
                        tokens: Vec::new(),
                    }
                }

                #[inline(always)]
                pub fn take(&mut self, token: Token) {
                    match NUMBER {
                        0 => self.sum = self.sum.add(number::<true>(token.kind), token.len),
                        1 => self.kinds[number::<false>(token.kind) as usize % 64] += 1,
                        2 if token.kind == TokenKind::Eof => {}
                        2 => self.sum = self.sum.add(0, token.len),
                        _ => self.tokens.push(token),
                    }
                }

                pub fn sum(&self) -> Sum {
                    let Sum { mut count, mut sum } = self.sum;
                    for of_kind in self.kinds {
                        count += of_kind;
                        sum = sum.wrapping_mul(31).wrapping_add(of_kind);
                    }
                    Sum::new(count + black_box(&self.tokens).len() as u64, sum)
                }
            }

            pub fn by_for<const CONSUMER: usize>(text: &str) -> Sum {
                let mut consumer = Consumer::<CONSUMER>::new();
                for token in tokenize(text, FrontmatterAllowed::No) {
                    consumer.take(token);
                }
                consumer.sum()
            }

            fn by_fold<const CONSUMER: usize>(text: &str) -> Sum {
                let tokens = tokenize(text, FrontmatterAllowed::No);
                let consumer = Consumer::<CONSUMER>::new();
                let consumer = tokens.fold(consumer, |mut consumer, token| {
                    consumer.take(token);
                    consumer
                });
                consumer.sum()
            }

            fn by_cursor<const CONSUMER: usize>(text: &str) -> Sum {
                let mut consumer = Consumer::<CONSUMER>::new();
                let mut cursor = Cursor::new(text, FrontmatterAllowed::No);
                loop {
                    let token = cursor.advance_token();
                    if matches!(token.kind, TokenKind::Eof) {
                        return consumer.sum();
                    }
                    consumer.take(token);
                }
            }

            fn fresh<const CONSUMER: usize>(text: &str) -> Sum {
                let mut consumer = Consumer::<CONSUMER>::new();
                let mut start = 0;
                while let Some(token) = tokenize(&text[start..], FrontmatterAllowed::No).next() {
                    start += token.len as usize;
                    consumer.take(token);
                }
                consumer.sum()
            }

            fn by_lines<const CONSUMER: usize>(text: &str) -> Sum {
                let mut consumer = Consumer::<CONSUMER>::new();
                for line in text.lines() {
                    for token in tokenize(line, FrontmatterAllowed::No) {
                        consumer.take(token);
                    }
                }
                consumer.sum()
            }

            fn boxed<const CONSUMER: usize>(text: &str) -> Sum {
                let mut consumer = Consumer::<CONSUMER>::new();
                for line in text.lines() {
                    let tokens = tokenize(line, FrontmatterAllowed::No);
                    let tokens: Box<dyn Iterator<Item = Token> + '_> = Box::new(tokens);
                    for token in tokens {
                        consumer.take(token);
                    }
                }
                consumer.sum()
            }

            /// Lexes the first token of a document.
            pub fn with_yes(text: &str) -> Sum {
                let first = tokenize(text, FrontmatterAllowed::Yes).next();
                Sum::new(1, first.map_or(0, |token| u64::from(token.len)))
            }

            /// Collects all tokens with the iterator's `collect`.
            pub fn collected(text: &str) -> Sum {
                let mut consumer = Consumer::<3>::new();
                consumer.tokens = tokenize(text, FrontmatterAllowed::No).collect();
                consumer.sum()
            }

            /// Collects the kinds with their fields, and the starts of the tokens, in two lists, as parsers do.
            pub fn kinds_and_starts(text: &str) -> Sum {
                let (mut kinds, mut starts) = (Vec::new(), Vec::new());
                let mut start = 0;
                for token in tokenize(text, FrontmatterAllowed::No) {
                    kinds.push(number::<true>(token.kind) as u16);
                    starts.push(start);
                    start += token.len;
                }
                let (kinds, starts) = (black_box(&kinds), black_box(&starts));
                Sum::new(kinds.len() as u64, starts.len() as u64)
            }

            pub const WAYS: [Way; 6] = [
                way!("`for` over `tokenize`", by_for),
                way!("`fold` of `tokenize`", by_fold),
                way!("`Cursor::advance_token`", by_cursor),
                way!("`tokenize` for each token", fresh),
                way!("`tokenize` for each line", by_lines),
                way!("a boxed `tokenize` for each line", boxed),
            ];
        }
    };
}

ways!(theirs, original);
ways!(ours, rustc_lexer);

/// Lexes many tokens at once, which only our crate supports.
fn by_fill<const CONSUMER: usize>(text: &str) -> Sum {
    let mut consumer = Consumer::<CONSUMER>::new();
    let (kind, len) = (TokenKind::Eof, 0);
    let mut buffer = [Token { kind, len }; 256];
    let mut tokens = tokenize(text, FrontmatterAllowed::No);
    while !tokens.as_str().is_empty() {
        let count = tokens.fill(&mut buffer);
        for token in &buffer[..count] {
            consumer.take(*token);
        }
    }
    consumer.sum()
}

/// Lexes in an edition, which only our crate supports.
#[inline(always)]
fn by_for_in<const CONSUMER: usize>(text: &str, edition: Edition) -> Sum {
    let mut consumer = Consumer::<CONSUMER>::new();
    for token in tokenize_in(text, edition) {
        consumer.take(token);
    }
    consumer.sum()
}

fn by_for_2015<const CONSUMER: usize>(text: &str) -> Sum {
    by_for_in::<CONSUMER>(text, Edition::E2015)
}

fn by_for_2021<const CONSUMER: usize>(text: &str) -> Sum {
    by_for_in::<CONSUMER>(text, Edition::E2021)
}

/// A `for` loop that reads all fields, and the first token of a document, in both crates.
pub const FOR_LOOP: [Use; 2] = [theirs::by_for::<0>, ours::by_for::<0>];
pub const WITH_YES: [Use; 2] = [theirs::with_yes, ours::with_yes];

fn kept(text: &str) -> Sum {
    let lexed = LexedText::new(text);
    Sum::new(std::hint::black_box(&lexed).tokens().len() as u64, 0)
}

fn into_vec(text: &str) -> Sum {
    let tokens = tokenize(text, FrontmatterAllowed::No).into_vec();
    Sum::new(std::hint::black_box(&tokens).len() as u64, 0)
}

/// Returns each way with its functions. Functions that the original lacks are compared with its closest one.
pub fn ways() -> Vec<(&'static str, Pairs)> {
    let pairs = |(name, ours): Way, theirs: [Use; 4]| {
        (name, theirs.into_iter().zip(ours).map(Into::into).collect())
    };
    let mut ways = Vec::new();
    for (ours, theirs) in ours::WAYS.into_iter().zip(theirs::WAYS) {
        ways.push(pairs(ours, theirs.1));
    }
    for ours in [
        way!("`for` in 2021", by_for_2021),
        way!("`for` in 2015", by_for_2015),
        way!("`Tokens::fill`", by_fill),
    ] {
        ways.push(pairs(ours, theirs::WAYS[0].1));
    }
    let two_lists = [theirs::kinds_and_starts, ours::kinds_and_starts];
    let alone: [(_, [Use; 2]); 4] = [
        (
            "`collect` of `tokenize`",
            [theirs::collected, ours::collected],
        ),
        ("`Tokens::into_vec`", [theirs::collected, into_vec]),
        ("`LexedText::new`", [theirs::collected, kept]),
        ("kinds and starts in two lists", two_lists),
    ];
    ways.extend(alone.map(|(name, pair)| (name, vec![pair])));
    ways
}
