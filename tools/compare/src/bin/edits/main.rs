//! Times edits of lexed texts and the joining of texts, which the original does not support, compared with a full
//! re-lex: `cargo run --release --bin edits -- FILE [ROUNDS]`, on 64-bit Linux. It edits the first 970,000 bytes of the
//! file. Times are the minimum of all rounds: wall-clock time for single edits, CPU time for everything else.

use rustc_lexer_highlight::{Edition, Format, class_of, keyword_kind, write_highlighted};
use rustc_lexer::{
    Edit, FrontmatterAllowed, JoinedText, LexedDocument, LexedText, Piece, TokenKind, tokenize,
};
use std::hint::black_box;
use std::time::Instant;
use std::{env, fs};

/// The `timespec` of the system.
#[repr(C)]
struct TimeSpec(i64, i64);

unsafe extern "C" {
    fn clock_gettime(clock: i32, time: &mut TimeSpec) -> i32;
}

/// Returns the CPU time of this thread in microseconds.
fn now() -> f64 {
    const OF_THE_THREAD: i32 = 3;
    let mut time = TimeSpec(0, 0);
    // SAFETY: the call writes only the time.
    let status = unsafe { clock_gettime(OF_THE_THREAD, &mut time) };
    assert_eq!(status, 0, "there is a clock");
    time.0 as f64 * 1e6 + time.1 as f64 / 1e3
}

/// Returns the minimum time of a function whose argument is built again for each round.
fn least<M>(rounds: usize, make: impl Fn() -> M, what: impl Fn(&mut M)) -> f64 {
    let mut least = f64::MAX;
    for _ in 0..rounds {
        let mut made = make();
        let start = now();
        what(black_box(&mut made));
        least = least.min(now() - start);
    }
    least
}

fn row(name: &str, time: f64, whole: f64) {
    println!("| {name} | {time:.3} | {:.6} |", time / whole);
}

/// Returns the minimum times of an insertion into a lexed text of either type and of its deletion, as the mean over the
/// offsets.
macro_rules! in_and_out {
    ($Kept:ident, $text:expr, $places:expr, $insert:expr, $rounds:expr) => {{
        let mut kept = $Kept::new(&$text);
        let mut times = vec![[f64::MAX; 2]; $places.len()];
        for _ in 0..$rounds {
            for (&at, least) in $places.iter().zip(&mut times) {
                for (way, len, insert) in [(0, 0, $insert), (1, $insert.len(), "")] {
                    let start = Instant::now();
                    black_box(kept.edit(at..at + len, insert));
                    least[way] = least[way].min(start.elapsed().as_secs_f64() * 1e6);
                }
            }
        }
        let sum = |way: usize| times.iter().map(|least| least[way]).sum::<f64>();
        [0, 1].map(|way| sum(way) / times.len() as f64)
    }};
}

/// Returns `count` offsets inside words, spread over the text.
fn in_words(text: &str, count: usize) -> Vec<usize> {
    let (mut found, mut start) = (Vec::new(), 0);
    for token in tokenize(text, FrontmatterAllowed::No) {
        if token.kind == TokenKind::Ident && token.len > 1 && text.as_bytes()[start].is_ascii() {
            found.push(start + 1);
        }
        start += token.len as usize;
    }
    let spread = |at| found[at * found.len() / count];
    (0..count).map(spread).collect()
}

fn edits(text: &str, whole: f64, rounds: usize) {
    let middle = in_words(text, 2)[1];
    let space = middle + text[middle..].find(' ').expect("a space");
    let words = in_words(text, 200);
    let here_and_there = (0..200).map(|at| words[at * 83 % 200]).collect();
    for (name, insert, places) in [
        ("a letter at the end", "x", vec![text.len()]),
        ("a letter at the front", "x", vec![0]),
        ("a letter in a word in the middle", "x", vec![middle]),
        ("a letter in words here and there", "x", here_and_there),
        ("a letter next to a space in the middle", "x", vec![space]),
        ("`/*` in front", "/*", vec![0]),
    ] {
        let times = in_and_out!(LexedText, text, places, insert, rounds);
        for (way, time) in ["put in", "taken out"].into_iter().zip(times) {
            row(&format!("{name}, {way}"), time, whole);
        }
    }
}

fn lists(text: &str, whole: f64, rounds: usize) {
    for count in [10, 63, 64, 1_000, 6_924] {
        let places = in_words(text, count);
        let letter = |at| Edit {
            start: at,
            stop: at,
            insert: "x",
        };
        let at_once: Vec<Edit> = places.iter().map(|&at| letter(at)).collect();
        let moved = places.iter().enumerate();
        let each: Vec<Edit> = moved.map(|(before, at)| letter(at + before)).collect();
        macro_rules! list {
            ($Kept:ident) => {{
                let name = stringify!($Kept);
                let list = |call: &str, what: &dyn Fn(&mut $Kept)| {
                    let time = least(rounds, || $Kept::new(text), what);
                    row(&format!("{count} by `{call}` of a `{name}`"), time, whole);
                };
                list("edit_sequence", &|kept| {
                    kept.edit_sequence(&each).expect("the edits are accepted");
                });
                list("edit_batch", &|kept| {
                    kept.edit_batch(&at_once).expect("the edits are accepted");
                });
            }};
        }
        list!(LexedText);
        list!(LexedDocument);
    }
}

fn heads(text: &str, rounds: usize) {
    let lines = |len: usize, total: usize| {
        let line = format!("{}\n", "a".repeat(len - 1));
        format!("---\n{}---\n", line.repeat(total / len))
    };
    let middle = in_words(text, 2)[1];
    let [part, _] = in_and_out!(LexedText, text, [middle], "x", rounds);
    for (name, head) in [
        ("60 bytes", lines(13, 52)),
        ("10 KB in lines of 68 bytes", lines(68, 10_000)),
        ("10 KB in lines of 6 bytes", lines(6, 10_000)),
    ] {
        let (place, document) = (middle + head.len(), format!("{head}{text}"));
        let [time, _] = in_and_out!(LexedDocument, document, [place], "x", rounds);
        row(&format!("a head of {name}, over a `LexedText`"), time, part);
    }
}

fn written(text: &str, whole: f64, rounds: usize) {
    let kept = LexedText::new(text);
    let pieces: Vec<Piece> = kept.pieces().collect();
    let (mut words, count) = (pieces.clone(), pieces.len());
    words.retain(|piece| piece.token.kind == TokenKind::Ident);
    let push = |joined: &mut JoinedText| pieces.iter().for_each(|piece| joined.push(piece.text));
    let class = |piece: &Piece| {
        drop(black_box(class_of(
            piece.token.kind,
            piece.text,
            Edition::E2024,
        )))
    };
    let keyword = |piece: &Piece| drop(black_box(keyword_kind(piece.text, Edition::E2024)));
    let html = |page: &mut String| write_highlighted(Format::Html, Edition::E2024, text, page).unwrap();
    let page = || String::with_capacity(8 * text.len());
    for (what, time, count) in [
        (
            "a push of a token to a `JoinedText`",
            least(rounds, JoinedText::new, push),
            count,
        ),
        (
            "`class_of` of a token",
            least(rounds, || (), |_| pieces.iter().for_each(class)),
            count,
        ),
        (
            "`keyword_kind` of an identifier",
            least(rounds, || (), |_| words.iter().for_each(keyword)),
            words.len(),
        ),
        (
            "a token by `write_highlighted` as HTML",
            least(rounds, page, html),
            count,
        ),
    ] {
        row(what, time / count as f64, whole / pieces.len() as f64);
    }
}

fn main() {
    let mut words = env::args().skip(1);
    let big = fs::read_to_string(words.next().expect("the name of a file")).unwrap();
    let rounds = words.next().map_or(50, |word| word.parse().unwrap());
    let text = &big[..big.floor_char_boundary(970_000)];
    println!("| What | Microseconds | Of lexing it whole |\n|---|---|---|");
    let lex = |text: &str| {
        let time = least(rounds, || (), |()| drop(black_box(LexedText::new(text))));
        let (len, count) = (text.len(), LexedText::new(text).tokens().len());
        row(
            &format!("`LexedText::new` of {len} bytes, {count} tokens"),
            time,
            time,
        );
        time
    };
    let whole = lex(text);
    edits(text, whole, rounds);
    lists(text, whole, rounds.min(20));
    heads(text, rounds);
    written(text, whole, rounds.min(20));
    let whole = lex(&big);
    let [put_in, _] = in_and_out!(LexedText, big, [0], "x", rounds);
    row("a letter at its front", put_in, whole);
}
