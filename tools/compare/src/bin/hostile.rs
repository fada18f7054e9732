//! Times the lexer on adversarial input, 1 MB and 4 MB of each shape: `cargo run --release --bin hostile`.
//!
//! This is the only check that finds a lexer that is slower than linear, or that recurses too deeply. It fails if the
//! long text needs more than three times as much time per byte as the short one. If ordinary Rust, the first shape, is
//! also slower on a busy machine, the limit is higher.

use rustc_lexer::{FrontmatterAllowed, tokenize};
use std::hint::black_box;
use std::time::{Duration, Instant};

const RUST: &str = include_str!("times/tokens.rs");
const HASHES: &str = concat!(
    "##########",
    "##########",
    "##########",
    "##########",
    "##########"
);

/// The start of a text, and pieces, each repeated for an equal share of the rest.
type Shape<'a> = (&'a str, &'a [&'a str]);

#[rustfmt::skip]
const SHAPES: [Shape; 27] = [
    ("", &[RUST]), ("", &["/*", "*/"]), ("", &["/*"]), ("", &["/ * "]), ("", &["\""]), ("", &["'"]), ("\"", &["\\\\"]),
    ("\"", &["\\\""]), ("", &["r#~"]), ("", &["#"]), ("r", &["#"]), ("", &["#\"a\""]), ("", &["1"]), ("", &["1_"]),
    ("", &["1e+"]), ("", &["😀"]), ("", &["😀 "]), ("", &["-"]), ("", &["\n"]), ("//", &["a"]), ("", &["é"]),
    ("", &["'a "]), ("", &["1a "]), ("", &["k'a "]), ("", &["a\u{200d}"]),
    ("", &["a\"b\" c'd e#f 1.2 /*x*/ "]), ("", &["\0"]),
];

/// Returns the minimum time for one byte of a shape, in picoseconds.
fn byte_time((start, pieces): Shape, len: usize) -> f64 {
    let share = len / pieces.len();
    let pieces = pieces
        .iter()
        .map(|piece| piece.repeat(share.div_ceil(piece.len())));
    let text = start.to_string() + &pieces.collect::<String>();
    let time = |_| {
        let start = Instant::now();
        let tokens = tokenize(black_box(&text), FrontmatterAllowed::No);
        assert_eq!(
            tokens.map(|token| token.len as usize).sum::<usize>(),
            text.len()
        );
        start.elapsed()
    };
    let least = (0..20).map(time).min().unwrap_or(Duration::MAX);
    least.as_secs_f64() * 1e12 / text.len() as f64
}

fn main() {
    let fence = format!("r{0}{0}{0}{0}\"", HASHES);
    let nearly_closed = format!("\"{0}{0}{0}{1}", HASHES, &HASHES[1..]);
    let raw: [Shape; 2] = [(&fence, &["\""]), (&fence, &[&nearly_closed])];
    let (mut plain, mut slower) = (0.0, 1.0);
    println!(
        "{:>10} {:>10} {:>10}  shape",
        "1 MB, ps", "4 MB, ps", "of Rust"
    );
    for shape in SHAPES.into_iter().chain(raw) {
        let [short, long] = [1_000_000, 4_000_000].map(|len| byte_time(shape, len));
        if plain == 0.0 {
            (plain, slower) = (long, f64::max(1.0, long / short));
        }
        let shown: String = [shape.0, shape.1[0]].concat().chars().take(24).collect();
        println!(
            "{short:>10.0} {long:>10.0} {:>10.2}  {shown:?}",
            long / plain
        );
        assert!(
            long <= slower * (3.0 * short + 100.0),
            "longer texts take longer for a byte"
        );
    }
}
