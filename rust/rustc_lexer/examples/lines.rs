//! Counts the lines of files with code, with only comments, and with neither: `cargo run --example lines -- FILE..`.
//!
//! Tokens decide: `//` in a string is code, and so is each line of the string. An empty line in a comment is a comment.
//! A shebang line and a frontmatter are code.
mod common;

use rustc_lexer::{Edition, TokenKind, tokenize_document};
use std::io::Write;
use std::{env, process::ExitCode};

/// The contents of a line. If it has several, the last variant counts.
#[derive(Clone, Copy, PartialEq, Eq, PartialOrd, Ord)]
enum Line {
    Blank,
    Comment,
    Code,
}

fn count(text: &str) -> [usize; 3] {
    let tokens = tokenize_document(text, Edition::E2024);
    let (mut counts, mut line) = ([0; 3], Line::Blank);
    // A byte order mark and a shebang line are not tokens.
    if !matches!(&text[..tokens.offset()], "" | "\u{feff}") {
        line = Line::Code;
    }
    for piece in tokens.pieces() {
        let kind = match piece.token.kind {
            TokenKind::Whitespace => Line::Blank,
            TokenKind::LineComment { .. } | TokenKind::BlockComment { .. } => Line::Comment,
            _ => Line::Code,
        };
        // A token that ends with a line break, such as `r#` without a quote, has nothing on the next line.
        for part in piece.text.split_inclusive('\n') {
            line = line.max(kind);
            if part.ends_with('\n') {
                counts[line as usize] += 1;
                line = Line::Blank;
            }
        }
    }
    if !text.is_empty() && !text.ends_with('\n') {
        counts[line as usize] += 1;
    }
    counts
}

fn main() -> ExitCode {
    common::run(|output| {
        let paths: Vec<String> = env::args().skip(1).collect();
        if paths.is_empty() {
            return Err("usage: cargo run --example lines -- FILE..".into());
        }
        let (mut total, mut unread) = ([0; 3], 0);
        writeln!(output, "    code  comment    blank")?;
        for path in &paths {
            match common::read(Some(path)) {
                Ok(text) => {
                    let [blank, comment, code] = count(&text);
                    writeln!(output, "{code:8} {comment:8} {blank:8}  {path}")?;
                    total = [total[0] + blank, total[1] + comment, total[2] + code];
                }
                Err(error) => {
                    eprintln!("error: {error}");
                    unread += 1;
                }
            }
        }
        let [blank, comment, code] = total;
        writeln!(output, "{code:8} {comment:8} {blank:8}  total")?;
        match unread {
            0 => Ok(()),
            _ => Err(format!("files that are not counted: {unread}").into()),
        }
    })
}
