//! The output for documents: colours and tags, shebang lines, errors of several lines, control characters, editions.

use rustc_lexer_highlight::Edition::{self, E2015, E2018, E2021, E2024};
use rustc_lexer_highlight::Format::{self, Colours, Html, NoColours, Raw};
use rustc_lexer_highlight::write_highlighted;

/// A format, an edition, a text, and the output.
type Row<'a> = (Format, Edition, &'a str, &'a str);

/// Colours, escapes, tags and entities.
#[rustfmt::skip]
const FORMATS: [Row<'_>; 16] = [
    (Colours, E2024, "", ""),
    (Colours, E2024, "let x: Vec<u8> = 'é'; // b", "\x1b[35mlet\x1b[0m x: \x1b[1;34mVec\x1b[0m<u8> = \
        \x1b[32m'é'\x1b[0m; \x1b[90m// b\x1b[0m"),
    (Colours, E2024, "&'a 1 /// d", "&\x1b[33m'a\x1b[0m \x1b[36m1\x1b[0m \x1b[36m/// d\x1b[0m"),
    (Colours, E2024, "0x;", "\x1b[4;31m\x1b[36m0x\x1b[0m\x1b[0;31m [<- number has no digits]\x1b[0m;"),
    (Colours, E2024, "\"a\\n\\tb\"", "\x1b[32m\"a\x1b[0m\x1b[96m\\n\x1b[0m\x1b[96m\\t\x1b[0m\x1b[32mb\"\x1b[0m"),
    (Colours, E2024, "b\"\\xff\"", "\x1b[32mb\"\x1b[0m\x1b[96m\\xff\x1b[0m\x1b[32m\"\x1b[0m"),
    (Colours, E2024, "'\\''", "\x1b[32m'\x1b[0m\x1b[96m\\'\x1b[0m\x1b[32m'\x1b[0m"),
    (Colours, E2024, "\"a\\\n  b\\\n\"", "\x1b[32m\"a\x1b[0m\x1b[96m\\\n  \x1b[0m\x1b[32mb\x1b[0m\x1b[96m\\\n\
        \x1b[0m\x1b[32m\"\x1b[0m"),
    (Colours, E2024, "\"\\q\"", "\x1b[32m\"\x1b[0m\x1b[4;31m\x1b[32m\\q\x1b[0m\x1b[0;31m [<- unknown escape: \
        write a backslash as `\\\\`]\x1b[0m\x1b[32m\"\x1b[0m"),
    (Colours, E2024, "r\"\\n\"", "\x1b[32mr\"\\n\"\x1b[0m"),
    (Colours, E2024, "\"\"", "\x1b[32m\"\"\x1b[0m"),
    (Html, E2024, "\"<\\n\"", "<span class=\"text\">\"&lt;</span><span class=\"escape\">\\n</span>\
        <span class=\"text\">\"</span>"),
    (Html, E2024, "a<b>&&c", "a&lt;b&gt;&amp;&amp;c"),
    (Html, E2024, "\"&amp;\"", "<span class=\"text\">\"&amp;amp;\"</span>"),
    (Html, E2024, "r##\"<\"#", "<mark title=\"unterminated raw string: expected 2 `#` after the closing \
        quote, found 1 at byte 6\"><span class=\"text\">r##\"&lt;\"#</span></mark>"),
    (Html, E2024, "é", "é"),
];

/// Shebang lines, errors of several lines, and weak keywords.
#[rustfmt::skip]
const LINES: [Row<'_>; 23] = [
    (Colours, E2024, "#!/usr/bin/env rust\n---\na\n---\nfn", "\x1b[90m#!/usr/bin/env rust\x1b[0m\n\x1b[36m---\na\n\
        ---\x1b[0m\n\x1b[35mfn\x1b[0m"),
    (Colours, E2024, "#!/bin/sh 0x", "\x1b[90m#!/bin/sh 0x\x1b[0m"),
    (Colours, E2024, "#!\r\nfn", "\x1b[90m#!\x1b[0m\r\n\x1b[35mfn\x1b[0m"),
    (Colours, E2024, "#![a] // b", "#![a] \x1b[90m// b\x1b[0m"),
    (Colours, E2024, "#! [a]\n---\n---", "#! [a]\n---\n---"),
    (Colours, E2024, " #!/bin/sh", " #!/bin/sh"),
    (Html, E2024, "#!a<b\n¬", "<span class=\"comment\">#!a&lt;b</span>\n\
        <mark title=\"unexpected character: no token starts with it\">¬</mark>"),
    (NoColours, E2024, "\"a\n  b\n", "\"a [<- unterminated string: missing closing quote]\n  b\n"),
    (NoColours, E2024, "/* a\r\n b", "/* a [<- unterminated block comment]\r\n b"),
    (Colours, E2024, "\"a\n  b", "\x1b[4;31m\x1b[32m\"a\x1b[0m\x1b[0;31m [<- unterminated string: \
        missing closing quote]\x1b[0m\x1b[32m\n  b\x1b[0m"),
    (Html, E2024, "\"a\n  b", "<mark title=\"unterminated string: missing closing quote\">\
        <span class=\"text\">\"a</span></mark><span class=\"text\">\n  b</span>"),
    (NoColours, E2024, "0x 0b", "0x [<- number has no digits] 0b [<- number has no digits]"),
    (Colours, E2024, "a.union(&b)", "a.union(&b)"),
    (Colours, E2024, "union", "union"),
    (Colours, E2024, "auto", "auto"),
    (Colours, E2024, "default", "default"),
    (Colours, E2024, "macro_rules", "macro_rules"),
    (Colours, E2024, "raw", "raw"),
    (Colours, E2024, "safe", "safe"),
    (Colours, E2024, "gen", "gen"),
    (Colours, E2024, "r#fn", "r#fn"),
    (Colours, E2024, "e\u{301}", "e\u{301}"),
    (Colours, E2024, "let union = 1;", "\x1b[35mlet\x1b[0m union = \x1b[36m1\x1b[0m;"),
];

/// Control characters, line endings, and byte order marks.
#[rustfmt::skip]
const CONTROLS: [Row<'_>; 36] = [
    (NoColours, E2024, "// \x1b[2J\x07\0\x1f\x7f\t\u{9b}\u{80}\u{a0}", "// ␛[2J␇␀␟␡\t��\u{a0}"),
    (Colours, E2024, "// \x1b[0m", "\x1b[90m// ␛[0m\x1b[0m"),
    (Raw, E2024, "// \x1b[0m\r \0\u{9b}", "// \x1b[0m\r \0\u{9b}"),
    (Raw, E2024, "0x", "0x [<- number has no digits]"),
    (Html, E2024, "// \x1b\0\r<\r\n", "<span class=\"comment\">// \x1b&#0;&#13;&lt;</span>&#13;\n"),
    (NoColours, E2024, "// a\r\n/// b\r\n/* c\r\n */\r\n\r\n", "// a\r\n/// b\r\n/* c\r\n */\r\n\r\n"),
    (Colours, E2024, "// a\r\n", "\x1b[90m// a\x1b[0m\r\n"),
    (NoColours, E2024, "// a\r", "// a␍"),
    (NoColours, E2024, "/* a\r", "/* a [<- unterminated block comment]␍"),
    // A carriage return before a CRLF is not part of the line ending.
    (NoColours, E2024, "///a\r\r\n", "///a [<- bare CR in a doc comment: a CR must be part of a CRLF]␍\r\n"),
    (Colours, E2024, "///a\r\r\n", "\x1b[4;31m\x1b[36m///a\x1b[0m\x1b[0;31m [<- bare CR in a doc comment: \
        a CR must be part of a CRLF]\x1b[0m\x1b[36m␍\x1b[0m\r\n"),
    (NoColours, E2024, "#!\r\r\n", "#!␍\r\n"),
    (NoColours, E2024, "#!a\r", "#!a␍"),
    (NoColours, E2024, "---\n---\r\nfn", "---\n---\r\nfn"),
    (NoColours, E2024, "---\n---\r\r\nfn", "--- [<- unexpected text after the closing fence of a frontmatter]\n---␍\r\nfn"),
    (NoColours, E2024, "// a\rb\r\r\n", "// a␍b␍\r\n"),
    (NoColours, E2024, "a;\rb;\r\r\n", "a;␍b;␍\r\n"),
    (NoColours, E2024, "a;\r", "a;␍"),
    // A token can end between a carriage return and a newline.
    (NoColours, E2024, "let c = '\r\n", "let c = ' [<- unterminated character literal: missing closing quote]\r\n"),
    (Colours, E2024, "'\r\n",
        "\x1b[4;31m\x1b[32m'\x1b[0m\x1b[0;31m [<- unterminated character literal: missing closing quote]\x1b[0m\r\n"),
    (Html, E2024, "'\r\n",
        "<mark title=\"unterminated character literal: missing closing quote\"><span class=\"text\">'</span></mark>\
        &#13;\n"),
    (Raw, E2024, "'\r\n", "' [<- unterminated character literal: missing closing quote]\r\n"),
    (NoColours, E2024, "b'\\\r\n", "b'\\ [<- unterminated byte literal: missing closing quote]\r\n"),
    (NoColours, E2024, "'(\r\r\n", "'( [<- unterminated character literal: missing closing quote]␍\r\n"),
    (NoColours, E2024, "'\r/", "' [<- unterminated character literal: missing closing quote]␍/"),
    (NoColours, E2024, "'\r", "' [<- unterminated character literal: missing closing quote]␍"),
    (NoColours, E2024, "\x0b\x0c\u{85}a", "␋␌�a"),
    (Colours, E2024, "'\x1b'", "\x1b[32m'␛'\x1b[0m"),
    (NoColours, E2024, "\"\x1b\\q\x1b\"", "\"␛\\q [<- unknown escape: write a backslash as `\\\\`]␛\""),
    (NoColours, E2024, "#!/bin/sh \x1b\nfn", "#!/bin/sh ␛\nfn"),
    (Colours, E2024, "\u{feff}#!/bin/sh\n---\n---\nfn", "\u{feff}\x1b[90m#!/bin/sh\x1b[0m\n\x1b[36m---\n---\x1b[0m\n\
        \x1b[35mfn\x1b[0m"),
    (Html, E2021, "\u{feff}fn", "\u{feff}<span class=\"keyword\">fn</span>"),
    (NoColours, E2018, "\u{feff}", "\u{feff}"),
    (NoColours, E2018, "\u{feff}\u{feff}", "\u{feff}\u{feff} [<- unexpected character: no token starts with it]"),
    (NoColours, E2018, "a\u{feff}", "a\u{feff} [<- unexpected character: no token starts with it]"),
    (NoColours, E2018, "\u{fefe}", "\u{fefe} [<- unexpected character: no token starts with it]"),
];

/// Tokens that depend on the edition.
#[rustfmt::skip]
const EDITIONS: [Row<'_>; 20] = [
    (NoColours, E2024, "#\"a\"", "#\" [<- reserved syntax: guarded string]a [<- unknown prefix before \
        a quote or `#`]\" [<- unterminated string: missing closing quote]"),
    (NoColours, E2021, "#\"a\"", "#\"a\""),
    (NoColours, E2018, "#\"a\"", "#\"a\""),
    (NoColours, E2015, "#\"a\"", "#\"a\""),
    (NoColours, E2024, "z\"a\"", "z [<- unknown prefix before a quote or `#`]\"a\""),
    (NoColours, E2021, "z\"a\"", "z [<- unknown prefix before a quote or `#`]\"a\""),
    (NoColours, E2018, "z\"a\"", "z\"a\""),
    (NoColours, E2015, "z\"a\"", "z\"a\""),
    (NoColours, E2024, "k#a", "k#a [<- unknown prefix before a quote or `#`]"),
    (NoColours, E2021, "k#a", "k#a [<- unknown prefix before a quote or `#`]"),
    (NoColours, E2018, "k#a", "k#a"),
    (NoColours, E2015, "k#a", "k#a"),
    (NoColours, E2021, "#\"\\q\"", "#\"\\q [<- unknown escape: write a backslash as `\\\\`]\""),
    (Colours, E2024, "---\n---", "\x1b[36m---\n---\x1b[0m"),
    (Colours, E2021, "---\n---\n#\"a\"", "\x1b[36m---\n---\x1b[0m\n#\x1b[32m\"a\"\x1b[0m"),
    (Colours, E2015, "\n---\n---", "\n\x1b[36m---\n---\x1b[0m"),
    (Colours, E2018, "#\"a\"", "#\x1b[32m\"a\"\x1b[0m"),
    (Colours, E2015, "async fn", "async \x1b[35mfn\x1b[0m"),
    (Colours, E2018, "async fn", "\x1b[35masync\x1b[0m \x1b[35mfn\x1b[0m"),
    (Colours, E2018, "#!/bin/sh\nz'a'", "\x1b[90m#!/bin/sh\x1b[0m\nz\x1b[32m'a'\x1b[0m"),
];

#[test]
fn output_of_texts() {
    for (format, edition, text, wanted) in FORMATS
        .into_iter()
        .chain(LINES)
        .chain(CONTROLS)
        .chain(EDITIONS)
    {
        let mut written = String::new();
        write_highlighted(format, edition, text, &mut written).unwrap();
        assert_eq!(written, wanted, "{text} in {edition:?}");
    }
}

/// Returns all texts of up to `count` of these parts.
fn texts_of(parts: &[&str], count: usize) -> Vec<String> {
    let mut all = vec![String::new()];
    let mut longest = all.clone();
    for _ in 0..count {
        let longer = |text: &String| -> Vec<String> {
            parts.iter().map(|part| format!("{text}{part}")).collect()
        };
        longest = longest.iter().flat_map(longer).collect();
        all.extend_from_slice(&longest);
    }
    all
}

/// Without colours, tabs, newlines and the carriage returns of CRLFs are the only control characters of the output. With
/// colours, so are the escape characters of the colours.
#[test]
fn no_control_character_reaches_a_terminal() {
    let parts = [
        "///", "/*", "#!", "---\n---", "'\\", "a", "\r", "\n", "\x1b",
    ];
    for text in texts_of(&parts, 4) {
        for edition in [E2018, E2024] {
            let mut plain = String::new();
            write_highlighted(NoColours, edition, &text, &mut plain).unwrap();
            let rest = plain.replace("\r\n", "");
            let is_quiet = |c: char| !c.is_control() || c == '\n';
            assert!(rest.chars().all(is_quiet), "{text:?}: {plain:?}");

            let mut coloured = String::new();
            write_highlighted(Colours, edition, &text, &mut coloured).unwrap();
            for sgr in [90, 36, 35, 32, 96, 33, 0].map(|code| format!("\x1b[{code}m")) {
                coloured = coloured.replace(&sgr, "");
            }
            for sgr in ["\x1b[1;34m", "\x1b[4;31m", "\x1b[0;31m"] {
                coloured = coloured.replace(sgr, "");
            }
            assert_eq!(coloured, plain, "{text:?}");
        }
    }
}
