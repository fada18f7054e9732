//! The output in each format and edition, and a writer that fails.

use core::fmt;
use rustc_lexer_highlight::{Edition, Format, write_first_tokens, write_highlighted};

const NEWEST: Edition = Edition::NEWEST;

/// Returns the output for the first tokens of a text.
fn first(format: Format, edition: Edition, count: usize, text: &str) -> String {
    let mut written = String::new();
    write_first_tokens(format, edition, count, text, &mut written).unwrap();
    written
}

/// Returns the output for a whole text.
fn whole(format: Format, edition: Edition, text: &str) -> String {
    let mut written = String::new();
    write_highlighted(format, edition, text, &mut written).unwrap();
    written
}

#[test]
fn formats() {
    let text = "let \u{b7}";
    let message = "unexpected character: no token starts with it";
    let page =
        format!("<span class=\"keyword\">let</span> <mark title=\"{message}\">\u{b7}</mark>");
    let colours = format!("\x1b[35mlet\x1b[0m \x1b[4;31m\u{b7}\x1b[0;31m [<- {message}]\x1b[0m");
    let plain = format!("let \u{b7} [<- {message}]");
    for (format, wanted) in [
        (Format::Html, page),
        (Format::Colours, colours),
        (Format::NoColours, plain),
    ] {
        assert_eq!(whole(format, NEWEST, text), wanted);
        assert_eq!(first(format, NEWEST, 3, text), wanted);
    }
    let text = "// \x1b";
    assert_eq!(first(Format::Raw, NEWEST, 1, text), text);
    assert_eq!(first(Format::NoColours, NEWEST, 1, text), "// \u{241b}");
}

#[test]
fn a_fragment_has_no_shebang_line() {
    let text = "#!/a\nb";
    let highlighted = "<span class=\"comment\">#!/a</span>\nb";
    assert_eq!(whole(Format::Html, NEWEST, text), highlighted);
    for count in [9, usize::MAX] {
        assert_eq!(first(Format::Html, NEWEST, count, text), text);
    }
}

#[test]
fn the_first_tokens() {
    for (count, wanted) in [
        (0, ""),
        (1, "a"),
        (2, "a+"),
        (3, "a+1"),
        (4, "a+1"),
        (5, "a+1"),
        (usize::MAX, "a+1"),
        #[cfg(target_pointer_width = "64")]
        (1 << 32, "a+1"),
    ] {
        let written = first(Format::NoColours, NEWEST, count, "a+1");
        assert_eq!(written, wanted, "{count} tokens");
    }
    let many = ";".repeat(70_000);
    for count in [69_999, 70_000, 80_000] {
        let written = first(Format::NoColours, NEWEST, count, &many);
        assert!(written == many[..count.min(70_000)], "{count} tokens");
    }
    assert!(whole(Format::Html, NEWEST, &many) == many);
    let mark = "\u{feff} [<- unexpected character: no token starts with it]";
    assert_eq!(first(Format::NoColours, NEWEST, 1, "\u{feff}a"), mark);
}

#[test]
fn editions() {
    let lifetime = "<mark title=\"unknown lifetime prefix before `#`\"><span class=\"lifetime\">'a</span></mark>#b";
    assert_eq!(first(Format::Html, Edition::E2021, 3, "'a#b"), lifetime);
    let older = "<span class=\"lifetime\">'a</span>#b";
    assert_eq!(first(Format::Html, Edition::E2018, 3, "'a#b"), older);
    assert_eq!(whole(Format::Html, Edition::E2021, "'a#b"), lifetime);
    assert_eq!(whole(Format::Html, Edition::E2018, "'a#b"), older);
    assert_eq!(first(Format::Colours, Edition::E2015, 1, "dyn A"), "dyn");
    let keyword = "\x1b[35mdyn\x1b[0m";
    assert_eq!(first(Format::Colours, Edition::E2018, 1, "dyn A"), keyword);
    for &edition in Edition::ALL {
        let keyword = "\x1b[35mfn\x1b[0m";
        assert_eq!(
            first(Format::Colours, edition, 1, "fn"),
            keyword,
            "in {edition}"
        );
        assert_eq!(
            whole(Format::Colours, edition, "fn"),
            keyword,
            "in {edition}"
        );
    }
}

/// A carriage return before a newline is part of the line ending.
#[test]
fn literals_of_several_lines() {
    let bare = "[<- bare CR in a literal: write it as `\\r`]";
    let raw = "[<- bare CR in a raw string]";
    let lines = "[<- skipped blank line: an escaped newline skips it too]";
    let end = "[<- unescaped character: write it as an escape]";
    let digit = "[<- invalid character in an escape: `\\x` needs two hexadecimal digits]";
    let byte = "[<- non-ASCII character in a byte or byte string]";
    for (text, wanted) in [
        ("\"a\r\nb\"", "\"a\r\nb\"".to_owned()),
        ("\"a\\\r\n  b\"", "\"a\\\r\n  b\"".to_owned()),
        ("\"a\\\r\n\r\nb\"", format!("\"a\\ {lines}\r\n\r\nb\"")),
        ("\"a\r\r\nb\"", format!("\"a {bare}␍\r\nb\"")),
        ("'\r\n'", format!("' {end}\r\n'")),
        ("\"\\x\r\n\"", format!("\"\\x {digit}\r\n\"")),
        ("b\"é\r\n\"", format!("b\"é {byte}\r\n\"")),
        ("r\"\\\r\n\"", "r\"\\\r\n\"".to_owned()),
        ("r\"\r\r\n\"", format!("r\" {raw}␍\r\n\"")),
    ] {
        assert_eq!(whole(Format::NoColours, NEWEST, text), wanted);
    }
    for (text, wanted) in [
        (
            "\"a\\\r\n  b\"",
            "\"a</span><span class=\"escape\">\\&#13;\n  </span>",
        ),
        ("'\r\n'", "</mark><span class=\"text\">&#13;\n</span>"),
        ("\"\\x\r\n\"", "</mark><span class=\"text\">&#13;\n</span>"),
    ] {
        let highlighted = whole(Format::Html, NEWEST, text);
        assert!(highlighted.contains(wanted), "{highlighted}");
    }
}

/// Only a document can start with a frontmatter. In a fragment, its dashes are symbols.
#[test]
fn only_a_document_has_a_frontmatter() {
    let text = "---\na\n---\nfn";
    let highlighted = whole(Format::Html, NEWEST, text);
    let (front, rest) = highlighted.split_once(">---\na\n---</span>\n").unwrap();
    assert!(front.starts_with("<span") && rest.starts_with("<span"));
    assert_eq!(first(Format::Html, NEWEST, 3, text), "---");
}

/// A writer that fails after this many calls.
struct Few(usize);

impl fmt::Write for Few {
    fn write_str(&mut self, _: &str) -> fmt::Result {
        self.0 = self.0.checked_sub(1).ok_or(fmt::Error)?;
        Ok(())
    }
}

#[test]
fn errors_of_the_writer() {
    let takes = |calls, count| {
        write_first_tokens(Format::Html, NEWEST, count, "a+1", &mut Few(calls)).is_ok()
    };
    assert!(takes(0, 0) && !takes(0, 1) && takes(3, 1) && !takes(3, 2));
    let highlighted =
        |calls, text| write_highlighted(Format::Html, NEWEST, text, &mut Few(calls)).is_ok();
    assert!(
        highlighted(0, "")
            && !highlighted(0, "a+1")
            && !highlighted(3, "a+1")
            && highlighted(99, "a+1")
    );
    assert!(
        !highlighted(0, "#!/a") && highlighted(99, "#!/a"),
        "a shebang line"
    );
}

/// A format can be a key of a map.
#[test]
fn a_format_is_a_key() {
    fn is_key<T: Copy + Eq + std::hash::Hash>() {}
    is_key::<Format>();
}
