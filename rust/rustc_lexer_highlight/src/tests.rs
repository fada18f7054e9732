//! The style sheet has a rule for everything that [`write_highlighted`] writes in HTML, and for nothing else.

extern crate std;

use crate::{Class, Edition, Format, STYLE_SHEET, write_highlighted};
use std::format;
use std::string::String;

/// Returns the opening tag of a class in HTML.
fn tag(class: Class) -> &'static str {
    match class {
        Class::Plain => "",
        Class::Comment => "<span class=\"comment\">",
        Class::Doc => "<span class=\"doc\">",
        Class::Keyword => "<span class=\"keyword\">",
        Class::TypeName => "<span class=\"type\">",
        Class::Text => "<span class=\"text\">",
        Class::Escape => "<span class=\"escape\">",
        Class::Number => "<span class=\"number\">",
        Class::Lifetime => "<span class=\"lifetime\">",
    }
}

fn html(text: &str) -> String {
    let mut html = String::new();
    write_highlighted(Format::Html, Edition::E2024, text, &mut html).unwrap();
    html
}

#[test]
fn each_class_has_a_rule() {
    for (class, text) in [
        (Class::Plain, "a"),
        (Class::Comment, "// a"),
        (Class::Doc, "/// a"),
        (Class::Keyword, "fn"),
        (Class::TypeName, "Vec"),
        (Class::Text, "\"a\""),
        (Class::Escape, "'\\n'"),
        (Class::Number, "1"),
        (Class::Lifetime, "'a"),
    ] {
        let tag = tag(class);
        assert!(html(text).contains(tag), "{class:?}");
        if let Some((_, name)) = tag.split_once("class=\"") {
            let name = name.trim_end_matches("\">");
            let rule = format!("\n.rust-code .{name} {{ color: var(--");
            assert!(STYLE_SHEET.contains(&rule), "{class:?}");
        }
    }
}

#[test]
fn errors_have_rules() {
    assert!(html("0x").starts_with("<mark title="));
    assert!(STYLE_SHEET.contains("\n.rust-code mark {"));
    assert!(STYLE_SHEET.contains("\n.rust-code mark::after { content: attr(title);"));
}

/// The rest of a page that contains highlighted text keeps its own style.
#[test]
fn rules_apply_only_to_highlighted_text() {
    for line in STYLE_SHEET.lines().filter(|line| line.contains('{')) {
        let is_scoped = line.trim_start().starts_with(".rust-code ");
        assert!(
            is_scoped || line == "@media (prefers-color-scheme: dark) {",
            "{line}"
        );
    }
}

/// Both palettes have a value for each colour that a rule uses.
#[test]
fn palettes_are_complete() {
    for used in STYLE_SHEET.split("var(").skip(1) {
        let name = used.split(')').next().unwrap();
        let values = STYLE_SHEET.matches(&format!("{name}: #")).count();
        assert_eq!(values, 2, "{name}");
    }
}
