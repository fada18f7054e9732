//! Tests the functions that the page calls. `tests/manual/page` tests the page itself.

use crate::editions;
use crate::json::push_text;
use crate::listing;
use crate::seen::{self, piece};
use crate::source::{EDITIONS, Source};
use crate::value::value;
use crate::window::{Line, lines_of};
use rustc_lexer::{Edition, FrontmatterAllowed, tokenize};

/// The index of the newest edition.
const NEWEST: usize = EDITIONS - 1;

fn source(text: &str, document: bool) -> Source {
    let mut source = Source::new();
    source.change(text, document);
    source
}

/// Returns all lines of a text, in the newest edition.
fn lines(source: &Source) -> Vec<Line> {
    lines_of(source, 0..source.text().len(), 0..0, NEWEST)
}

/// Checks that a result contains a part.
#[track_caller]
fn has(answer: &str, part: &str) {
    assert!(answer.contains(part), "no {part} in {answer}");
}

/// Checks that a result ends with a part.
#[track_caller]
fn ends(answer: &str, part: &str) {
    assert!(answer.ends_with(part), "no {part} at the end of {answer}");
}

/// Returns the classes and the texts of a line.
fn runs(line: &Line) -> Vec<(&str, &str)> {
    let runs = line.runs.iter();
    runs.map(|run| (&*run.class, &*run.text)).collect()
}

#[test]
fn values_of_literals() {
    let wrong = Some("nothing: it is wrong");
    for (literal, wanted) in [
        ("'é'x", Some(r#"1 character: "\u{e9}""#)),
        ("'ab'", wrong),
        (r"b'\xff'", Some(r#"1 byte: "\xff""#)),
        (r#""aé\n""#, Some(r#"3 characters: "a\u{e9}\n""#)),
        ("\"a\\\n\n  b\"", Some(r#"2 characters: "ab""#)),
        ("\"a\r\nb\\\r\n  c\"", Some(r#"4 characters: "a\nbc""#)),
        ("br\"\r\n\"", Some(r#"1 byte: "\n""#)),
        ("\"a\r\r\n\"", wrong),
        (r#""\q""#, wrong),
        // an error followed by a warning: a skipped line end, and then an empty line
        ("\"\\q\\\n\n\"", wrong),
        ("b\"\\q\\\n\n\"", wrong),
        ("c\"\\q\\\n\n\"", wrong),
        (r#"r"\n""#, Some(r#"2 characters: "\\n""#)),
        (r#"b"a\xff""#, Some(r#"2 bytes: "a\xff""#)),
        (r##"br#"\"#"##, Some(r#"1 byte: "\\""#)),
        (r#"br"é""#, wrong),
        (r#"c"é\xff""#, Some(r#"4 bytes: "\xc3\xa9\xff\x00""#)),
        (r#"cr"\""#, Some(r#"2 bytes: "\\\x00""#)),
        ("cr\"\0\"", wrong),
        (r#""""#, Some(r#"0 characters: """#)),
        (r#""a"#, None),
        ("1u8", None),
    ] {
        let token = tokenize(literal, FrontmatterAllowed::No).next().unwrap();
        assert_eq!(value(token.kind, literal).as_deref(), wanted, "{literal}");
    }
}

/// Only a line feed ends a line.
#[test]
fn line_ends() {
    let source = source("a\r\nb\rc", false);
    assert_eq!((source.line_count(), source.line_start(1)), (2, 3));
    assert_eq!(lines(&source).len(), 2);
}

/// Escapes of JSON, by RFC 8259; two line terminators of JavaScript are escaped as well.
#[test]
fn texts_in_json() {
    let mut out = String::new();
    push_text(&mut out, "\"\\/\n\u{1f}\u{7f}é\u{2028}\u{2029}");
    assert_eq!(out, "\"\\\"\\\\/\\u000a\\u001f\u{7f}é\\u2028\\u2029\"");
}

#[test]
fn places() {
    let source = source("aé\n\n😀b", false);
    assert_eq!((source.line_count(), source.line_start(2)), (3, 5));
    assert_eq!(source.line_start(3), source.text().len());
    // A byte belongs to the first token that ends after it.
    assert_eq!(source.token_start_at(NEWEST, 3), (1, 3));
    assert_eq!(source.token_start_at(NEWEST, 10), (3, 10));
    for (at, place) in [
        (0, (1, 1)),
        (3, (1, 3)),
        (4, (2, 1)),
        (5, (3, 1)),
        (9, (3, 2)),
        (10, (3, 3)),
    ] {
        assert_eq!(source.place(at), place, "byte {at}");
    }
    // The caret counts UTF-16 code units. Inside a surrogate pair, it is before the character.
    for (units, byte) in [
        (0, 0),
        (1, 1),
        (2, 3),
        (4, 5),
        (5, 5),
        (6, 9),
        (7, 10),
        (99, 10),
    ] {
        assert_eq!(source.byte_of(units), byte, "unit {units}");
    }
}

/// Each text replaces the previous one: the tokens equal a full re-lex, and few are lexed.
#[test]
fn changes() {
    let mut source = source("#!/a\nlet x = 'b';", true);
    assert_eq!((source.begin(), source.is_document()), (4, true));
    assert!(source.last(NEWEST).is_none());
    for text in [
        // characters that share their last byte, and then their first
        "#!/a\nlet xé = 'b';",
        "#!/a\nlet x© = 'b';",
        "#!/a\nlet xª = 'b';",
        "#!/a\nlet x© = 'b'; 'b';",
        "",
        "---\n---\n'r#a",
        "ê",
    ] {
        source.change(text, true);
        assert_eq!((source.text(), &*source.as_lexed_anew()), (text, "yes"));
        assert_eq!(source.line_count(), text.split('\n').count());
    }
    source.change("ab cd ef gh", false);
    assert!(source.last(NEWEST).is_none());
    let all = r#"{ "bytes":11,"lines":1,"kept":null}"#;
    assert_eq!(seen::kept(&source, NEWEST), all);
    source.change("ab cd xef gh", false);
    // The kept tokens, by docs/RELEXING.md.
    let kept = r#"{ "bytes":12,"lines":1,"kept":[2,3,2]}"#;
    assert_eq!(seen::kept(&source, NEWEST), kept);
    assert_eq!(source.as_lexed_anew(), "yes");
}

#[test]
fn highlighting_of_lines() {
    let source = source("fn f() {\n  \"<&é>\" // x\n}\n", false);
    let lines = lines(&source);
    assert_eq!(lines.len(), 4);
    assert_eq!(runs(&lines[0]), [("keyword", "fn"), ("", " f() {")]);
    let (string, comment) = (("text", "\"<&é>\""), ("comment", "// x"));
    assert_eq!(runs(&lines[1]), [("", "  "), string, ("", " "), comment]);
    assert_eq!(runs(&lines[2]), [("", "}")]);
    assert_eq!(runs(&lines[3]), []);
    assert_eq!(seen::parts_alike(&source, NEWEST), "");
}

/// The classes are those of docs/RUST_LEX.md: a document starts with a shebang line and a frontmatter.
#[test]
fn highlighting_of_a_document() {
    let text = "#!/a\n---\nb\n---\nfn\n---";
    let (whole, part) = (source(text, true), source(text, false));
    let of_whole = ["comment", "doc", "doc", "doc", "keyword", ""];
    for (source, wanted) in [(&whole, of_whole), (&part, ["", "", "", "", "keyword", ""])] {
        let lines = lines(source);
        let classes: Vec<&str> = lines.iter().map(|line| &*line.runs[0].class).collect();
        assert_eq!(classes, wanted);
    }
    assert_eq!(seen::parts_alike(&whole, NEWEST), "");
}

/// The limits for highlighting and messages of a line, as in docs/PLAYGROUND.md.
#[test]
fn limits() {
    for rest in ["a".repeat(4100), "é".repeat(2050)] {
        let long = source(&format!("//{rest}"), false);
        let runs = &lines(&long)[0].runs;
        assert!(runs.iter().map(|run| run.text.len()).eq([4000, 102]));
    }
    let twice = format!("//{0}\n//{0}", "a".repeat(3000));
    let lines_of_twice = lines(&source(&twice, false));
    assert!(lines_of_twice.iter().all(|line| line.runs.len() == 1));
    let wrong = source(&"0x ".repeat(11), false);
    assert_eq!(lines(&wrong)[0].said.len(), 10);
    assert!(lines(&wrong)[0].runs[0].wrong);
    let (forty, more) = ("b".repeat(40), "b".repeat(41));
    assert_eq!(piece(&forty), forty);
    let wide = "é".repeat(40);
    assert_eq!(piece(&wide), wide);
    let cut = format!("{forty}\u{2026}");
    assert_eq!(piece(&more), cut);
    assert_eq!(piece("\t\u{7f}é"), "\\t\\u{7f}é");
    assert_eq!(piece("\0\u{85}\u{a0}"), "\\u{0}\\u{85}\u{a0}");
    // Lexed tokens are not highlighted after the highlighted part, either.
    let long = source(&"a".repeat(4102), false);
    let fresh = lines_of(&long, 0..4102, 0..4102, NEWEST)[0].runs.clone();
    let fresh = fresh.iter().map(|run| (run.fresh, run.text.len()));
    assert!(fresh.eq([(true, 4000), (false, 102)]));
    let many = seen::show(&source(&";".repeat(301), false), 0, 1, 0, NEWEST);
    assert_eq!(many.matches("\"number\":").count(), 300);
    let differ = editions::write(&source(&"q#a ".repeat(60), false));
    assert!(differ.contains("\"differ\":60,") && differ.matches("\"place\":").count() == 50);
}

#[test]
fn where_editions_differ() {
    assert_eq!(editions::years(), "[2015,2018,2021,2024]");
    let older = r#"[["Ident","q"]]"#;
    let newer = r#"[["UnknownPrefix","q"]]"#;
    let place =
        format!(r#"{{ "place":"2:1","text":"q","editions":[{older},{older},{newer},{newer}]}}"#);
    let wanted = format!(r#"{{ "counts":[4,4,4,4],"differ":1,"places":[{place}]}}"#);
    assert_eq!(editions::write(&source("\nq#a", false)), wanted);
    // Three tokens of one edition are one of another: the difference ends where a token ends in all editions.
    let older = r##"[["Lifetime","'r"],["Pound","#"],["Ident","foo"]]"##;
    let newer = r##"[["RawLifetime","'r#foo"]]"##;
    let place = format!(
        r##"{{ "place":"1:1","text":"'r#foo","editions":[{older},{older},{newer},{newer}]}}"##
    );
    let wanted = format!(r#"{{ "counts":[5,5,3,3],"differ":1,"places":[{place}]}}"#);
    assert_eq!(editions::write(&source("'r#foo a", false)), wanted);
    // A second difference has its own tokens.
    let place = |column, name| {
        let older = format!(r##"[["Lifetime","'r"],["Pound","#"],["Ident","{name}"]]"##);
        let newer = format!(r##"[["RawLifetime","'r#{name}"]]"##);
        format!(
            r##"{{ "place":"1:{column}","text":"'r#{name}","editions":[{older},{older},{newer},{newer}]}}"##
        )
    };
    let places = [place(1, "a"), place(6, "b")].join(",");
    let wanted = format!(r#"{{ "counts":[7,7,3,3],"differ":2,"places":[{places}]}}"#);
    assert_eq!(editions::write(&source("'r#a 'r#b", false)), wanted);
}

/// The listing is that of `lexdump`, whose offsets count from the end of a shebang line.
#[test]
fn listings() {
    let source = source("#!/a\nb+", true);
    let listed = listing::write(&source, 0..3, NEWEST);
    assert_eq!(listed, "0 1 Whitespace\n1 1 Ident\n2 1 Plus\n");
    // A long listing is written in blocks of 65536 bytes.
    let count = 70_000;
    let source = self::source(&";".repeat(count), false);
    let wanted: String = (0..count).map(|at| format!("{at} 1 Semi\n")).collect();
    assert!(listing::write(&source, 0..count, NEWEST) == wanted);
}

/// Each function, with a text in a buffer that can be larger.
#[test]
fn calls_of_the_page() {
    let answered = |len| {
        // SAFETY: the result has `len` bytes, and no other function is called meanwhile.
        unsafe {
            String::from_utf8_lossy(std::slice::from_raw_parts(crate::answer(), len)).into_owned()
        }
    };
    // SAFETY: the buffer has nine bytes.
    unsafe { crate::room(9).copy_from(b"a\xff+cdefgh".as_ptr(), 9) };
    let kept = r#"{ "bytes":5,"lines":1,"kept":[0,3,0]}"#;
    assert_eq!(answered(crate::change(3, false, NEWEST)), kept);
    let listed = answered(crate::listing(NEWEST));
    assert_eq!(listed, "0 1 Ident\n1 3 Unknown\n4 1 Plus\n");
    assert_eq!(answered(crate::as_lexed_anew()), "yes");
    assert_eq!(answered(crate::parts_alike(NEWEST)), "");
    assert_eq!(answered(crate::years()), "[2015,2018,2021,2024]");
    let shown = answered(crate::show(0, 1, 2, NEWEST));
    ends(&shown, r#""place":"1:3"}"#);
    // Nothing was kept, so nothing is highlighted as lexed.
    let is_fresh = shown.contains(r#""fresh":true"#) || shown.contains(" fresh");
    assert!(!is_fresh, "{shown}");
    has(
        &shown,
        r#"{ "number":0,"start":0,"bytes":1,"place":"1:1","text":"a","#,
    );
    assert!(answered(crate::editions()).starts_with(r#"{ "counts":[3,3,3,3],"differ":0,"#));
    // A byte order mark is part of the text.
    // SAFETY: the buffer has four bytes.
    unsafe { crate::room(4).copy_from("\u{feff}b".as_ptr(), 4) };
    answered(crate::change(4, false, NEWEST));
    let listed = answered(crate::listing(NEWEST));
    assert_eq!(listed, "0 3 Unknown\n3 1 Ident\n");
    // Characters that are entities in HTML.
    // SAFETY: the buffer has three bytes.
    unsafe { crate::room(3).copy_from("\0\r<".as_ptr(), 3) };
    answered(crate::change(3, false, NEWEST));
    has(
        &answered(crate::show(0, 1, 0, NEWEST)),
        r#"[[" wrong","\u0000"],["","\u000d<"]]"#,
    );
    // The number of lines has no limit.
    let long = "a\n".repeat(150);
    // SAFETY: the buffer has `long.len()` bytes.
    unsafe { crate::room(long.len()).copy_from(long.as_ptr(), long.len()) };
    answered(crate::change(long.len(), false, NEWEST));
    let shown = answered(crate::show(0, 150, 0, NEWEST));
    assert_eq!(shown.matches(r#""runs":"#).count(), 150);
    // Each function with an edition uses it.
    for (edition, count) in [3, 3, 1, 1].into_iter().enumerate() {
        // SAFETY: the buffer has four bytes.
        unsafe { crate::room(4).copy_from(b"'r#a".as_ptr(), 4) };
        let kept = format!(r#"{{ "bytes":4,"lines":1,"kept":[0,{count},0]}}"#);
        assert_eq!(answered(crate::change(4, false, edition)), kept);
        let listed = answered(crate::listing(edition));
        assert_eq!(listed.lines().count(), count);
        let shown = answered(crate::show(0, 1, 0, edition));
        has(&shown, &format!(r#""count":{count},"#));
        assert_eq!(answered(crate::parts_alike(edition)), "");
        assert_eq!(answered(crate::as_lexed_anew()), "yes");
    }
}

/// The visible line, the token at the caret, and a token elsewhere.
#[test]
fn visible_line() {
    let mut source = source("a\nb\nc", false);
    source.change("a\nbd\nc", false);
    let seen = seen::show(&source, 1, 1, 0, NEWEST);
    has(&seen, r#""lines":[{ "runs":[[" fresh","bd"]],"said":[]}]"#);
    has(&seen, r#""count":5,"begin":0,"#);
    has(
        &seen,
        r#""at":0,"elsewhere":[{ "number":0,"start":0,"bytes":1,"place":"1:1","text":"a","kind":"Ident""#,
    );
    has(
        &seen,
        concat!(
            r#"{ "number":2,"start":2,"bytes":2,"place":"2:1","text":"bd","kind":"Ident","#,
            r#""fields":"","value":"","fresh":true}"#
        ),
    );
    ends(&seen, r#""place":"1:1"}"#);
}

/// A caret below the visible lines; the bytes and the value of a literal; a line starts after each newline.
#[test]
fn caret_and_literal() {
    let seen = seen::show(&source("a\nb\nc", false), 0, 1, 4, NEWEST);
    has(
        &seen,
        r#""at":4,"elsewhere":[{ "number":4,"start":4,"bytes":1,"place":"3:1","text":"c","#,
    );
    ends(&seen, r#""place":"3:1"}"#);
    let literal = source("\"é\"\n", false);
    let kept = r#"{ "bytes":5,"lines":2,"kept":[0,2,0]}"#;
    assert_eq!(seen::kept(&literal, NEWEST), kept);
    let fields = r#""kind":"Literal","fields":"kind=Str terminated=true suffix_start=4""#;
    let value = r#""value":"1 character: \"\\u{e9}\"""#;
    has(
        &seen::show(&literal, 0, 1, 0, NEWEST),
        &format!(r#""start":0,"bytes":4,"place":"1:1","text":"\"é\"",{fields},{value},"fresh":"#),
    );
}

/// Many visible lines in a long text, and tokens far from its start.
#[test]
fn many_visible_lines() {
    let source = source(&";\n".repeat(35_000), false);
    let seen = seen::show(&source, 30_000, 150, 0, NEWEST);
    assert_eq!(seen.matches(r#""runs":[["",";"]]"#).count(), 150);
    has(&seen, r#""count":70000,"begin":0,"#);
    has(
        &seen,
        r#""tokens":[{ "number":60000,"start":60000,"bytes":1,"place":"30001:1","text":";","kind":"Semi","#,
    );
    has(
        &seen,
        r#"{ "number":60298,"start":60298,"bytes":1,"place":"30150:1","#,
    );
    let kept = r#"{ "bytes":70000,"lines":35001,"kept":[0,70000,0]}"#;
    assert_eq!(seen::kept(&source, NEWEST), kept);
    let differ = r#"{ "counts":[70000,70000,70000,70000],"differ":0,"places":[]}"#;
    assert_eq!(editions::write(&source), differ);
    assert_eq!(source.as_lexed_anew(), "yes");
}

/// Lookahead characters of tokens, typed next to each other and deleted again.
#[test]
fn characters_typed_side_by_side() {
    let typed = ["r", "#", "\"", "'", "k", "1", ".", "/"];
    for number in 0..typed.len().pow(3) {
        let parts = [number / 64, number / 8 % 8, number % 8].map(|part| typed[part]);
        let mut source = source("a", false);
        for count in [1, 2, 3, 2, 1] {
            source.change(&["a ", &parts[..count].concat()].concat(), false);
            assert_eq!(source.as_lexed_anew(), "yes", "{:?}", source.text());
        }
    }
}

/// Line 201 of 400. A line has a word and a newline: three bytes in lines 1 to 10, four up to line 100, and then five.
#[test]
fn visible_line_far_down() {
    let text: String = (0..400).map(|number| format!("x{number}\n")).collect();
    let seen = seen::show(&source(&text, false), 200, 1, 4, NEWEST);
    let lines = r#"{ "lines":[{ "runs":[["","x200"]],"said":[]}],"count":800,"begin":0,"#;
    let token = r#""kind":"Ident","fields":"","value":"","fresh":false}"#;
    let tokens = r#""tokens":[{ "number":400,"start":890,"bytes":4,"place":"201:1","text":"x200","#;
    let other =
        r#""at":2,"elsewhere":[{ "number":2,"start":3,"bytes":2,"place":"2:1","text":"x1","#;
    let wanted = format!(r#"{lines}{tokens}{token}],{other}{token}],"place":"2:2"}}"#);
    assert_eq!(seen, wanted);
}

/// The positions of tokens in a document count its shebang line.
#[test]
fn visible_lines_of_a_document() {
    let mut document = source("#!/é\nq#b", true);
    let seen = seen::show(&document, 0, 2, 5, NEWEST);
    let lines = r##""lines":[{ "runs":[["comment","#!/é"]],"said":[]},{ "runs":[[" wrong","q"],["","#b"]],"said":["##;
    has(&seen, lines);
    has(&seen, r#""count":4,"begin":5,"#);
    for token in [
        r#"{ "number":0,"start":5,"bytes":1,"place":"1:5","text":"\\n","kind":"Whitespace","#,
        r#"{ "number":1,"start":6,"bytes":1,"place":"2:1","text":"q","kind":"UnknownPrefix","#,
        r#"{ "number":3,"start":8,"bytes":1,"place":"2:3","text":"b","kind":"Ident","#,
    ] {
        has(&seen, token);
    }
    ends(&seen, r#""at":1,"elsewhere":[],"place":"2:1"}"#);
    let differ = editions::write(&document);
    let wanted = r#"{ "counts":[4,4,4,4],"differ":1,"places":[{ "place":"2:1","text":"q","editions":[[["Ident","q"]],"#;
    assert!(differ.starts_with(wanted), "{differ}");
    document.change("#!/é\nq#bc", true);
    let seen = seen::show(&document, 1, 1, 5, NEWEST);
    let lines = r##""lines":[{ "runs":[[" wrong","q"],[" fresh","#bc"]],"said":["##;
    has(&seen, lines);
}

/// An edit in the first token keeps all tokens after it.
#[test]
fn an_edit_of_the_first_token() {
    let mut source = source("ab cd", false);
    source.change("xab cd", false);
    let seen = seen::show(&source, 0, 1, 0, NEWEST);
    has(&seen, r#""runs":[[" fresh","xab"],[""," cd"]]"#);
    assert_eq!(seen.matches(r#""fresh":true"#).count(), 1, "{seen}");
    has(
        &seen,
        r#""text":"xab","kind":"Ident","fields":"","value":"","fresh":true"#,
    );
}

/// Lexed tokens are highlighted from the first to the last. docs/RELEXING.md says which tokens are kept.
#[test]
fn an_edit_that_lexes_three_tokens() {
    let mut source = source("ab cd ef gh", false);
    source.change("ab cd xef gh", false);
    let seen = seen::show(&source, 0, 1, 0, NEWEST);
    has(
        &seen,
        r#""runs":[["","ab "],[" fresh","cd xef"],[""," gh"]]"#,
    );
    assert_eq!(seen.matches(r#""fresh":true"#).count(), 3, "{seen}");
}

/// For an error inside a literal, only the escape is highlighted.
#[test]
fn errors_inside_literals() {
    let source = source(r#""a\q\n""#, false);
    let line = &lines(&source)[0];
    let runs: Vec<_> = line
        .runs
        .iter()
        .map(|run| (&*run.class, run.wrong, &*run.text))
        .collect();
    let wanted = [
        ("text", false, "\"a"),
        ("text", true, "\\q"),
        ("escape", false, "\\n"),
        ("text", false, "\""),
    ];
    assert_eq!((runs, line.said.len()), (wanted.to_vec(), 1));
    has(
        &seen::show(&source, 0, 1, 0, NEWEST),
        r#"["text wrong","\\q"],["escape","\\n"]"#,
    );
}

/// The self-tests of the page find wrong tokens, here those of an older edition: there, a raw string starts in the
/// first line, and since 2021 a string, in which the second line has an error.
#[test]
fn self_tests_find_wrong_tokens() {
    use Edition::{E2015, E2018, E2021, E2024};
    for document in [false, true] {
        let held = |editions| Source::in_editions("'r#r\"\n\\q\"", document, editions);
        let source = held([E2018; EDITIONS]);
        assert_eq!(seen::parts_alike(&source, NEWEST), "2");
        assert_eq!(seen::parts_alike(&source, 0), "");
        for (editions, wrong) in [
            ([E2015, E2018, E2021, E2024], "yes"),
            ([E2018; EDITIONS], "2021"),
            ([E2024; EDITIONS], "2015"),
            ([E2021, E2018, E2021, E2024], "2015"),
            ([E2015, E2021, E2021, E2024], "2018"),
            ([E2015, E2018, E2018, E2024], "2021"),
            ([E2015, E2018, E2021, E2018], "2024"),
        ] {
            assert_eq!(held(editions).as_lexed_anew(), wrong, "{editions:?}");
        }
    }
}

/// A caret after all tokens belongs to the last token, if there is one.
#[test]
fn a_caret_at_the_end() {
    let seen = seen::show(&source("a+", false), 0, 1, 2, NEWEST);
    ends(&seen, r#""at":1,"elsewhere":[],"place":"1:3"}"#);
    let empty = concat!(
        r#"{ "lines":[{ "runs":[],"said":[]}],"count":0,"begin":0,"tokens":[],"at":0,"#,
        r#""elsewhere":[],"place":"1:1"}"#
    );
    assert_eq!(seen::show(&source("", false), 0, 1, 0, NEWEST), empty);
}

/// The message for a token of several lines is next to its first line, even if only another line is visible.
#[test]
fn errors_over_lines() {
    let source = source("\"a\nb", false);
    let said: Vec<_> = lines(&source).iter().map(|line| line.said.len()).collect();
    assert_eq!(said, [1, 0]);
    assert_eq!(lines_of(&source, 3..4, 0..0, NEWEST)[0].said.len(), 0);
    assert_eq!(seen::parts_alike(&source, NEWEST), "");
}
