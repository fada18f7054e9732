//! The calls that edit a `LexedText`, compared with their definition, with a stepper that counts: each call makes
//! exactly the steps of the definition, also if an edit is rejected.

mod defined;
mod made;
mod random;
#[path = "../../rattle_support/tests/refusing/mod.rs"]
mod refusing;

use defined::{
    Counting, Document, Fragment, Kept, LANGUAGES, Language, Made, is_inside, of_all, of_list,
    of_other,
};
use made::{counts, edit, token};
use random::Random;
use refusing::in_turn;
use rustc_lexer::{
    Edit, EditSequenceError, EditStop, Edition, LexedText, Relexed, Stepper, Steps, Token,
    TokenKind,
};
use std::ops::{Range, RangeInclusive};

/// Random texts and edits consist of these: they start, end and break shebang lines, frontmatters and other tokens.
#[rustfmt::skip]
const BITS: &[&str] = &[
    "#!", "#", "!", "[", "/", "\n", "\n", " ", "---", "---\n", "\n---", "-", "use ", "\nuse ", "//", "/*", "*/",
    "\"", "'", "r#\"", "\"#", "'r#a", "##", "a", "aa", "b", "1.", ".", "e", "é", "😀", "\u{10ffff}", "\0", "\u{feff}",
    "let x = 1;",
];

/// The starts of texts: each head of a document, both together, and after a byte order mark.
const FRONTS: [&str; 6] = [
    "",
    "#!/bin/sh\n",
    "---\na\n---\n",
    "#!/bin/sh\n\n---\na\n---\n",
    "\u{feff}",
    "\u{feff}#!/bin/sh\n---\n---\n",
];

/// Asserts that a call made this text and took a number of steps in the range.
fn check<K: Kept>(
    held: &K,
    before: usize,
    made: &Made,
    steps: RangeInclusive<usize>,
    context: &str,
) {
    held.is_of(&made.text, &made.layout, context);
    let taken = held.steps() - before;
    assert!(
        steps.contains(&taken),
        "{taken} steps of {steps:?}: {context}"
    );
}

/// Applies a list with `edit_all` and with `edit_sequence`. Returns the result of both.
fn list<K: Kept>(held: &mut K, text: &str, language: Language, edits: &[Edit<'_>]) -> Made {
    let made = of_list::<K>(text, language, edits);
    let context = format!("{text:?} with {edits:?} in {language:?}");
    let before = held.steps();
    let mut by_all = held.clone();
    let all = made.answer.map(drop).map_err(|stopped| stopped.stop);
    assert_eq!(held.edit_sequence(edits), made.answer, "{context}");
    assert_eq!(by_all.edit_all(edits), all, "{context}");
    for held in [&*held, &by_all] {
        check(held, before, &made, made.steps..=made.steps, &context);
    }
    made
}

/// Applies edits with `edit_batch`. Returns the text that they leave.
fn all<K: Kept>(held: &mut K, text: &str, language: Language, edits: &[Edit<'_>]) -> String {
    let context = format!("{text:?} with {edits:?} at once in {language:?}");
    let (before, made) = (held.steps(), of_all::<K>(text, language, edits));
    let answer = made
        .as_ref()
        .map(|made| made.answer.unwrap())
        .map_err(|&stop| stop);
    assert_eq!(held.edit_batch(edits), answer, "{context}");
    let made = made.unwrap_or_else(|_| of_list::<K>(text, language, &[]));
    check(held, before, &made, made.steps..=made.steps, &context);
    made.text
}

/// Replaces the text with `set_text`.
fn other<K: Kept>(held: &mut K, text: &str, language: Language, other: &str) {
    let context = format!("{text:?} becomes {other:?} in {language:?}");
    let (before, made) = (held.steps(), of_other::<K>(text, language, other));
    assert_eq!(
        held.try_set_text(other),
        Ok(made.answer.unwrap()),
        "{context}"
    );
    check(held, before, &made, made.steps..=made.steps, &context);
}

/// Invalid ranges of a text: reversed, inside a character, and past the end in four ways.
fn bad_ranges(text: &str) -> Vec<Range<usize>> {
    let len = text.len();
    let mut ranges = vec![len + 1..len, len..len + 1, len + 1..len + 1, 0..usize::MAX];
    ranges.push(usize::MAX..usize::MAX);
    if let Some((at, c)) = text.char_indices().find(|(_, c)| c.len_utf8() > 1) {
        ranges.extend([at..at + 1, at + 1..at + c.len_utf8(), at + 1..at + 1]);
    }
    if len > 0 {
        ranges.extend([len..0, len..len - 1]);
    }
    ranges
}

/// Ranges with their insertions.
type Edits = Vec<(Range<usize>, String)>;

fn as_edits(edits: &Edits) -> Vec<Edit<'_>> {
    let edits = edits.iter();
    edits
        .map(|(range, insert)| edit(range.start, range.end, insert))
        .collect()
}

impl Random {
    fn front(&mut self) -> String {
        FRONTS[self.below(FRONTS.len())].to_owned()
    }

    fn one_of(&mut self, ranges: Vec<Range<usize>>) -> Range<usize> {
        ranges[self.below(ranges.len())].clone()
    }

    /// Edits one after another, anywhere, at the start or near the previous one. Few are invalid.
    fn list(&mut self, text: &str, count: usize) -> Edits {
        let (mut text, mut edits, mut at) = (text.to_owned(), Edits::new(), 0);
        for _ in 0..count {
            let most = [0, 1, 1, 3][self.below(4)];
            let insert = self.text(most);
            if self.below(100) == 0 {
                edits.push((self.one_of(bad_ranges(&text)), insert));
                continue;
            }
            let mut from = [0, 0, at, at][self.below(4)].min(text.len());
            while !text.is_char_boundary(from) {
                from -= 1;
            }
            let first = [text.len(), 6][self.below(2)];
            let most = [0, 2, 8][self.below(3)];
            let range = self.range_in(&text[from..], first, most);
            let range = from + range.start..from + range.end;
            text.replace_range(range.clone(), &insert);
            at = range.start + self.below(2) * insert.len();
            edits.push((range, insert));
        }
        edits
    }

    /// Edits of one text, in order. Few are invalid.
    fn all(&mut self, text: &str, count: usize) -> Edits {
        let (mut edits, mut from) = (Edits::new(), 0);
        for _ in 0..count {
            let first = [0, 4, 20][self.below(3)];
            let range = self.range_in(&text[from..], first, 5);
            let range = from + range.start..from + range.end;
            from = range.end;
            edits.push((range, self.text(2)));
        }
        if self.below(20) == 0 && count > 0 {
            let mut bad = bad_ranges(text);
            // before the end of the previous one
            bad.extend([0..0, 0..text.len()]);
            let at = self.below(count);
            edits[at].0 = self.one_of(bad);
        }
        edits
    }
}

/// Lists of edits, batches and new texts in turns.
fn rounds<K: Kept>(count: usize, seed: u64) {
    let mut random = Random(seed, BITS);
    let (mut edits_made, mut steps, mut stopped) = (0, 0, 0);
    for round in 0..count {
        let text = random.front() + &random.text(30);
        let language = LANGUAGES[round % LANGUAGES.len()];
        let len = match random.below(100) {
            0 => 60 + random.below(80),
            1..10 => random.below(30),
            _ => random.below(5),
        };
        let edits = random.list(&text, len);
        let mut held = K::held(&text, language);
        let made = list(&mut held, &text, language, &as_edits(&edits));
        edits_made += edits.len();
        steps += made.steps;
        stopped += usize::from(made.answer.is_err());
        let len = [0, 1, 2, 3, 9, 40][random.below(6)];
        let edits = random.all(&made.text, len);
        let text = all(&mut held, &made.text, language, &as_edits(&edits));
        let mut new = text.clone();
        for (range, insert) in random.list(&text, 2) {
            if is_inside(&new, &edit(range.start, range.end, &insert)) {
                new.replace_range(range, &insert);
            }
        }
        other(&mut held, &text, language, &new);
    }
    println!(
        "{count} lists of {edits_made} edits with {steps} steps, of which {stopped} stop; and {count} edits at once"
    );
}

/// A thousand rounds of each kind, or half the number in the variable EDITS.
#[test]
fn random_lists() {
    let asked = std::env::var("EDITS").map(|count| count.parse());
    let count: usize = asked.map_or(2_000, |count| count.expect("EDITS is a number"));
    rounds::<Fragment>(count / 2, 11);
    rounds::<Document>(count / 2, 12);
}

/// Lists and batches of many lengths, after each start of a text.
fn lengths<K: Kept>() {
    let mut random = Random(21, BITS);
    for len in (0..=70).chain(127..=130) {
        for front in FRONTS {
            let language = LANGUAGES[len % LANGUAGES.len()];
            let text = [front, &random.text(30)].concat();
            let edits = random.list(&text, len);
            let mut held = K::held(&text, language);
            let made = list(&mut held, &text, language, &as_edits(&edits));
            let edits = random.all(&made.text, len);
            all(&mut held, &made.text, language, &as_edits(&edits));
        }
    }
}

#[test]
fn lists_of_every_length() {
    lengths::<Fragment>();
    lengths::<Document>();
}

/// A long list whose edits replace each `a` of a text, and a function that returns the text after some of them.
fn replacing(front: &str) -> (Vec<Edit<'static>>, impl Fn(usize) -> String + use<>) {
    let from = front.len();
    let edits = (0..100)
        .map(|at| edit(from + 3 * at, from + 3 * at + 1, "bb"))
        .collect();
    let front = front.to_owned();
    let text =
        move |made: usize| [&front, &*"bb ".repeat(made), &"a ".repeat(100 - made), "é"].concat();
    (edits, text)
}

/// An invalid edit of each sort in a long list, at its ends and inside: the edits before it stay applied.
/// `edit_batch` applies none.
fn bad_edits<K: Kept>() {
    for front in ["", "#!/é\n---\na\n---\n"] {
        let (edits, text) = replacing(front);
        for at in [0, 1, 50, 64, 99] {
            for range in bad_ranges(&text(at)) {
                let mut edits = edits.clone();
                edits[at] = edit(range.start, range.end, "c");
                let made = list(&mut K::held(&text(0), NEWEST), &text(0), NEWEST, &edits);
                let stop = made.answer.map_err(|stopped| stopped.stop);
                assert_eq!(stop, Err(EditStop::Range { at }), "{range:?}");
                assert_eq!(made.text, text(at), "{range:?}");
            }
            // before the end of the previous one, so valid by itself
            let of_text = |at: usize| edit(front.len() + 2 * at, front.len() + 2 * at + 1, "bb");
            let early = (at > 0).then(|| front.len()..front.len() + 2 * at);
            for range in bad_ranges(&text(0)).into_iter().chain(early) {
                let mut edits: Vec<_> = (0..100).map(of_text).collect();
                edits[at] = edit(range.start, range.end, "c");
                let mut held = K::held(&text(0), NEWEST);
                assert_eq!(all(&mut held, &text(0), NEWEST, &edits), text(0));
                let stop = Err(EditStop::Range { at });
                assert_eq!(held.edit_batch(&edits), stop, "{range:?}");
            }
        }
    }
}

#[test]
fn invalid_edits_in_long_lists() {
    bad_edits::<Fragment>();
    bad_edits::<Document>();
}

const NEWEST: Language = Some(Edition::E2024);

/// Each allocation of a list fails, alone and with all after it: the edits before the failure stay applied, and the
/// failed edit is not tried again and made no extra step. Then the remaining edits can be applied.
fn list_refused<K: Kept>(text: &str, language: Language, edits: &[Edit<'_>]) {
    let made = |count: usize| of_list::<K>(text, language, &edits[..count]);
    let made: Vec<Made> = (0..=edits.len()).map(made).collect();
    let begun = K::held(text, language).steps();
    for each in [true, false] {
        let call = |held: &mut K| match each {
            true => held
                .edit_sequence(edits)
                .map(Some)
                .map_err(|it| (it.stop, Some(it.relexed))),
            false => held
                .edit_all(edits)
                .map(|()| None)
                .map_err(|stop| (stop, None)),
        };
        let check = |mut held: K, answer: Result<_, (EditStop, Option<Relexed>)>| {
            let (count, relexed) = match answer {
                Ok(relexed) => (edits.len(), relexed),
                Err((EditStop::Memory { at }, relexed)) => (at, relexed),
                Err((stop, _)) => panic!("{stop:?}"),
            };
            let context = format!("{count} edits of {text:?} with {edits:?} in {language:?}");
            let most = made[(count + 1).min(edits.len())].steps;
            check(
                &held,
                begun,
                &made[count],
                made[count].steps..=most,
                &context,
            );
            assert!(
                relexed.is_none_or(|it| Ok(it) == made[count].answer),
                "{context}"
            );
            held.edit_all(&edits[count..]).expect("memory is given");
            let all = &made[edits.len()];
            held.is_of(&all.text, &all.layout, &context);
        };
        in_turn(|| K::held(text, language), call, check);
    }
}

/// The same for a call that applies one edit: nothing changes, and then the call succeeds.
fn one_refused<K: Kept>(
    text: &str,
    language: Language,
    made: &Made,
    call: impl Fn(&mut K) -> Option<Relexed>,
) {
    let (before, begun) = (
        of_list::<K>(text, language, &[]),
        K::held(text, language).steps(),
    );
    in_turn(
        || K::held(text, language),
        |held| call(held).ok_or(()),
        |mut held, answer| {
            let now = if answer.is_ok() { made } else { &before };
            check(&held, begun, now, now.steps..=made.steps, text);
            let again = answer.ok().or_else(|| call(&mut held));
            assert_eq!(again, made.answer.ok(), "{text:?} becomes {:?}", made.text);
            held.is_of(&made.text, &made.layout, text);
        },
    );
}

fn refused<K: Kept>() {
    let mut random = Random(41, BITS);
    for round in 0..60 {
        let front = FRONTS[round % FRONTS.len()];
        let language = LANGUAGES[round % LANGUAGES.len()];
        let text = [front, &random.text(20)].concat();
        let len = 1 + random.below(6);
        let edits = random.list(&text, len);
        let (edits, other) = (as_edits(&edits), random.text(9));
        let good = of_list::<K>(&text, language, &edits).answer;
        let good = good.map_or_else(stop_at, |_| edits.len());
        list_refused::<K>(&text, language, &edits[..good]);
        let other = [&text, &*other].concat();
        let made = of_other::<K>(&text, language, &other);
        one_refused(&text, language, &made, |held: &mut K| {
            held.try_set_text(&other).ok()
        });
        let edits = random.all(&text, len);
        let edits = as_edits(&edits);
        if let Ok(made) = of_all::<K>(&text, language, &edits) {
            one_refused(&text, language, &made, |held: &mut K| {
                held.edit_batch(&edits).ok()
            });
        }
    }
    // A long one.
    let (edits, text) = replacing("#!/a\n---\n---\n");
    list_refused::<K>(&text(0), NEWEST, &edits[..66]);
}

fn stop_at(stopped: EditSequenceError) -> usize {
    match stopped.stop {
        EditStop::Range { at } => at,
        stop => panic!("{stop:?}"),
    }
}

#[test]
fn allocation_failures() {
    refused::<Fragment>();
    refused::<Document>();
}

/// The end of the shebang line and the start of the body.
type Ends = (usize, usize);

/// Insertions that create, end or change a head, from each side, with the head before and after, by hand.
#[rustfmt::skip]
const HEADS: &[(&str, Ends, usize, &str, Ends)] = &[
    // a shebang line
    ("/bin/sh\na", (0, 0), 0, "#!", (9, 9)),
    ("!/bin/sh\na", (0, 0), 0, "#", (9, 9)),
    ("#/bin/sh\na", (0, 0), 1, "!", (9, 9)),
    ("#", (0, 0), 1, "!", (2, 2)),
    ("#!", (2, 2), 2, "a", (3, 3)),
    ("#!/bin/sh\na", (9, 9), 0, " ", (0, 0)),
    ("#!/bin/sh\na", (9, 9), 0, "\u{feff}", (12, 12)),
    ("#! \na", (3, 3), 3, "[", (0, 0)),
    ("#!\na", (2, 2), 3, "[", (0, 0)),
    ("#!//b\na", (5, 5), 6, "[", (0, 0)),
    ("#!/*\n*/ a", (4, 4), 8, "[", (0, 0)),
    ("#!//b\n[a", (0, 0), 4, "/", (6, 6)),
    ("#!/a\nb", (4, 4), 4, "c", (5, 5)),
    ("#!/a\nb", (4, 4), 5, "c", (4, 4)),
    ("#!/ab", (5, 5), 4, "\n", (4, 4)),
    // a frontmatter
    ("--\n---\na", (0, 0), 0, "-", (0, 7)),
    ("--\n---\na", (0, 0), 2, "-", (0, 7)),
    ("\n--\n---\nb", (0, 0), 1, "-", (0, 8)),
    ("---\n---\na", (0, 7), 0, "\u{feff}", (3, 10)),
    ("---\na\n---\nb", (0, 9), 0, "x", (0, 0)),
    ("---\na\n---\nb", (0, 9), 0, " ", (0, 10)),
    ("---\na\n---\nb", (0, 9), 0, "\n", (0, 10)),
    ("---a\n---\nb", (0, 8), 4, "b", (0, 9)),
    ("---\n---\nb", (0, 7), 3, "a b", (0, 10)),
    ("---\na\n---\nb", (0, 9), 3, "-", (0, 10)),
    ("---\n--\na", (0, 8), 4, "-", (0, 7)),
    ("---\na\n--\nb", (0, 10), 8, "-", (0, 9)),
    ("---\na\n---\nb", (0, 9), 6, " ", (0, 10)),
    ("---\na\n---\nb", (0, 9), 6, "x", (0, 12)),
    ("---\na\n---\nb", (0, 9), 9, "-", (0, 10)),
    ("---\na\n---\nb", (0, 9), 9, "x", (0, 10)),
    ("---\na\n---\nb", (0, 9), 10, "x", (0, 9)),
    ("---\nse a;", (0, 9), 4, "u", (0, 3)),
    ("---", (0, 3), 3, "\n", (0, 4)),
    ("---", (0, 3), 3, "\nuse a;", (0, 3)),
    // both
    ("#!/a\n--\n---\nb", (4, 4), 5, "-", (4, 12)),
    ("#!/a---\n---\nb", (7, 13), 4, "\n", (4, 12)),
    ("#!\n---\n---\nb", (2, 10), 2, "[", (0, 0)),
    ("#!/a\n---\n---\nb", (4, 12), 0, "\u{feff}", (7, 15)),
    ("a", (0, 0), 0, "#!x\n---\n---\n", (3, 11)),
    // a byte order mark
    ("a", (0, 0), 0, "\u{feff}", (3, 3)),
    ("\u{feff}a", (3, 3), 0, " ", (0, 0)),
    ("\u{feff}a", (3, 3), 0, "\u{feff}", (3, 3)),
    ("\u{feff}a", (3, 3), 3, "#!", (6, 6)),
    ("\u{feff}!/bin/sh\na", (3, 3), 3, "#", (12, 12)),
    ("\u{feff}#!/bin/sh\na", (12, 12), 0, "\n", (0, 0)),
    ("\u{feff}#!/bin/sh\na", (12, 12), 3, " ", (3, 3)),
    ("\u{feff}#!/bin/sh\na", (12, 12), 12, "x", (13, 13)),
    ("\u{feff}--\n---\na", (3, 3), 3, "-", (3, 10)),
    ("\u{feff}---\n---\na", (3, 10), 0, "x", (0, 0)),
    ("\u{feff}---\n---\na", (3, 10), 0, "\u{feff}", (3, 3)),
    ("\u{feff}#!/a\n---\n---\nb", (7, 15), 15, "-", (7, 16)),
];

/// Applies one edit with each call, alone and between two edits that change nothing.
fn by_each_call<K: Kept>(text: &str, language: Language, edit: Edit<'_>) -> Made {
    let nothing = Edit {
        start: 0,
        stop: 0,
        insert: "",
    };
    let held = K::held(text, language);
    let made = list(&mut held.clone(), text, language, &[edit]);
    list(&mut held.clone(), text, language, &[nothing, edit, nothing]);
    all(&mut held.clone(), text, language, &[edit]);
    all(&mut held.clone(), text, language, &[nothing, edit]);
    other(&mut held.clone(), text, language, &made.text);
    let (mut one, before) = (held.clone(), held.steps());
    assert_eq!(
        one.try_edit(&edit),
        Ok(made.answer.unwrap()),
        "{text:?} with {edit:?}"
    );
    check(&one, before, &made, made.steps..=made.steps, text);
    made
}

/// Each edit of a head, and the edit that undoes it.
#[test]
fn edits_of_heads() {
    for &(text, ends, at, insert, new_ends) in HEADS {
        for language in LANGUAGES {
            let to = edit(at, at, insert);
            let made = by_each_call::<Document>(text, language, to);
            by_each_call::<Fragment>(text, language, to);
            let back = edit(at, at + insert.len(), "");
            let again = by_each_call::<Document>(&made.text, language, back);
            by_each_call::<Fragment>(&made.text, language, back);
            for (made, wanted) in [(&made, new_ends), (&again, ends)] {
                let held = Document::try_with(&made.text, Counting(None, 0)).unwrap();
                let told = (held.tokens_start(), held.body_start().offset);
                assert_eq!(told, wanted, "{:?}", made.text);
            }
            assert_eq!(again.text, text);
        }
    }
}

/// A stepper whose tokens are single characters.
#[derive(Clone)]
struct Characters;

impl Stepper for Characters {
    fn step(&mut self, rest: &str) -> Token {
        let first = rest.chars().next().expect("the text is not empty");
        token(TokenKind::Unknown, first.len_utf8() as u32)
    }
}

/// Edits with hand-written counts, with two steppers: the counting one makes one step for each lexed token, and the
/// other has a grammar of its own.
#[test]
fn edits_with_steppers() {
    use Edition::{E2018, E2024};
    for (text, edition, range, insert, kept) in [
        ("", E2024, 0..0, "", counts(0, 0, 0)),
        ("ab cd ef", E2024, 3..5, "x y", counts(0, 5, 2)),
        ("ab cd ef", E2024, 8..8, "z", counts(4, 1, 0)),
        ("k# x", E2024, 2..2, "f", counts(0, 1, 2)),
        ("1.x", E2024, 2..3, "5", counts(0, 1, 0)),
        ("/* a", E2024, 4..4, " */", counts(0, 1, 0)),
        ("a b c */ d", E2024, 2..2, "/*", counts(0, 3, 2)),
        ("x \"a\" y", E2024, 0..0, "\"", counts(0, 2, 0)),
        ("a 😀 é", E2024, 9..9, "z", counts(3, 2, 0)),
        ("ab cd", E2024, 0..3, "", counts(0, 0, 1)),
        ("'r#foo", E2018, 6..6, "x", counts(2, 1, 0)),
        ("'r#foo", E2024, 6..6, "x", counts(0, 1, 0)),
    ] {
        let context = format!("{text:?} with {insert:?} at {range:?}");
        let steps = Counting(Some(Steps::new_in(edition)), 0);
        let mut held = LexedText::try_with(text, steps).unwrap();
        let before = held.steps();
        assert_eq!(held.edit(range, insert), kept, "counts of {context}");
        assert_eq!(held.steps() - before, kept.lexed, "steps of {context}");
    }
    let mut held = LexedText::try_with("ab cd", Characters).unwrap();
    let context = "\"ab cd\" with \"é\" at 3..3, by characters";
    assert_eq!(held.edit(3..3, "é"), counts(1, 3, 2), "counts of {context}");
    let lens = held.tokens().iter().map(|token| token.len);
    assert!(lens.eq([1, 1, 1, 2, 1, 1]), "tokens of {context}");
    let mut counted = Document::held("ab cd ef", NEWEST);
    let (before, edits) = (counted.steps(), [edit(8, 8, "z"), edit(0, 3, "")]);
    assert_eq!(counted.edit_all(&edits), Ok(()));
    assert_eq!(counted.steps() - before, 1, "steps of {edits:?}");
    assert_eq!(counted.edit_all(&[]), Ok(()));
    assert_eq!(counted.steps() - before, 1, "steps of an empty list");
}

/// Typing a letter and deleting it lexes the tokens next to it, however long the text is.
#[test]
fn typing_lexes_few_tokens() {
    for lines in [2, 1_000] {
        let text = "fn main() {}\n".repeat(lines);
        let mut held = Fragment::held(&text, NEWEST);
        for (at, typed, deleted) in [
            (
                text.len() / 2,
                &["}", "\n", "xfn"][..],
                &["}", "\n", "fn"][..],
            ),
            (text.len(), &["}", "\n", "x"], &["}", "\n"]),
        ] {
            for (edit, lexed) in [(edit(at, at, "x"), typed), (edit(at, at + 1, ""), deleted)] {
                let before = held.steps();
                let relexed = Kept::try_edit(&mut held, &edit).unwrap();
                let pieces = held.pieces_by_index(relexed.changed_tokens());
                assert!(pieces.map(|piece| piece.text).eq(lexed.iter().copied()));
                assert_eq!(held.steps() - before, lexed.len());
            }
        }
    }
}
