//! The definition of the calls that edit a `LexedText`: the new text is lexed from scratch, the counts follow the rules
//! of docs/RELEXING.md, and each lexed token is one step, except in a new head.

use crate::made::{counts, edit, token};
use rustc_lexer::{
    Checked, Edit, EditError, EditSequenceError, EditStop, Edition, LexedDocument, LexedText,
    Relexed, Stepper, Steps, Token, TokenKind, strip_shebang, tokenize_document, tokenize_in,
};

/// The grammar of an edition, or of `looking`.
pub type Language = Option<Edition>;

pub const LANGUAGES: [Language; 5] = [
    Some(Edition::E2015),
    Some(Edition::E2018),
    Some(Edition::E2021),
    Some(Edition::E2024),
    None,
];

/// A grammar with the longest lookahead that is allowed: two equal characters are one token, and its kind depends on
/// how many of the next two characters are an `a`.
fn looking(rest: &str) -> Token {
    let mut chars = rest.chars();
    let first = chars.next().expect("the text is not empty");
    let twice = chars.clone().next() == Some(first);
    let len = first.len_utf8() * if twice { 2 } else { 1 };
    let following = rest[len..].chars().take(2).filter(|&c| c == 'a').count();
    let kind = [TokenKind::Semi, TokenKind::Dot, TokenKind::Comma][following];
    token(kind, len as u32)
}

/// A stepper that counts its steps.
#[derive(Clone)]
pub struct Counting(pub Option<Steps>, pub usize);

impl Stepper for Counting {
    fn step(&mut self, rest: &str) -> Token {
        self.1 += 1;
        match &mut self.0 {
            Some(steps) => steps.step(rest),
            None => looking(rest),
        }
    }
}

/// The offset of the first token, the number of tokens in the head, and all tokens.
#[derive(Clone, Debug)]
pub struct Layout {
    pub start: usize,
    pub head: usize,
    pub tokens: Vec<Token>,
}

fn part(text: &str, language: Language) -> Layout {
    let tokens = match language {
        Some(edition) => tokenize_in(text, edition).collect(),
        None => {
            let mut at = 0;
            let next = || {
                let token = (at < text.len()).then(|| looking(&text[at..]))?;
                at += token.len as usize;
                Some(token)
            };
            std::iter::from_fn(next).collect()
        }
    };
    let (start, head) = (0, 0);
    Layout {
        start,
        head,
        tokens,
    }
}

/// The offset of the first token of a document: after a byte order mark and a shebang line.
fn tokens_start(text: &str) -> usize {
    let mark = if text.starts_with('\u{feff}') { 3 } else { 0 };
    mark + strip_shebang(&text[mark..]).unwrap_or(0)
}

fn document(text: &str, language: Language) -> Layout {
    let edition = language.unwrap_or(Edition::NEWEST);
    let mut tokens: Vec<Token> = tokenize_document(text, edition).collect();
    let is_frontmatter = |token: &Token| matches!(token.kind, TokenKind::Frontmatter { .. });
    let head = tokens
        .iter()
        .position(is_frontmatter)
        .map_or(0, |at| at + 1);
    let start = tokens_start(text);
    if language.is_none() {
        tokens.truncate(head);
        let body = start + sum(&tokens);
        tokens.extend(part(&text[body..], language).tokens);
    }
    Layout {
        start,
        head,
        tokens,
    }
}

fn sum(tokens: &[Token]) -> usize {
    tokens.iter().map(|token| token.len as usize).sum()
}

impl Layout {
    /// The token boundaries, in bytes.
    fn bounds(&self) -> Vec<usize> {
        let mut at = self.start;
        let ends = self.tokens.iter().map(|token| {
            at += token.len as usize;
            at
        });
        [self.start].into_iter().chain(ends).collect()
    }
}

/// The counts of an edit, and its steps: the tokens of a new head need none.
fn of_edit(text: &str, old: &Layout, new: &Layout, edit: &Edit<'_>) -> (Relexed, usize) {
    let (before, after) = (old.bounds(), new.bounds());
    let keeps_head = before[old.head] <= edit.start
        && old.start == new.start
        && old.tokens[..old.head] == new.tokens[..new.head];
    let two_before = text[..edit.start].char_indices().rev().nth(1);
    let is_kept = |end: &&usize| two_before.is_some_and(|(place, _)| **end <= place);
    let front = match keeps_head {
        true => old.head + before[old.head + 1..].iter().filter(is_kept).count(),
        false => 0,
    };
    let (new_end, first) = (edit.start + edit.insert.len(), front.max(new.head));
    let meeting = (first..after.len()).filter(|&number| after[number] >= new_end);
    let met = meeting.into_iter().find_map(|number| {
        let old_number = before
            .binary_search(&(after[number] - new_end + edit.stop))
            .ok()?;
        (old_number >= old.head).then_some((number, old_number))
    });
    let (number, old_number) = met.expect("the ends of both texts meet");
    let relexed = counts(front, number - front, old.tokens.len() - old_number);
    (relexed, relexed.lexed - new.head.saturating_sub(front))
}

/// The result of edits, by definition.
#[derive(Clone, Debug)]
pub struct Made {
    pub text: String,
    pub layout: Layout,
    pub steps: usize,
    pub answer: Result<Relexed, EditSequenceError>,
}

pub fn is_inside(text: &str, edit: &Edit<'_>) -> bool {
    edit.start <= edit.stop && text.is_char_boundary(edit.start) && text.is_char_boundary(edit.stop)
}

/// The result of a list of edits.
pub fn of_list<K: Kept>(text: &str, language: Language, edits: &[Edit<'_>]) -> Made {
    let (mut text, mut layout) = (text.to_owned(), K::layout(text, language));
    let (old, mut steps, mut stop) = (layout.tokens.len(), 0, None);
    let (mut front, mut back) = (old, old);
    for (at, edit) in edits.iter().enumerate() {
        if !is_inside(&text, edit) {
            stop = Some(EditStop::Range { at });
            break;
        }
        let mut now = text.clone();
        now.replace_range(edit.start..edit.stop, edit.insert);
        let new = K::layout(&now, language);
        let (relexed, taken) = of_edit(&text, &layout, &new, edit);
        front = front.min(relexed.kept_front);
        back = back.min(relexed.kept_back);
        steps += taken;
        (text, layout) = (now, new);
    }
    let new = layout.tokens.len();
    back = back.min(old.min(new) - front);
    let relexed = counts(front, new - front - back, back);
    let answer = stop.map_or(Ok(relexed), |stop| Err(EditSequenceError { stop, relexed }));
    Made {
        text,
        layout,
        steps,
        answer,
    }
}

/// The result of a batch, or the first edit that is out of order.
pub fn of_all<K: Kept>(
    text: &str,
    language: Language,
    edits: &[Edit<'_>],
) -> Result<Made, EditStop> {
    let (mut insert, mut from) = (String::new(), edits.first().map_or(0, |edit| edit.start));
    let mut stop = 0;
    for (at, edit) in edits.iter().enumerate() {
        if edit.start < stop || !is_inside(text, edit) {
            return Err(EditStop::Range { at });
        }
        insert += &text[from..edit.start];
        insert += edit.insert;
        (from, stop) = (edit.stop, edit.stop);
    }
    let whole = edits.first().map(|first| edit(first.start, stop, &insert));
    Ok(of_list::<K>(text, language, whole.as_slice()))
}

/// The result of `set_text`: one edit of the part that differs, on char boundaries.
pub fn of_other<K: Kept>(text: &str, language: Language, other: &str) -> Made {
    if text == other {
        return of_list::<K>(text, language, &[]);
    }
    let common = |mut old: Vec<char>, new: Vec<char>| {
        let both = old
            .iter()
            .zip(&new)
            .take_while(|(old, new)| old == new)
            .count();
        old.truncate(both);
        old.into_iter().map(char::len_utf8).sum::<usize>()
    };
    let start = common(text.chars().collect(), other.chars().collect());
    let (old, new) = (&text[start..], &other[start..]);
    let back = common(old.chars().rev().collect(), new.chars().rev().collect());
    let insert = &new[..new.len() - back];
    of_list::<K>(text, language, &[edit(start, text.len() - back, insert)])
}

pub type Fragment = LexedText<Checked<Counting>>;
pub type Document = LexedDocument<Checked<Counting>>;

/// A `LexedText` or `LexedDocument` with a stepper that counts.
pub trait Kept: Clone {
    fn held(text: &str, language: Language) -> Self;
    fn layout(text: &str, language: Language) -> Layout;
    fn steps(&self) -> usize;
    fn edit_sequence(&mut self, edits: &[Edit<'_>]) -> Result<Relexed, EditSequenceError>;
    fn edit_all(&mut self, edits: &[Edit<'_>]) -> Result<(), EditStop>;
    fn edit_batch(&mut self, edits: &[Edit<'_>]) -> Result<Relexed, EditStop>;
    fn try_edit(&mut self, edit: &Edit<'_>) -> Result<Relexed, EditError>;
    fn try_set_text(&mut self, text: &str) -> Result<Relexed, EditError>;
    /// Asserts that text, tokens and look-ups are correct for the text.
    fn is_of(&self, text: &str, layout: &Layout, context: &str);
}

macro_rules! kept {
    ($Kept:ident, $layout:ident, $own:expr) => {
        impl Kept for $Kept<Checked<Counting>> {
            fn held(text: &str, language: Language) -> Self {
                let held = $Kept::try_with(text, Counting(language.map(Steps::new_in), 0)).unwrap();
                let layout = $layout(text, language);
                assert_eq!(held.steps(), layout.tokens.len() - layout.head, "{text:?}");
                held
            }
            fn layout(text: &str, language: Language) -> Layout {
                $layout(text, language)
            }
            fn steps(&self) -> usize {
                self.stepper().1
            }
            fn edit_sequence(&mut self, edits: &[Edit<'_>]) -> Result<Relexed, EditSequenceError> {
                self.edit_sequence(edits)
            }
            fn edit_all(&mut self, edits: &[Edit<'_>]) -> Result<(), EditStop> {
                self.edit_all(edits)
            }
            fn edit_batch(&mut self, edits: &[Edit<'_>]) -> Result<Relexed, EditStop> {
                self.edit_batch(edits)
            }
            fn try_edit(&mut self, edit: &Edit<'_>) -> Result<Relexed, EditError> {
                self.try_edit(edit.start..edit.stop, edit.insert)
            }
            fn try_set_text(&mut self, text: &str) -> Result<Relexed, EditError> {
                self.try_set_text(text)
            }
            fn is_of(&self, text: &str, layout: &Layout, context: &str) {
                assert_eq!(
                    (self.text(), self.tokens()),
                    (text, &*layout.tokens),
                    "{context}"
                );
                let bounds = layout.bounds();
                for offset in 0..=text.len() + 1 {
                    let past = bounds.partition_point(|&bound| bound <= offset);
                    let wanted =
                        (past > 0 && past < bounds.len()).then(|| (past - 1, bounds[past - 1]));
                    let told = self
                        .token_start_at(offset)
                        .map(|bound| (bound.index, bound.offset));
                    assert_eq!(told, wanted, "token at {offset}: {context}");
                    let piece = self
                        .piece_at(offset)
                        .map(|piece| (piece.start as usize, piece.text));
                    let wanted =
                        wanted.map(|(number, start)| (start, &text[start..bounds[number + 1]]));
                    assert_eq!(piece, wanted, "piece at {offset}: {context}");
                }
                let own: fn(&Self, &str, &Layout, &[usize]) = $own;
                own(self, text, layout, &bounds);
            }
        }
    };
}

kept!(LexedText, part, |held, text, _, bounds| {
    let two = |bound: &usize| text[*bound..].chars().nth(1).is_some();
    let settled = bounds.iter().copied().rfind(two).unwrap_or(0);
    assert_eq!(held.settled(), settled, "{text:?}");
});
kept!(LexedDocument, document, |held, text, layout, bounds| {
    let told = (
        held.tokens_start(),
        held.body_start().index,
        held.body_start().offset,
    );
    assert_eq!(
        told,
        (layout.start, layout.head, bounds[layout.head]),
        "{text:?}"
    );
});
