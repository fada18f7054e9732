//! Lexes texts with the original crates and with our Rust crates in one process, and compares all results. Prints
//! counts and the first differences. Exits with status 1 if there are any.
//!
//!     answers [--texts N] [--seed N] [--every N] PATH..
//!
//! It compares each character, each file of a PATH (in a folder, the files with the extension `.rs`, at any depth), and
//! N random texts (200,000 by default), half of them fragments of the files with insertions. Then it compares each
//! character and N random texts as the contents of a literal, and N random edits of documents. With `--every N`, only
//! one of N characters is lexed in texts, and the classes of all characters are compared.

mod documents;
mod editions;
mod lexers;
mod literals;
mod texts;

use std::any::TypeId;
use std::collections::HashSet;
use std::ffi::OsString;
use std::path::{Path, PathBuf};
use std::process::ExitCode;
use std::{env, fs, io};

use documents::Documents;
use texts::Random;

/// The number of differences that are printed.
const SHOWN: usize = 20;

/// The number of edits of one document.
const EDITS: u64 = 12;

/// Removes an option with its number from the arguments, and returns the number, or the default.
fn option(words: &mut Vec<OsString>, name: &str, default: u64) -> Result<u64, String> {
    let Some(at) = words.iter().position(|word| word == name) else {
        return Ok(default);
    };
    let number = words.drain(at..(at + 2).min(words.len())).nth(1);
    let number = number.and_then(|word| word.to_str()?.parse().ok());
    number.ok_or_else(|| format!("{name} needs a number"))
}

/// Reads the files at and below a path. Skips files that are not UTF-8, because both lexers need a `&str`.
fn read(path: &Path, files: &mut Vec<(PathBuf, String)>) -> io::Result<()> {
    if path.is_dir() {
        let entries = fs::read_dir(path)?.map(|entry| Ok(entry?.path()));
        let mut below = entries.collect::<io::Result<Vec<_>>>()?;
        below.sort();
        below.retain(|path| path.is_dir() || path.extension().is_some_and(|end| end == "rs"));
        let mut below = below.iter().filter(|path| !path.is_symlink());
        return below.try_for_each(|path| read(path, files));
    }
    if let Ok(text) = String::from_utf8(fs::read(path)?) {
        files.push((path.to_path_buf(), text));
    }
    Ok(())
}

/// Returns the number of lines if both results are the same, or the first lines that differ.
fn same(answers: &[String; 2]) -> Result<usize, [String; 2]> {
    let [theirs, ours] = answers;
    if theirs == ours {
        return Ok(theirs.lines().count());
    }
    let (mut theirs, mut ours) = (theirs.lines(), ours.lines());
    loop {
        let lines = [theirs.next(), ours.next()];
        if lines[0] != lines[1] {
            return Err(lines.map(|line| line.unwrap_or("nothing").to_owned()));
        }
    }
}

/// The counts of a comparison.
#[derive(Default)]
struct Counts {
    texts: u64,
    bytes: u64,
    answers: u64,
    differences: u64,
}

impl Counts {
    /// Compares the results for a text, and prints the first difference.
    fn compare(&mut self, answers: [fn(&str, &mut String); 2], name: &str, text: &str) {
        let mut lines = [const { String::new() }; 2];
        for which in 0..2 {
            answers[which](text, &mut lines[which]);
        }
        self.count(name, text, same(&lines));
    }

    fn count(&mut self, name: &str, text: &str, compared: Result<usize, [String; 2]>) {
        self.texts += 1;
        self.bytes += text.len() as u64;
        match compared {
            Ok(answers) => self.answers += answers as u64,
            Err([original, ours]) => {
                self.differences += 1;
                if self.differences as usize <= SHOWN {
                    let start: String = text.chars().take(200).collect();
                    println!("{name}: {start:?}\n  original: {original}\n  ours:     {ours}");
                }
            }
        }
    }

    /// Prints the counts, and returns the number of differences.
    fn print(self, name: &str) -> u64 {
        let (texts, bytes, answers) = (self.texts, self.bytes, self.answers);
        print!("{name}: {texts} texts, {bytes} bytes, {answers} answers, ");
        println!("{} differences", self.differences);
        self.differences
    }
}

/// Compares the classes of each character, and for one of `every` characters the tokens of texts with it. Returns the
/// characters whose classes differ. That is an error, unless the two versions of Unicode differ or the character is an
/// emoji, because our crate has its own table of emoji.
fn characters(counts: &mut Counts, every: usize) -> HashSet<char> {
    let versions = [original::UNICODE_VERSION, rustc_lexer::UNICODE_VERSION];
    let (mut unsettled, mut emoji) = (HashSet::new(), 0);
    for (number, c) in ('\0'..=char::MAX).enumerate() {
        let [theirs, ours] = lexers::classes(c);
        if theirs != ours {
            unsettled.insert(c);
            let same_words = theirs.words == ours.words;
            emoji += usize::from(same_words);
            let excused = same_words || versions[0] != versions[1];
            counts.differences += u64::from(!excused || theirs.spaces != ours.spaces);
        } else if number % every == 0 {
            for [before, after] in [["", ""], ["a", "b"], ["'", ""], ["1", ""], ["", "#"]] {
                let text = format!("{before}{c}{after}");
                counts.compare(lexers::ANSWERS, "character", &text);
            }
        }
    }
    println!(
        "characters of other classes: {} by Unicode {:?} and {:?}, {emoji} by the tables of emoji",
        unsettled.len() - emoji,
        versions[0],
        versions[1]
    );
    unsettled
}

/// Compares everything that the arguments name, and returns the number of differences.
fn differences() -> Result<u64, String> {
    let mut words = env::args_os().skip(1).collect();
    let texts = option(&mut words, "--texts", 200_000)?;
    let seed = option(&mut words, "--seed", 1)?;
    let every = option(&mut words, "--every", 1)?.max(1) as usize;
    let mut files = Vec::new();
    for path in words.iter().map(Path::new) {
        read(path, &mut files).map_err(|error| format!("{}: {error}", path.display()))?;
    }
    let mut counts = Counts::default();
    let unsettled = characters(&mut counts, every);
    let mut differences = counts.print("characters");

    let all = files.len();
    files.retain(|(_, text)| !text.chars().any(|c| unsettled.contains(&c)));
    let mut counts = Counts::default();
    for (path, text) in &files {
        counts.compare(lexers::ANSWERS, &path.to_string_lossy(), text);
        counts.compare(editions::ANSWERS, &path.to_string_lossy(), text);
    }
    differences += counts.print("files");
    println!("files with such a character: {}", all - files.len());

    let mut counts = Counts::default();
    let mut random = Random::new(seed, &unsettled);
    for number in 0..texts {
        let text = random.text(&files);
        let name = format!("random text {number}");
        counts.compare(lexers::ANSWERS, &name, &text);
        counts.compare(editions::ANSWERS, &name, &text);
    }
    differences += counts.print("random texts");

    let mut counts = Counts::default();
    for c in ('\0'..=char::MAX).step_by(every) {
        for text in [format!("{c}"), format!("\\{c}"), format!("\\\n{c}")] {
            counts.compare(literals::ANSWERS, "character in a literal", &text);
        }
    }
    for (path, text) in &files {
        counts.compare(literals::ANSWERS, &path.to_string_lossy(), text);
    }
    for number in 0..texts {
        let (name, text) = (format!("random literal {number}"), random.literal());
        counts.compare(literals::ANSWERS, &name, &text);
    }
    differences += counts.print("literals");

    let mut counts = Counts::default();
    let mut documents = Documents::new(&mut random);
    for number in 0..texts {
        if number % EDITS == 0 {
            documents = Documents::new(&mut random);
        }
        let before = documents.text().to_owned();
        let (range, insert) = (random.range(&before), random.insert(3));
        let compared = documents.edit(range.clone(), &insert);
        counts.count(&format!("{insert:?} at {range:?}"), &before, compared);
    }
    Ok(differences + counts.print("edits of documents"))
}

fn main() -> ExitCode {
    // `stand_ins.toml` replaces the originals by packages that re-export our types.
    if TypeId::of::<original::Token>() == TypeId::of::<rustc_lexer::Token>() {
        println!("stand_ins.toml replaces the originals: our crates are compared with themselves");
    }
    match differences() {
        Ok(differences) => {
            println!("differences: {differences}");
            ExitCode::from(u8::from(differences != 0))
        }
        Err(error) => {
            eprintln!("answers: {error}");
            ExitCode::from(2)
        }
    }
}
