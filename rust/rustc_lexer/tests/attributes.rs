//! Attributes of the public API, by the hand-written sources: no lint finds a hidden item, and
//! `clippy::must_use_candidate` skips generic methods.

use std::fs;

/// Returns the lines of each source file.
fn sources() -> Vec<Vec<String>> {
    let files = fs::read_dir(concat!(env!("CARGO_MANIFEST_DIR"), "/src")).unwrap();
    let files = files
        .map(|file| file.unwrap().path())
        .filter(|path| path.is_file());
    let lines = |text: String| text.lines().map(|line| line.trim().to_string()).collect();
    files
        .map(|path| lines(fs::read_to_string(path).unwrap()))
        .collect()
}

/// Iterators have the attribute themselves, and so does `Result`. A method that changes its receiver needs none.
#[test]
fn results_must_be_used() {
    let used = [
        "Result<",
        "Tokens<",
        "EditionTokens<",
        "Pieces<",
        "TokenPieces<",
    ];
    let mut count = 0;
    for lines in sources() {
        for (at, line) in lines.iter().enumerate() {
            if !line.starts_with("pub fn ") && !line.starts_with("pub const fn ") {
                continue;
            }
            let end = lines[at..]
                .iter()
                .position(|line| line.ends_with('{'))
                .unwrap();
            let head = lines[at..=at + end].join(" ");
            let Some((_, returned)) = head.split_once(") -> ") else {
                continue;
            };
            let before = lines[..at].iter().rev();
            let must_use = before
                .take_while(|line| line.starts_with("#[") || line.starts_with("///"))
                .any(|line| line.starts_with("#[must_use"));
            let needs_none = used.iter().any(|used| returned.starts_with(used));
            assert!(
                must_use || needs_none || head.contains("(&mut self"),
                "{head}"
            );
            count += 1;
        }
    }
    assert!(count > 50, "{count}");
}

#[test]
fn only_the_generated_module_is_hidden() {
    let mut hidden = Vec::new();
    for lines in sources() {
        let next = |pair: &[String]| pair[0].contains("doc(hidden").then(|| pair[1].clone());
        hidden.extend(lines.windows(2).filter_map(next));
    }
    assert_eq!(hidden, ["pub mod generated;"]);
}
