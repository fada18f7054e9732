//! The job that the arguments describe.

mod failing;

use Wanted::{Edits, Front, Plain, Shebang};
use failing::words_of;
use lexdump_run::rattle_std::alloc::Global;
use lexdump_run::{Fault, Job, read_job};
use rustc_lexer::Edition::{self, E2015, E2018, E2021, E2024};

/// A job, whose edits are `start, stop, insert`.
#[derive(Clone, Copy, Debug)]
enum Wanted {
    Plain(Edition),
    Front,
    Shebang,
    Edits(Edition, &'static [(usize, usize, &'static str)]),
}

/// Arguments with bars between them, and their job.
#[rustfmt::skip]
const JOBS: [(&str, Wanted); 13] = [
    ("", Plain(E2024)),
    ("front", Front),
    ("shebang", Shebang),
    ("--edition|2015", Plain(E2015)),
    ("--edition|2018", Plain(E2018)),
    ("--edition|2021", Plain(E2021)),
    ("--edition|2024", Plain(E2024)),
    ("--edition|2018|edit|6|6|x", Edits(E2018, &[(6, 6, "x")])),
    ("edit|08|8|z", Edits(E2024, &[(8, 8, "z")])),
    ("edit|9|1|edit", Edits(E2024, &[(9, 1, "edit")])),
    ("edit|0000000000|4294967295|", Edits(E2024, &[(0, 4294967295, "")])),
    ("edit|1|2|é 😀|1234567890|0|+1", Edits(E2024, &[(1, 2, "é 😀"), (1234567890, 0, "+1")])),
    ("edit|0|0||0|0||7|70|b", Edits(E2024, &[(0, 0, ""), (0, 0, ""), (7, 70, "b")])),
];

/// Arguments that are rejected.
#[rustfmt::skip]
const NOTHING: [&str; 23] = [
    "x", "front|front", "edit", "edit|1|2", "edit|1|2|x|3|4", "edit |1|2|x", "edit|4294967296|0|z",
    "edit|0|9999999999|z", "edit|00000000000|0|z", "edit||0|z", "edit|+1|2|z", "edit|1|-2|z",
    "edit|1a|2|z", "edit|1|\u{661}|z", "edit|0|0||0|+|", "--edition", "--edition|2016",
    "--edition|2018|front", "--edition|2018|shebang", "--edition|2018|edit",
    "--edition|2018|--edition|2018", "front|--edition|2018", "edit|0|0|x|--edition|2018",
];

#[test]
fn jobs() {
    for (line, wanted) in JOBS {
        let words = words_of(line);
        let is_wanted = match (read_job(Global, &words).unwrap(), wanted) {
            (Job::Plain { edition }, Plain(want)) => edition == want,
            (Job::Front, Front) | (Job::Shebang, Shebang) => true,
            (Job::Edit { edition, edits }, Edits(want, list)) => {
                let edits = edits.as_slice().iter();
                let found = edits.map(|edit| (edit.start, edit.stop, edit.insert));
                edition == want && found.eq(list.iter().copied())
            }
            _ => false,
        };
        assert!(is_wanted, "{line} asks for {wanted:?}");
    }
    for line in NOTHING {
        let fault = read_job(Global, &words_of(line)).err();
        assert_eq!(fault, Some(Fault::Arguments), "{line}");
    }
}
