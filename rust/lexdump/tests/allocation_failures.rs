//! Each allocation of a run fails in turn: then nothing is written. Its streams allocate nothing.

#[path = "../../rattle_support/tests/refusing/mod.rs"]
mod refusing;

use lexdump_run::rattle_std::alloc::Global;
use lexdump_run::rattle_std::io::{Read, Result, Write};
use lexdump_run::rattle_std::prelude::String;
use lexdump_run::{Fault, Watched, read_job, run};
use refusing::{given, in_turn};
use std::io::Cursor;

/// A stream of bytes in memory.
struct End<T>(T);

impl<T: std::io::Read> Read for End<T> {
    fn read(&mut self, buf: &mut [u8]) -> Result<usize> {
        self.0.read(buf)
    }
}

impl<T: std::io::Write> Write for End<T> {
    fn write(&mut self, buf: &[u8]) -> Result<usize> {
        self.0.write(buf)
    }

    fn flush(&mut self) -> Result<()> {
        self.0.flush()
    }
}

fn words_of(line: &str) -> Vec<String> {
    let words = line.split_whitespace().map(str::to_string);
    words.map(String::from).collect()
}

/// Arguments, the number of allocations to read them, an input, and its listing.
const RUNS: [(&str, usize, &str, &str); 5] = [
    ("", 0, "1.", FLOAT),
    ("--edition 2015", 0, "1.", FLOAT),
    (
        "front",
        0,
        "---\nq------\nfn x",
        "0 11 Frontmatter has_invalid_preceding_whitespace=false invalid_infostring=false\n\
         11 1 Whitespace\n12 2 Ident\n14 1 Whitespace\n15 1 Ident\n",
    ),
    ("shebang", 0, "#!/bin/sh\nfn", "9\n"),
    (
        "edit 8 8 z",
        1,
        "ab cd ef",
        "0 2 Ident\n2 1 Whitespace\n3 2 Ident\n5 1 Whitespace\n6 3 Ident\n",
    ),
];

const FLOAT: &str = "0 2 Literal kind=Float base=10 empty_exponent=false suffix_start=2\n";

/// Only valid edits among the arguments are allocated. A run ends with `Memory` or writes its listing.
#[test]
fn runs() {
    for (line, requests, text, listing) in RUNS {
        let words = words_of(line);
        let read = || read_job(Global, &words);
        let asked = in_turn(
            || (),
            |()| read(),
            |(), answer| assert!(matches!(answer, Ok(_) | Err(Fault::Memory))),
        );
        assert_eq!(asked, requests, "{line}");
        let job = given(requests, read).unwrap();
        let asked = in_turn(
            || {
                let output = End(Cursor::new([0; 256]));
                (Watched::new(End(text.as_bytes())), Watched::new(output))
            },
            |(input, output)| run(Global, &job, input, output),
            |(input, output), answer| {
                assert!(!input.failed() && !output.failed(), "{line}");
                let output = output.into_inner().0;
                let written = &output.get_ref()[..output.position() as usize];
                assert!(matches!(answer, Ok(()) | Err(Fault::Memory)), "{line}");
                let wanted = if answer.is_ok() { listing } else { "" };
                assert_eq!(std::str::from_utf8(written), Ok(wanted), "{line}");
            },
        );
        assert!(asked > 0, "{line}");
    }
    let words = words_of("edit 1 2");
    let answer = given(0, || read_job(Global, &words)).err();
    assert_eq!(answer, Some(Fault::Arguments));
}
