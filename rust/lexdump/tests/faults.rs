//! The errors of a run, for rejected input and for streams that fail, and the messages of the program.

mod failing;

use failing::{BYTES, Program, Script, Turn, WHOLE, words_of};
use lexdump_run::program::program;
use lexdump_run::rattle_std::alloc::Global;
use lexdump_run::rattle_std::io::ErrorKind;
use lexdump_run::{Fault, Job, read_job, report, run, status};
use rustc_lexer::Edition::E2024;

/// Arguments, the input, and the error of the run with its status.
const STOPPED: [(&str, &[u8], Fault, u8); 6] = [
    ("", b"\xff", Fault::NotUtf8, 3),
    ("", b"a\xc3", Fault::NotUtf8, 3),
    ("", b"\xed\xa0\x80", Fault::NotUtf8, 3),
    ("edit|9|9|z", b"\xff", Fault::NotUtf8, 3),
    ("edit|1|2|", b"\xc3\xa9", Fault::EditRange { at: 0 }, 5),
    ("edit|0|3||1|9|", b"ab cd", Fault::EditRange { at: 1 }, 5),
];

/// For rejected input, nothing is written or flushed, and no stream has failed.
#[test]
fn errors_and_statuses() {
    for (line, bytes, fault, wanted) in STOPPED {
        let words = words_of(line);
        let job = read_job(Global, &words).unwrap();
        let (mut input, mut output) = (BYTES.reader(bytes), BYTES.writer());
        let answer = run(Global, &job, &mut input, &mut output);
        assert_eq!(answer, Err(fault), "{line} of {bytes:?}");
        assert_eq!(status(&fault), wanted, "{line} of {bytes:?}");
        assert!(!input.failed() && !output.failed(), "{line} of {bytes:?}");
        let output = output.into_inner();
        assert_eq!(
            (output.calls, output.flushes),
            (0, 0),
            "{line} of {bytes:?}"
        );
    }
}

const TEXT: &[u8] = b"ab cd";
const LISTING: &[u8] = b"0 2 Ident\n2 1 Whitespace\n3 2 Ident\n";

/// Asserts that a run stops with `Read` if its input has failed and with `Write` if its output has, that no other
/// stream has failed, and that this was written.
fn stops_with(input: (&[u8], Script), output: Script, fault: Fault, written: &[u8]) {
    let job = Job::Plain { edition: E2024 };
    let row = (input, output);
    let (mut input, mut output) = (input.1.reader(input.0), output.writer());
    let answer = run(Global, &job, &mut input, &mut output);
    assert_eq!(answer, Err(fault), "{row:?}");
    let failed = [fault == Fault::Read, fault == Fault::Write];
    assert_eq!([input.failed(), output.failed()], failed, "{row:?}");
    assert_eq!(output.into_inner().bytes, written, "{row:?}");
}

/// A failed read is `Read`, and nothing is written. A failed write, a write of 0 bytes or a failed flush is `Write`,
/// and everything before it is written.
#[test]
fn errors_of_failing_streams() {
    let fails = Turn::Fails(ErrorKind::Other);
    for call in 0..3 {
        let input = (TEXT, BYTES.but_at(call, fails));
        stops_with(input, BYTES, Fault::Read, b"");
    }
    for call in 0..LISTING.len() {
        for turn in [fails, Turn::MovesNothing] {
            let output = BYTES.but_at(call, turn);
            stops_with((TEXT, BYTES), output, Fault::Write, &LISTING[..call]);
        }
    }
    for (text, listing) in [(TEXT, LISTING), (b"", b"")] {
        let output = BYTES.but_flush(ErrorKind::Other);
        stops_with((text, BYTES), output, Fault::Write, listing);
    }
}

/// Each fault with its status and message.
#[rustfmt::skip]
const FAULTS: [(Fault, u8, &str); 10] = [
    (Fault::Arguments, 2, "lexdump: bad arguments\n"),
    (Fault::NotUtf8, 3, "lexdump: input is not UTF-8\n"),
    (Fault::TooLong, 4, "lexdump: input too long\n"),
    (Fault::EditRange { at: 0 }, 5, "lexdump: edit 0: bad range\n"),
    (Fault::EditRange { at: 21 }, 5, "lexdump: edit 21: bad range\n"),
    (Fault::EditTooLong { at: 0 }, 5, "lexdump: edit 0: text too long\n"),
    (Fault::EditTooLong { at: 107 }, 5, "lexdump: edit 107: text too long\n"),
    (Fault::Memory, 6, "lexdump: no memory\n"),
    (Fault::Read, 7, "lexdump: read failed\n"),
    (Fault::Write, 7, "lexdump: write failed\n"),
];

/// The message is flushed, and the status is the same if it cannot be written. A successful run has no message.
#[test]
fn statuses_and_messages() {
    let reported = |outcome, script: Script| {
        let mut errors = script.writer();
        let answer = report(&outcome, &mut errors);
        let errors = errors.into_inner();
        (answer, errors.bytes, errors.flushes)
    };
    for (fault, wanted, line) in FAULTS {
        assert_eq!(status(&fault), wanted, "{fault:?}");
        let whole = (wanted, line.as_bytes().to_vec(), 1);
        assert_eq!(reported(Err(fault), BYTES), whole, "{fault:?}");
        for turn in [Turn::Fails(ErrorKind::Other), Turn::MovesNothing] {
            for call in [1, 9, line.len() - 1] {
                let cut = (wanted, line.as_bytes()[..call].to_vec(), 0);
                let script = BYTES.but_at(call, turn);
                assert_eq!(reported(Err(fault), script), cut, "{fault:?}");
            }
        }
    }
    assert_eq!(reported(Ok(()), BYTES), (0, vec![], 0));
}

/// Arguments, which start with the program's name, if there are any; the output for `ab`, the message and the status.
#[rustfmt::skip]
const PROGRAMS: [(Option<&str>, &str, &str, u8); 7] = [
    (Some("lexdump"), "0 2 Ident\n", "", 0),
    (Some("lexdump|shebang"), "none\n", "", 0),
    (Some(""), "0 2 Ident\n", "", 0),
    (Some("front|edit|0|1|"), "0 1 Ident\n", "", 0),
    (Some("lexdump|lexdump"), "", "lexdump: bad arguments\n", 2),
    (Some("lexdump|edit|2|3|"), "", "lexdump: edit 0: bad range\n", 5),
    (None, "", "lexdump: no memory\n", 6),
];

/// The program writes its output or its message, and exits with its status.
#[test]
fn programs() {
    for (line, listing, message, want) in PROGRAMS {
        let args = line.map(|line| words_of(line).into_iter());
        let (mut output, mut errors) = (WHOLE.writer(), WHOLE.writer());
        let input = &mut WHOLE.reader(b"ab");
        let ended = program(Global, args, input, &mut output, &mut errors);
        assert_eq!(ended, want, "{line:?}");
        assert_eq!(output.into_inner().bytes, listing.as_bytes(), "{line:?}");
        assert_eq!(errors.into_inner().bytes, message.as_bytes(), "{line:?}");
    }
}

/// Each call of a stream fails in turn.
#[test]
fn program_with_failing_streams() {
    Program {
        run: &|input, output, errors| {
            let args = Some(words_of("").into_iter());
            program(Global, args, input, output, errors)
        },
        text: TEXT,
        output: LISTING,
    }
    .check();
}
