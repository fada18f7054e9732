//! Streams that record whether they have failed.

mod failing;

use failing::{BYTES, Turn, WHOLE};
use lexdump_run::rattle_std::io::ErrorKind::{BrokenPipe, Interrupted, Other};
use lexdump_run::rattle_std::io::{Read, Write};

/// A watched reader passes on each result. Once a read has failed, it stays failed.
#[test]
fn watched_reader() {
    let script = BYTES.but_at(1, Turn::Fails(Interrupted));
    let mut input = script.reader(b"ab");
    let mut piece = [0; 4];
    assert_eq!((input.read(&mut piece).unwrap(), piece[0]), (1, b'a'));
    assert!(!input.failed());
    let error = input.read(&mut piece).unwrap_err();
    assert_eq!(error.kind(), Interrupted);
    assert!(input.failed());
    assert_eq!((input.read(&mut piece).unwrap(), piece[0]), (1, b'b'));
    assert!(input.failed());
}

/// A watched writer passes on each result. Once a write or a flush has failed, it stays failed.
#[test]
fn watched_writer() {
    let script = BYTES.but_at(1, Turn::Fails(BrokenPipe));
    let mut output = script.but_flush(Other).writer();
    assert_eq!(output.write(b"xy").unwrap(), 1);
    assert!(!output.failed());
    assert_eq!(output.write(b"y").unwrap_err().kind(), BrokenPipe);
    assert!(output.failed());
    assert_eq!(output.flush().unwrap_err().kind(), Other);
    assert_eq!(output.write(b"z").unwrap(), 1);
    assert!(output.flush().is_ok() && output.failed());
    assert_eq!(output.into_inner().bytes, b"xz");
}

/// Writing 0 of some bytes is a failure, and so is a failed flush. Writing no bytes is not a failure.
#[test]
fn failed_writer() {
    let mut output = BYTES.but_at(1, Turn::MovesNothing).writer();
    assert!(output.write(b"").is_ok_and(|count| count == 0) && !output.failed());
    assert!(output.write(b"a").is_ok_and(|count| count == 0) && output.failed());
    let mut output = WHOLE.but_flush(BrokenPipe).writer();
    assert!(output.flush().is_err() && output.failed());
}
