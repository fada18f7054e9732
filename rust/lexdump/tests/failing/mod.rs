//! Readers and writers for tests: they fail at one call and then continue, return bytes after
//! their end, or move only some of the bytes.

#![allow(dead_code)] // not each test uses all of it

use lexdump_run::Watched;
use lexdump_run::rattle_std::io::{Error, ErrorKind, Read, Result, Write};
use lexdump_run::rattle_std::prelude::String;

/// The result of one call instead of moving bytes.
#[derive(Clone, Copy, Debug)]
pub enum Turn {
    Fails(ErrorKind),
    MovesNothing,
}

/// The behaviour of a stream.
#[derive(Clone, Copy, Debug)]
pub struct Script {
    /// The maximum number of bytes of each call.
    pub piece: usize,
    /// The index of the read or write with another result.
    pub turn: Option<(usize, Turn)>,
    /// The error of the first flush, if it fails.
    pub flush: Option<ErrorKind>,
}

/// Nothing fails, and each call moves all bytes.
pub const WHOLE: Script = Script {
    piece: usize::MAX,
    turn: None,
    flush: None,
};

/// Nothing fails, and each call moves one byte.
pub const BYTES: Script = Script { piece: 1, ..WHOLE };

impl Script {
    /// The same, except for the call with this index.
    pub fn but_at(self, call: usize, turn: Turn) -> Script {
        let turn = Some((call, turn));
        Script { turn, ..self }
    }

    /// The same, except for the first flush, which fails.
    pub fn but_flush(self, kind: ErrorKind) -> Script {
        let flush = Some(kind);
        Script { flush, ..self }
    }

    pub fn reader(self, bytes: &[u8]) -> Watched<Reader<'_>> {
        self.end(bytes)
    }

    pub fn writer(self) -> Watched<Writer> {
        self.end(Vec::new())
    }

    fn end<T>(self, bytes: T) -> Watched<End<T>> {
        Watched::new(End {
            bytes,
            script: self,
            calls: 0,
            flushes: 0,
        })
    }
}

/// A stream, with the bytes that it has yet to return or has received.
pub struct End<T> {
    pub bytes: T,
    script: Script,
    pub calls: usize,
    pub flushes: usize,
}

pub type Reader<'a> = End<&'a [u8]>;
pub type Writer = End<Vec<u8>>;

impl<T> End<T> {
    /// Returns how many of these bytes the next call moves.
    fn moved(&mut self, most: usize) -> Result<usize> {
        let call = self.calls;
        self.calls += 1;
        match self.script.turn {
            Some((at, Turn::Fails(kind))) if at == call => Err(Error::from(kind)),
            Some((at, Turn::MovesNothing)) if at == call => Ok(0),
            _ => Ok(most.min(self.script.piece)),
        }
    }
}

impl Read for Reader<'_> {
    fn read(&mut self, buf: &mut [u8]) -> Result<usize> {
        let count = self.moved(buf.len())?;
        std::io::Read::read(&mut self.bytes, &mut buf[..count])
    }
}

impl Write for Writer {
    fn write(&mut self, buf: &[u8]) -> Result<usize> {
        let count = self.moved(buf.len())?;
        self.bytes.extend_from_slice(&buf[..count]);
        Ok(count)
    }

    fn flush(&mut self) -> Result<()> {
        self.flushes += 1;
        match self.script.flush {
            Some(kind) if self.flushes == 1 => Err(Error::from(kind)),
            _ => Ok(()),
        }
    }
}

/// The arguments between the bars of a line. An empty line has none.
pub fn words_of(line: &str) -> Vec<String> {
    let words = line.split('|').map(str::to_string).map(String::from);
    words.filter(|_| !line.is_empty()).collect()
}

/// Runs a program on an input, an output and an error stream, and returns its status.
type Run<'a> = &'a dyn Fn(&mut Watched<Reader>, &mut Watched<Writer>, &mut Watched<Writer>) -> u8;

/// The status of a run, whether its input and its output have failed, its output, and its numbers of reads, writes,
/// flushes, and flushes of the error stream.
type Came = (u8, [bool; 2], Vec<u8>, [usize; 4]);

/// A program without arguments, and its input.
pub struct Program<'a> {
    pub run: Run<'a>,
    pub text: &'a [u8],
    /// The output if nothing fails.
    pub output: &'a [u8],
}

impl Program<'_> {
    /// Runs the program while each call fails in turn, and with several sizes of reads and writes.
    pub fn check(&self) {
        self.reads_fail();
        self.writes_fail();
        self.flushes_fail();
        self.pieces();
    }

    fn over(&self, mut input: Watched<Reader>, output: Script) -> Came {
        let (mut output, mut errors) = (output.writer(), WHOLE.writer());
        let status = (self.run)(&mut input, &mut output, &mut errors);
        let failed = [input.failed(), output.failed()];
        let (output, errors) = (output.into_inner(), errors.into_inner());
        let reads = input.into_inner().calls;
        let calls = [reads, output.calls, output.flushes, errors.flushes];
        (status, failed, output.bytes, calls)
    }

    /// A run stops at any failed read, and ignores what it has read.
    fn reads_fail(&self) {
        for call in 0..=self.text.len() {
            for kind in [ErrorKind::Interrupted, ErrorKind::BrokenPipe] {
                let input = BYTES.but_at(call, Turn::Fails(kind)).reader(self.text);
                let wanted = (7, [true, false], vec![], [call + 1, 0, 0, 1]);
                assert_eq!(self.over(input, BYTES), wanted, "read {call}");
            }
        }
    }

    /// A run stops at any failed write, without a flush.
    fn writes_fail(&self) {
        for call in 0..self.output.len() {
            for turn in [
                Turn::Fails(ErrorKind::Other),
                Turn::Fails(ErrorKind::OutOfMemory),
                Turn::Fails(ErrorKind::BrokenPipe),
                Turn::MovesNothing,
            ] {
                let came = self.over(BYTES.reader(self.text), BYTES.but_at(call, turn));
                let calls = [self.text.len() + 1, call + 1, 0, 1];
                let wanted = (7, [false, true], self.output[..call].into(), calls);
                assert_eq!(came, wanted, "write {call}: {turn:?}");
            }
        }
    }

    /// A failed flush stops a run after all output.
    fn flushes_fail(&self) {
        for kind in [ErrorKind::Other, ErrorKind::BrokenPipe] {
            let came = self.over(BYTES.reader(self.text), BYTES.but_flush(kind));
            let calls = [self.text.len() + 1, self.output.len(), 1, 1];
            let wanted = (7, [false, true], self.output.into(), calls);
            assert_eq!(came, wanted, "{kind:?}");
        }
    }

    /// Everything is written, this many bytes at a time, and flushed once. After its end the reader would return a byte
    /// that is not UTF-8, so nothing is read after it.
    fn pieces(&self) {
        for piece in [1, 2, 7, usize::MAX] {
            let script = Script { piece, ..WHOLE };
            let reads = self.text.len().div_ceil(piece);
            let more = [self.text, b"\xff"].concat();
            let text = if piece == 1 { &more } else { self.text };
            let input = script.but_at(reads, Turn::MovesNothing).reader(text);
            let calls = [reads + 1, self.output.len().div_ceil(piece), 1, 0];
            let wanted = (0, [false; 2], self.output.into(), calls);
            assert_eq!(self.over(input, script), wanted, "by {piece}");
        }
    }
}
