//! The argument of `main`: the allocator and the standard streams.
//!
//! Rust's own streams cannot be used: standard output is line-buffered, and a write to a closed stream succeeds. So
//! this module uses a copy of each descriptor, and each call is one system call.
//!
//! If a stream is closed when the process starts, Rust's runtime replaces it with `/dev/null` before `main`, and output
//! is lost. So the copies are made earlier, by a function in `.init_array`. This requires the only `unsafe` attribute,
//! because such a function runs before Rust's runtime is initialized. It is sound, because the function does not need
//! the runtime: it calls `fcntl`, and allocates twice.

use super::alloc::Global;
use super::io::{Error, Read, Result, Write};
use std::fs::File;
use std::io::ErrorKind;
use std::sync::OnceLock;

/// Copies of standard input, output and error. `None` if the stream is closed, or the process cannot open more files.
static STREAMS: OnceLock<[Option<File>; 3]> = OnceLock::new();

/// Returns the copies, which the first call creates.
fn streams() -> &'static [Option<File>; 3] {
    STREAMS.get_or_init(|| {
        // If the process can open only one more file, standard error is needed to report that.
        let errors = copy(&std::io::stderr());
        [copy(&std::io::stdin()), copy(&std::io::stdout()), errors]
    })
}

/// Returns a copy of a stream's descriptor.
#[cfg(unix)]
fn copy(stream: &impl std::os::fd::AsFd) -> Option<File> {
    stream.as_fd().try_clone_to_owned().ok().map(File::from)
}

/// Returns a copy of a stream's handle.
#[cfg(windows)]
fn copy(stream: &impl std::os::windows::io::AsHandle) -> Option<File> {
    stream.as_handle().try_clone_to_owned().ok().map(File::from)
}

/// Returns `None`, because other targets, such as a browser, have no streams.
#[cfg(not(any(unix, windows)))]
fn copy<S>(_: &S) -> Option<File> {
    None
}

/// Creates the copies.
#[cfg(unix)]
extern "C" fn at_start() {
    streams();
}

#[cfg(unix)]
#[allow(unsafe_code)]
#[used]
#[cfg_attr(not(target_vendor = "apple"), unsafe(link_section = ".init_array"))]
#[cfg_attr(
    target_vendor = "apple",
    unsafe(link_section = "__DATA,__mod_init_func")
)]
static AT_START: extern "C" fn() = at_start;

/// The resources that a program can use.
pub struct HostRuntime(());

/// Returns the argument that `main` has in Rattle.
pub fn start() -> HostRuntime {
    HostRuntime(())
}

impl HostRuntime {
    /// Returns the allocator.
    pub fn alloc(&self) -> Global {
        Global
    }

    /// Returns standard input.
    pub fn stdin(&self) -> Stream {
        Stream(&streams()[0])
    }

    /// Returns standard output.
    pub fn stdout(&self) -> Stream {
        Stream(&streams()[1])
    }

    /// Returns standard error.
    pub fn stderr(&self) -> Stream {
        Stream(&streams()[2])
    }
}

/// An unbuffered standard stream. If it is closed, each call fails except `flush`, which does nothing.
pub struct Stream(&'static Option<File>);

impl Stream {
    fn file(&self) -> Result<&'static File> {
        self.0.as_ref().ok_or(Error::from(ErrorKind::NotConnected))
    }
}

impl Read for Stream {
    fn read(&mut self, buf: &mut [u8]) -> Result<usize> {
        std::io::Read::read(&mut self.file()?, buf)
    }
}

impl Write for Stream {
    fn write(&mut self, buf: &[u8]) -> Result<usize> {
        std::io::Write::write(&mut self.file()?, buf)
    }

    fn flush(&mut self) -> Result<()> {
        Ok(())
    }
}
