//! The standard streams and the arguments of this process, which also runs itself with different ones.

#[cfg(unix)]
use lexdump_run::rattle_std::io::{ErrorKind, Read, Write};
use lexdump_run::rattle_std::rt;

/// Non-blocking streams: a write can be partial, and an input without bytes is not at its end. The test runs itself as
/// a process with such streams.
#[cfg(unix)]
#[test]
fn non_blocking_streams() {
    use std::io::Write as _;
    use std::os::fd::OwnedFd;
    use std::os::unix::net::UnixStream;
    use std::process::Command;
    const NAME: &str = "RATTLE_STD_DOES_NOT_WAIT";
    if std::env::var_os(NAME).is_none() {
        let (mut input, stdin) = UnixStream::pair().unwrap();
        stdin.set_nonblocking(true).unwrap();
        input.write_all(b"ab").unwrap();
        let ended = Command::new(std::env::current_exe().unwrap())
            .args(["--exact", "non_blocking_streams"])
            .env(NAME, "")
            .stdin(OwnedFd::from(stdin))
            .output();
        return assert!(ended.unwrap().status.success());
    }
    let rt = rt::start();
    let mut room = [0; 9];
    assert_eq!(rt.stdin().read(&mut room).unwrap(), 2);
    let error = rt.stdin().read(&mut room).unwrap_err();
    assert_eq!(error.kind(), ErrorKind::WouldBlock);
    let many = vec![0; 1 << 24];
    assert!((1..many.len()).contains(&rt.stdin().write(&many).unwrap()));
    let error = rt.stdin().write(&many).unwrap_err();
    assert_eq!(error.kind(), ErrorKind::WouldBlock);
}

/// Compares the arguments of this process with `std`.
#[test]
fn arguments_of_the_process() {
    let rt = rt::start();
    let words = lexdump_run::rattle_std::env::args(&rt).unwrap();
    assert!(words.map(String::from).eq(std::env::args()));
}

/// A process that starts with closed streams: the test runs itself as one.
#[cfg(unix)]
#[test]
fn closed_streams() {
    use std::process::Command;
    const NAME: &str = "RATTLE_STD_CLOSED";
    if std::env::var_os(NAME).is_none() {
        let ended = Command::new("sh")
            .args(["-c", "exec \"$0\" --exact closed_streams <&- >&- 2>&-"])
            .arg(std::env::current_exe().unwrap())
            .env(NAME, "")
            .status();
        return assert!(ended.unwrap().success());
    }
    let rt = rt::start();
    assert!(rt.stdin().read(&mut [0]).is_err());
    for mut stream in [rt.stdout(), rt.stderr()] {
        assert!(stream.write(b"a").is_err() && stream.flush().is_ok());
    }
}
