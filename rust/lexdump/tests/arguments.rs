//! An argument that is not UTF-8. Rust's test harness rejects it, so this is a program without the harness that runs
//! itself.

#[cfg(unix)]
fn main() {
    use std::ffi::OsStr;
    use std::os::unix::ffi::OsStrExt;
    use std::process::Command;
    const NAME: &str = "RATTLE_STD_ARGUMENTS";
    if std::env::var_os(NAME).is_none() {
        for no_text in [&b"\xff"[..], b"a\xc3", b"\xed\xa0\x80"] {
            let ended = Command::new(std::env::current_exe().unwrap())
                .args([OsStr::new("a"), OsStr::from_bytes(no_text)])
                .env(NAME, "")
                .status();
            assert!(ended.unwrap().success(), "{no_text:?}");
        }
        return;
    }
    assert!(lexdump_run::rattle_std::env::args(&lexdump_run::rattle_std::rt::start()).is_err());
}

#[cfg(not(unix))]
fn main() {}
