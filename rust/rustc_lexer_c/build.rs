//! Sets the name of the shared library that programs refer to, which contains the ABI number.

fn main() {
    println!("cargo::rerun-if-changed=../../c/rustc_lexer.h");
    let header = include_str!("../../c/rustc_lexer.h");
    let interface = header
        .split_once("#define RUSTC_LEXER_ABI ")
        .expect("the header has the number")
        .1;
    let number = interface.split(' ').next().unwrap_or_default();
    if std::env::var("CARGO_CFG_TARGET_OS").as_deref() == Ok("linux") {
        println!("cargo::rustc-cdylib-link-arg=-Wl,-soname,librustc_lexer_c.so.{number}");
    }
}
