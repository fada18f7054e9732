//! The program as a process, with standard streams that are closed or full. The listings and the forms of arguments are
//! tested in the other files.
#![cfg(target_os = "linux")]

mod processes;

use processes::{Row, check_builds, check_rows};

#[rustfmt::skip]
const ROWS: [Row; 22] = [
    ("printf 'fn a' | $P", "0 2 Ident\n2 1 Whitespace\n3 1 Ident\n", "", 0),
    ("$P < /dev/null", "", "", 0),
    (r"printf '\357\273\277a' | $P", "0 3 Unknown\n3 1 Ident\n", "", 0),
    ("printf -- '---' | $P front",
        "0 3 Frontmatter has_invalid_preceding_whitespace=false invalid_infostring=true\n", "", 0),
    ("printf '#!/bin/sh\nfn' | $P shebang", "9\n", "", 0),
    ("printf ab | $P edit 2 2 c 3 3 ' d'", "0 3 Ident\n3 1 Whitespace\n4 1 Ident\n", "", 0),
    ("head -c 131073 /dev/zero | tr '\\0' x | $P", "0 131073 Ident\n", "", 0),
    ("$P x < /", "", "bad arguments", 2),
    ("$P x <&-", "", "bad arguments", 2),
    ("$P ''", "", "bad arguments", 2),
    (r"printf '\377' | $P", "", "input is not UTF-8", 3),
    ("printf ab | $P edit 2 2 c 4 4 d", "", "edit 1: bad range", 5),
    ("$P < /", "", "read failed", 7),
    ("$P <&-", "", "read failed", 7),
    ("printf a | $P >&-", "", "write failed", 7),
    ("$P < /dev/null >&-", "", "", 0),
    ("printf a | $P > /dev/full", "", "write failed", 7),
    ("$P x 2>&-", "", "", 2),
    ("$P x 2> /dev/full", "", "", 2),
    (r#"$P "$(printf '\377')" < /dev/null"#, "", "no memory", 6),
    ("(ulimit -v 24000; head -c 40000000 /dev/zero | $P)", "", "no memory", 6),
    // the reader of the pipe has ended by then
    ("mkfifo lexdump_f; : < lexdump_f & exec 3> lexdump_f; wait; rm lexdump_f; printf a | $P >&3",
        "", "write failed", 7),
];

#[test]
fn shell_commands() {
    check_rows("lexdump", env!("CARGO_BIN_EXE_lexdump"), &ROWS);
}

#[test]
#[ignore = "needs PROGRAMS"]
fn both_builds_print_the_same() {
    let lines = [
        "",
        "front",
        "shebang",
        "--edition 2015",
        "--edition 2018 edit 1 2 x",
        "edit 9 1 x",
    ];
    check_builds("lexdump", env!("CARGO_BIN_EXE_lexdump"), &lines);
}
