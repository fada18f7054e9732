//! The output of `--help`.

pub const PROGRAM: &str = "\
Lists, checks and highlights the tokens of Rust files.

Usage: rust-lex COMMAND [OPTIONS] [FILE]..

Commands:
  tokens      list the tokens of files, one per line
  check       report malformed tokens, and errors in literals
  highlight   print files in colours, or one file as a web page
  help        print this help, or the help of the next argument

Options:
  -h, --help      print this help, or after COMMAND the help of that command
  -V, --version   print the version

Each FILE is a whole file: it can start with a byte order mark, a shebang line
and a frontmatter.

Exit status:
  0   success; `check` has found no errors
  1   `check` has found errors
  2   the arguments are wrong, a file cannot be read, or a write failed
";

pub const TOKENS: &str = "\
Lists the tokens of files, one per line: offset and length in bytes, kind, and
the fields of the kind.

Usage: rust-lex tokens [OPTIONS] [FILE]..

Without a FILE, or if FILE is -, it reads standard input. If there are several
files, `==> FILE <==` precedes the tokens of each. A byte order mark and a
shebang line are not tokens.

Options:
  --edition YEAR   2015, 2018, 2021 or 2024 (default: 2024)
  -h, --help       print this help
  --               the arguments after it are files
";

pub const CHECK: &str = "\
Reports malformed tokens, and errors and warnings in literals.

Usage: rust-lex check [OPTIONS] FILE|FOLDER..

FILE is a file in UTF-8, or - for standard input. In a FOLDER, it checks each
file *.rs, also in the folders below, except in hidden folders, in folders
named `target` with a file CACHEDIR.TAG, and behind symbolic links.

Options:
  --edition YEAR     2015, 2018, 2021 or 2024 (default: 2024)
  --exclude PATH     leave out this file or folder; can be repeated
  --allow text-direction
                     do not report characters that change the text direction
  -D warnings, --deny-warnings
                     report warnings as errors
  --format FORMAT    short: FILE:LINE:COLUMN: error: MESSAGE (default)
                     github: workflow commands, which GitHub shows next to
                     the line
                     json: an object on each line
  -h, --help         print this help
  --                 the arguments after it are files and folders

Lines and columns count from 1, and columns count characters. A summary goes to
standard error.

Exit status:
  0   there are no errors, or only warnings
  1   there are errors
  2   the arguments are wrong, a file cannot be read, or a write failed
";

pub const HIGHLIGHT: &str = "\
Prints files in colours, with a message next to each malformed token.

Usage: rust-lex highlight [OPTIONS] [FILE]..

Without a FILE, or if FILE is -, it reads standard input.

Options:
  --html           print a web page, of at most one FILE
  --html=fragment  print only the part of the page that is the FILE
  --css            print only the style sheet of the page
  --raw            print control characters, which a terminal obeys,
                   unchanged, and no colours
  --color WHEN     auto, always or never (default: auto, which means on a
                   terminal; NO_COLOR, CLICOLOR, CLICOLOR_FORCE and TERM can
                   change that)
  --edition YEAR   2015, 2018, 2021 or 2024 (default: 2024)
  -h, --help       print this help
  --               the arguments after it are files
";
