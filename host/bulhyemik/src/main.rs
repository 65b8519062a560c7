//! `bulhyemik` over the static library.

use std::process::ExitCode;

fn main() -> ExitCode {
    bulhyemik::main(&library::Library)
}
