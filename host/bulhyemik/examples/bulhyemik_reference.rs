//! `bulhyemik` over the second program, for tests.

use std::process::ExitCode;

fn main() -> ExitCode {
    bulhyemik::main(&reference::Reference)
}
