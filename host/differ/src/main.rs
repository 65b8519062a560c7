//! `differ` between the static library and the second program.

use std::process::ExitCode;

fn main() -> ExitCode {
    differ::main(&library::Library, &reference::Reference)
}
