//! `replay` over the second program, for tests.

use std::process::ExitCode;

fn main() -> ExitCode {
    replay::replay(&reference::Reference)
}
