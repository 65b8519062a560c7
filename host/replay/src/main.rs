//! `replay` over the static library.

use std::process::ExitCode;

fn main() -> ExitCode {
    replay::replay(&library::Library)
}
