//! `bench` of the static library against plain C and plain Rust.

use std::process::ExitCode;

fn main() -> ExitCode {
    bench::main(&library::Library, bench::round::LIBRARY)
}
