//! `bench` of the second program against plain C and plain Rust: shows that the benchmark itself works.

use bench::round::Round;
use std::process::ExitCode;

fn main() -> ExitCode {
    let round = Round { one_word: reference::round_each, two_words: reference::round_pairs };
    bench::main(&reference::Reference, round)
}
