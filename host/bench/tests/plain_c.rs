//! The plain C versions on random and damaged inputs: a yardstick has to do the same work.
#![cfg(plain_c)]

use bench::PlainC;
use differ::{Inputs, TIMED, run};
use reference::Reference;

#[test]
fn plain_c_agrees_with_the_second_program() {
    for call in &TIMED {
        let report = run(call, Inputs { count: 4_000, seed: 0 }, &PlainC, &Reference, |_| {});
        println!("{}: {} inputs, {} differ", call.name, report.inputs.count, report.differences.len());
        assert!(report.differences.is_empty(), "{}: {:?}", call.name, report.differences[0]);
    }
}
