//! Many inputs to one call of two back ends.

use crate::calls::Call;
use crate::random::Random;

/// How many inputs a call gets, and the seed that they are made from.
#[derive(Clone, Copy)]
pub struct Inputs {
    pub count: usize,
    pub seed: u64,
}

/// How the inputs of a call fared.
pub struct Report {
    pub inputs: Inputs,
    /// How often each number was returned, by the number; greater ones are not counted.
    pub returned: [usize; 14],
    /// Inputs on which the back ends differ, by their index, and where.
    pub differences: Vec<(usize, String)>,
}

/// Gives inputs of a call to both back ends; `done` is told how many have run.
pub fn run<B: ?Sized>(call: &Call<B>, inputs: Inputs, first: &B, second: &B, mut done: impl FnMut(usize)) -> Report {
    let mut report = Report { inputs, returned: [0; 14], differences: Vec::new() };
    for index in 0..inputs.count {
        let input = (call.input)(&mut Random::new(call.name, inputs.seed, index));
        let (one, two) = (input(first), input(second));
        if let Some(count) = report.returned.get_mut(two.number as usize) {
            *count += 1;
        }
        if let Some(why) = one.difference(&two) {
            report.differences.push((index, why));
        }
        done(index + 1);
    }
    report
}
