//! Answers and best times of all back ends on the same work, run in turn.

use crate::back_end::BackEnd;
use crate::work::Work;
use std::time::{Duration, Instant};

/// Timed runs of each back end; the best counts.
pub const RUNS: usize = 25;

/// What each back end answers, over inputs and lent memory of its own.
pub fn answers(make: impl Fn() -> Box<dyn Work>, back_ends: &[BackEnd]) -> Vec<Vec<i64>> {
    let answer = |back_end| {
        let mut work = make();
        work.run(back_end);
        work.answer()
    };
    back_ends.iter().map(answer).collect()
}

/// The best time of each back end for the work once.
pub fn best_times(work: &mut dyn Work, repeats: u32, runs: usize, back_ends: &[BackEnd]) -> Vec<Duration> {
    let mut best = vec![Duration::MAX; back_ends.len()];
    for _ in 0..runs {
        for (best, back_end) in best.iter_mut().zip(back_ends) {
            *best = timed(work, repeats, back_end).min(*best);
        }
    }
    best
}

/// The time of the work once, over its repeats.
fn timed(work: &mut dyn Work, repeats: u32, back_end: &BackEnd) -> Duration {
    let start = Instant::now();
    for _ in 0..repeats {
        work.run(back_end);
    }
    start.elapsed() / repeats
}
