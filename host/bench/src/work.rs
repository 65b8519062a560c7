//! A piece of work that any back end can do.

use crate::back_end::BackEnd;

/// Work over inputs and lent outputs that are made beforehand, so that nothing but the calls is timed.
pub trait Work {
    /// Does the work by the calls of a back end.
    fn run(&mut self, back_end: &BackEnd);

    /// What the last run left, as numbers.
    fn answer(&self) -> Vec<i64>;
}

/// A row of the table.
pub struct Row {
    pub name: String,
    /// How often the work is done in one timed run.
    pub repeats: u32,
    /// Makes the work's inputs.
    pub make: Box<dyn Fn() -> Box<dyn Work>>,
}
