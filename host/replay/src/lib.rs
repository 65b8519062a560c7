//! Replays case files through the calls of an interface and says what differs.

mod command;
mod lent;
mod run;

pub use command::replay;
pub use run::{Difference, run, run_timed};
