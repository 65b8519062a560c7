//! Differential tests: random and damaged inputs to every call of two back ends, answers and all lent memory compared.

mod calls;
mod command;
mod covers;
mod floats;
mod functions;
mod groups;
mod logs;
mod outcome;
mod places;
mod random;
mod run;
mod texts;

pub use calls::{Call, OTHERS, TIMED};
pub use command::main;
pub use covers::cover;
pub use groups::{damage, sound};
pub use places::area;
pub use random::Random;
pub use run::{Inputs, Report, run};
