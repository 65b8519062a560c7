//! Plain, unproved Rust for the calls and the rounding that the benchmark times, written to be fast: what it compares with.

mod back_end;
mod group;
mod hole;
mod in_force;
mod judge;
mod load;
mod log;
mod lookup;
mod read;
mod round;
mod write;

pub use back_end::Plain;
pub use group::{LONGITUDE, TURN, end, extent};
pub use round::{nearest, round_each, round_pairs};
