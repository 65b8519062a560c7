//! What all programs of the host share: the structs and constants of include/bulhyemik.h, its calls as traits, the ways from a
//! program written in Rust or in C to these calls, and lent output for tests.

mod adaptor;
mod answers;
mod arguments;
mod c;
mod calls;
mod group;
pub mod lent;

pub use adaptor::{Answers, Program, Refusal, hand_back};
pub use answers::{Answer, Entry, Fault, Fix, InForce, Part, Screen, Uncovered};
pub use arguments::{Area, Found, Position};
pub use calls::{Calls, Timed};
pub use group::{Function, Grid, Group, Name};

/// The version of the interface: major * 1,000,000 + minor * 1,000 + patch.
pub const VERSION: u64 = 4_000_000;

/// Bytes of a name, used or not.
pub const NAME_BYTES: usize = 24;
/// Entries of a group for functions of time and grids, and results of a lookup.
pub const MOST_FUNCTIONS: usize = 8;
pub const MOST_GRIDS: usize = 64;
pub const MOST_PARAMETERS: usize = 3;
/// Holds every header text.
pub const HEADER_BYTES: usize = 16_384;
/// Holds every log line that is written.
pub const LOG_LINE_BYTES: usize = 128;

/// The no-data mark of a node list.
pub const MARK: i32 = i32::MIN;
