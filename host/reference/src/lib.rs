//! The second, independent program: every call of documents 01 and 02 written anew and plainly from the documents.

mod back_end;
mod coverage;
mod field;
mod geometry;
mod header;
mod judge;
mod limits;
mod load;
mod log;
mod lookup;
mod refusal;
mod rounding;
mod screen;
mod text;

pub use back_end::Reference;
pub use coverage::{Seen, by_compression, by_every_coordinate, grids_in_force, hole};
pub use field::field;
pub use header::{read_header, write_header};
pub use judge::judge;
pub use load::load_nodes;
pub use log::{judge_log, write_log_line};
pub use lookup::{day_factor, lookup};
pub use rounding::{round_each, round_pairs};
pub use screen::{screen_answer, screen_record};
