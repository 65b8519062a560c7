//! Case files: expected answers of the calls, in the format of cases/FORMAT.md.

mod case;
mod file;
mod nodes;
mod parts;
mod record;

pub use case::{Case, Expected, Input};
pub use file::{CaseFile, Fault};
pub use nodes::NodeList;
