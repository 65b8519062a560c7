//! The benchmark: what each work takes by plain C, by plain Rust and by the library, and a search for layouts that are hard on it.

mod back_end;
mod command;
mod count;
mod divisions;
mod layouts;
mod logs;
mod measure;
#[cfg(plain_c)]
mod plain_c;
mod quotients;
pub mod round;
mod rows;
mod search;
mod table;
mod work;
mod works;

pub use command::main;
#[cfg(plain_c)]
pub use plain_c::PlainC;
