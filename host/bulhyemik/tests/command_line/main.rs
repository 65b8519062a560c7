//! The command line as a user meets it: each test runs the program in a folder of its own.

mod bad_input;
mod coarse;
mod formats;
mod functions;
mod good_input;
mod help;
mod hints;
mod logs;
mod meridian;
mod points;
mod program;
mod rules;
mod tables;
mod terminal;
mod writing;
