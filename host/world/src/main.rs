//! `world`: writes the node file of examples/world.txt to standard output.

use std::io::{IsTerminal, Write, stdout};
use std::process::ExitCode;

fn main() -> ExitCode {
    if std::env::args_os().len() > 1 || stdout().is_terminal() {
        eprintln!("usage: world > world.nodes");
        return ExitCode::from(2);
    }
    match stdout().write_all(&world::nodes()) {
        Ok(()) => ExitCode::SUCCESS,
        Err(error) => {
            eprintln!("world: standard output: {error}");
            ExitCode::from(2)
        }
    }
}
