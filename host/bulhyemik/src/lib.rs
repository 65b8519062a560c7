//! The command line: it parses arguments, reads and writes files, calls the C interface and prints.

mod area;
mod arguments;
mod check;
mod extent;
mod fault;
mod files;
mod form;
mod format;
mod formats;
mod functions;
mod grids;
mod group;
mod help;
mod hint;
mod hole;
mod inforce;
mod json;
mod judge;
mod kinds;
mod load;
mod lookup;
mod model;
mod number;
mod output;
mod parted;
mod points;
mod printed;
mod reach;
mod screen;
mod shown;
mod signals;
mod stop;
mod table;
mod whole;

use arguments::{Arguments, before_the_end, is_option};
use formats::Format;
use interface::Calls;
use output::Output;
use shown::shown;
use std::ffi::{OsStr, OsString};
use std::io::{self, Write};
use std::process::ExitCode;
use stop::Stop;

/// A command: its name, its options, and what it does.
struct Command {
    name: &'static str,
    options: &'static [&'static str],
    run: fn(&dyn Calls, &Arguments, &mut Output) -> Result<(), Stop>,
}

/// The options of a command whose answer programs can have in another format.
const FOR_PROGRAMS: &[&str] = &["--json", "--csv"];

const COMMANDS: [Command; 10] = [
    Command { name: "check", options: &[], run: check::check },
    Command { name: "grids", options: &["--functions", "--tsv", "--json", "--csv"], run: grids::grids },
    Command { name: "format", options: &[], run: format::format },
    Command { name: "lookup", options: FOR_PROGRAMS, run: lookup::lookup },
    Command { name: "screen", options: FOR_PROGRAMS, run: screen::screen },
    Command { name: "inforce", options: FOR_PROGRAMS, run: inforce::inforce },
    Command { name: "hole", options: FOR_PROGRAMS, run: hole::hole },
    Command { name: "judge", options: &[], run: judge::judge },
    Command { name: "load", options: &[], run: load::load },
    Command { name: "help", options: &[], run: explain },
];

/// Runs the command line of this process over these calls and answers its exit status.
pub fn main(calls: &dyn Calls) -> ExitCode {
    signals::report_file_size();
    let words: Vec<OsString> = std::env::args_os().skip(1).collect();
    let mut out = Output::default();
    let ran = run(calls, &words, &mut out);
    match ran.and_then(|()| out.flush()) {
        Ok(()) => ExitCode::SUCCESS,
        Err(stop) => ExitCode::from(told(&stop, &mut out)),
    }
}

/// Tells why a command stopped, standard output first, and answers the exit status.
fn told(stop: &Stop, out: &mut Output) -> u8 {
    let said = out.put(stop.printed(out.format)).and_then(|()| out.say(&stop.message()));
    match said {
        Ok(()) => stop.status(),
        Err(not_written) => {
            let _ = write!(io::stderr(), "{}", not_written.message());
            not_written.status()
        }
    }
}

/// Runs a command line.
fn run(calls: &dyn Calls, words: &[OsString], out: &mut Output) -> Result<(), Stop> {
    let Some((first, rest)) = words.split_first() else {
        return Err(Stop::Usage(format!("no command is named\n\n{}", help::ALL)));
    };
    if is_help(first) {
        return out.put(help::ALL);
    }
    if first == "--version" || first == "-V" {
        return out.put(format!("bulhyemik {}\n", version(calls.version())));
    }
    if is_option(first) {
        return Err(Stop::Usage(format!("there is no option '{}'; see bulhyemik --help", shown(first))));
    }
    let command = command(first)?;
    if before_the_end(rest).iter().any(|word| is_help(word)) {
        return out.put(help::of(command.name));
    }
    let arguments = Arguments::new(command.name, command.options, rest)?;
    out.format = Format::chosen(&arguments)?;
    (command.run)(calls, &arguments, out)
}

fn is_help(word: &OsStr) -> bool {
    word == "--help" || word == "-h"
}

fn command(name: &OsStr) -> Result<&'static Command, Stop> {
    COMMANDS
        .iter()
        .find(|command| name == command.name)
        .ok_or_else(|| Stop::Usage(format!("there is no command '{}'; see bulhyemik --help", shown(name))))
}

/// `help [COMMAND]`: the help of a command, or of all.
fn explain(_: &dyn Calls, arguments: &Arguments, out: &mut Output) -> Result<(), Stop> {
    match arguments.count(&[0, 1], "COMMAND, or nothing")? {
        0 => out.put(help::ALL),
        _ => out.put(help::of(command(arguments.file(0))?.name)),
    }
}

/// The version of the C interface as people write it.
fn version(number: u64) -> String {
    format!("{}.{}.{}", number / 1_000_000, number / 1_000 % 1_000, number % 1_000)
}
