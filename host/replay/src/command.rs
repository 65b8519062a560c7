//! The command line `replay FILE..`.

use crate::run::{Difference, run};
use cases::CaseFile;
use interface::Calls;
use progress::Progress;
use std::ffi::OsString;
use std::fs;
use std::io::{self, Write};
use std::path::Path;
use std::process::ExitCode;

const HELP: &str = "\
usage: replay FILE..

Runs case files (cases/FORMAT.md) through the C interface. FILE is named after
its call, as in cases/after_07/lookup.tsv. Prints `FILE: N cases, M differ` for
each file and the first differences in full.

exit status: 0 none differ, 1 some differ, 2 usage or file error
";

/// Differences printed in full for each file.
const SHOWN: usize = 5;

/// How many cases a file holds, and those that differ.
struct Outcome {
    cases: usize,
    differences: Vec<Difference>,
}

/// Runs the command line over these calls.
pub fn replay(calls: &dyn Calls) -> ExitCode {
    let files: Vec<OsString> = std::env::args_os().skip(1).collect();
    let mut out = io::stdout().lock();
    if files.iter().any(|f| f == "--help") {
        return status(write!(out, "{HELP}").map(|()| 0));
    }
    if files.is_empty() {
        eprint!("replay: no case file is named\n\n{HELP}");
        return ExitCode::from(2);
    }
    let mut worst = 0;
    for file in &files {
        match replay_file(calls, Path::new(file)) {
            Ok(outcome) => match print(&mut out, Path::new(file), &outcome) {
                Ok(()) => worst = worst.max(u8::from(!outcome.differences.is_empty())),
                Err(error) => return status(Err(error)),
            },
            Err(why) => {
                eprintln!("replay: {}: {why}", file.display());
                worst = 2;
            }
        }
    }
    ExitCode::from(worst)
}

fn replay_file(calls: &dyn Calls, path: &Path) -> Result<Outcome, String> {
    let text = fs::read_to_string(path).map_err(|error| error.to_string())?;
    let call = path.file_stem().unwrap_or_default().to_string_lossy();
    let file = CaseFile::parse(&call, &text).map_err(|fault| format!("line {}: {}", fault.line, fault.why))?;
    let mut progress = Progress::new(&call, file.cases.len());
    let differences = run(calls, &file, |done| progress.at(done));
    Ok(Outcome { cases: file.cases.len(), differences })
}

fn print(out: &mut impl Write, path: &Path, outcome: &Outcome) -> io::Result<()> {
    let differences = &outcome.differences;
    writeln!(out, "{}: {} cases, {} differ", path.display(), outcome.cases, differences.len())?;
    for difference in differences.iter().take(SHOWN) {
        writeln!(out, "{difference}")?;
    }
    if differences.len() > SHOWN {
        writeln!(out, "  and {} more", differences.len() - SHOWN)?;
    }
    Ok(())
}

/// The exit status of printing.
fn status(printed: io::Result<u8>) -> ExitCode {
    ExitCode::from(printed.unwrap_or_else(|error| {
        eprintln!("replay: standard output: {error}");
        2
    }))
}
