//! Instructions, all or divisions alone, counted by callgrind in a run of this program of its own for each work and back end: they
//! repeat where times don't.

use crate::back_end::BackEnd;
use crate::divisions::Divisions;
use crate::work::Work;
use std::collections::VecDeque;
use std::io::{Error, ErrorKind};
use std::iter::from_fn;
use std::path::Path;
use std::process::{Child, Command, Stdio};

/// What is counted: all instructions, or the integer divisions among those of this program.
#[derive(Clone, Copy, Debug, PartialEq, Eq)]
pub enum Counted {
    Instructions,
    Divisions,
}

/// Callgrind counts while this function runs.
#[unsafe(no_mangle)]
#[inline(never)]
fn bench_counted(work: &mut dyn Work, back_end: &BackEnd) {
    work.run(back_end);
}

/// Does a work twice, of which the second time is counted: in the first the program's functions are bound.
pub fn run(work: &mut dyn Work, back_end: &BackEnd) {
    work.run(back_end);
    bench_counted(work, back_end);
}

/// The counts of these rows by these back ends, each given by its index, in order; `jobs` of them are counted at a time.
pub fn counts(
    what: Counted,
    mut figures: impl Iterator<Item = (usize, usize)>,
    jobs: usize,
) -> Result<impl Iterator<Item = Result<u64, String>>, String> {
    let program = std::env::current_exe().map_err(|error| error.to_string())?;
    let divisions = match what {
        Counted::Instructions => None,
        Counted::Divisions => Some(Divisions::of(&program)?),
    };
    let mut begun = VecDeque::new();
    Ok(from_fn(move || {
        while begun.len() < jobs
            && let Some((row, back_end)) = figures.next()
        {
            begun.push_back(begin(&program, row, back_end));
        }
        begun.pop_front().map(|run| collected(run?, divisions.as_ref()))
    }))
}

/// Begins the run of a row by a back end under callgrind, which leaves its profile on standard output: the count of each
/// instruction by its address.
fn begin(program: &Path, row: usize, back_end: usize) -> Result<Child, String> {
    Command::new("valgrind")
        .args(["--tool=callgrind", "--callgrind-out-file=/dev/stdout", "--toggle-collect=bench_counted"])
        .args(["--dump-instr=yes", "--compress-pos=no", "--compress-strings=no"])
        .arg(program)
        .args(["--counted", &row.to_string(), &back_end.to_string()])
        .stdin(Stdio::null())
        .stdout(Stdio::piped())
        .stderr(Stdio::piped())
        .spawn()
        .map_err(|error| not_run("valgrind", &error))
}

/// Why a tool did not run.
pub fn not_run(tool: &str, error: &Error) -> String {
    match error.kind() {
        ErrorKind::NotFound => format!("{tool} is not installed: nothing is counted"),
        _ => format!("{tool}: {error}"),
    }
}

/// Waits for a run and reads the count of its instructions, or of these divisions.
fn collected(run: Child, divisions: Option<&Divisions>) -> Result<u64, String> {
    let output = run.wait_with_output().map_err(|error| not_run("valgrind", &error))?;
    if !output.status.success() {
        return Err(format!("valgrind: {}\n{}", output.status, String::from_utf8_lossy(&output.stderr)));
    }
    let profile = String::from_utf8_lossy(&output.stdout);
    let count = match divisions {
        None => profile.lines().find_map(|line| line.strip_prefix("totals:")?.trim().parse().ok()),
        Some(divisions) => divisions.executed(&profile),
    };
    count.ok_or_else(|| format!("callgrind counted nothing:\n{}", String::from_utf8_lossy(&output.stderr)))
}
