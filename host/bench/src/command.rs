//! The command line `bench [--rows WORDS].. [(--instructions | --divisions) [--jobs JOBS]]` and
//! `bench --search SECONDS [--seed SEED]`.

use crate::back_end::BackEnd;
use crate::count::Counted;
use crate::round::Round;
use crate::table::Measure;
use crate::{back_end, count, rows, search, table};
use interface::Timed;
use std::process::ExitCode;

const HELP: &str = "\
usage: bench [--rows WORDS].. [(--instructions | --divisions) [--jobs JOBS]]
       bench --search SECONDS [--seed SEED]

Does the same work by plain C, by plain Rust and by the library and prints a
Markdown table: the best time of each of several runs, in turn, and the
library's as a multiple of the others'. Where answers differ nothing is timed.

  --rows WORDS      only the rows with WORDS in their name, as 'grids in force';
                    given more than once, the rows with any of them
  --instructions    count instructions by callgrind (valgrind) in place of time
  --divisions       count only integer divisions, of x86; takes objdump besides
  --jobs JOBS       count so many figures at a time, each on a core of its own
                    (1 unless given)
  --search SECONDS  look for a layout of grids in force that takes the library
                    long beside the faster plain version; prints its header
  --seed SEED       another search (a whole number, 0 unless given)
";

/// Runs the command line over the library's calls and its rounding.
pub fn main(library: &dyn Timed, round: Round) -> ExitCode {
    let back_ends = back_end::all(library, round);
    let words: Vec<String> = std::env::args().skip(1).collect();
    let words: Vec<&str> = words.iter().map(String::as_str).collect();
    let done = match words.as_slice() {
        ["--counted", row, back_end] => counted(&back_ends, row, back_end),
        ["--search", seconds] => search(&back_ends, seconds, "0"),
        ["--search", seconds, "--seed", seed] => search(&back_ends, seconds, seed),
        ["--help" | "-h"] => {
            print!("{HELP}");
            Ok(())
        }
        words => asked(words).and_then(|asked| print_table(&back_ends, &asked)),
    };
    match done {
        Ok(()) => ExitCode::SUCCESS,
        Err(why) => {
            eprintln!("bench: {why}");
            ExitCode::from(2)
        }
    }
}

/// A table: what is measured, and the words of which one has to be in a row's name, if any are given.
#[derive(Debug, PartialEq, Eq)]
struct Asked<'a> {
    measure: Measure,
    words: Vec<&'a str>,
}

/// The table that a command line asks for.
fn asked<'a>(mut words: &[&'a str]) -> Result<Asked<'a>, String> {
    let (mut what, mut jobs, mut named) = (None, None, Vec::new());
    while !words.is_empty() {
        words = match *words {
            ["--instructions", ref rest @ ..] if what.is_none() => {
                what = Some(Counted::Instructions);
                rest
            }
            ["--divisions", ref rest @ ..] if what.is_none() => {
                what = Some(Counted::Divisions);
                rest
            }
            ["--jobs", word, ref rest @ ..] => {
                let count = word.parse().ok().filter(|&count: &usize| count > 0);
                jobs = Some(count.ok_or_else(|| format!("{word} is no count of jobs"))?);
                rest
            }
            ["--rows", word, ref rest @ ..] => {
                named.push(word);
                rest
            }
            _ => return Err(format!("these arguments are not known\n\n{HELP}")),
        };
    }
    let measure = match (what, jobs) {
        (Some(what), jobs) => Measure::Count { what, jobs: jobs.unwrap_or(1) },
        (None, None) => Measure::Time,
        (None, Some(_)) => {
            return Err("--jobs goes with --instructions or --divisions: times are taken one by one".into());
        }
    };
    Ok(Asked { measure, words: named })
}

fn print_table(back_ends: &[BackEnd], asked: &Asked) -> Result<(), String> {
    let rows = rows::all(rows::WHOLE);
    let chosen = rows::named(&rows, &asked.words)?;
    if !cfg!(plain_c) {
        eprintln!("bench: built without a C compiler: there is no plain C to compare with");
    }
    table::print(&rows, &chosen, asked.measure, back_ends)
}

/// The run that callgrind watches.
fn counted(back_ends: &[BackEnd], row: &str, back_end: &str) -> Result<(), String> {
    let rows = rows::all(rows::WHOLE);
    let row = row.parse().ok().and_then(|k: usize| rows.get(k)).ok_or("no such row")?;
    let back_end = back_end.parse().ok().and_then(|k: usize| back_ends.get(k)).ok_or("no such back end")?;
    count::run(&mut *(row.make)(), back_end);
    Ok(())
}

fn search(back_ends: &[BackEnd], seconds: &str, seed: &str) -> Result<(), String> {
    let seconds = seconds.parse().map_err(|_| format!("{seconds} is no count of seconds"))?;
    let seed = seed.parse().map_err(|_| format!("{seed} is no seed"))?;
    search::search(back_ends, seconds, seed)
}

#[cfg(test)]
mod tests {
    use super::{Asked, Counted, Measure, asked};

    #[test]
    fn rows_and_measure_stand_in_any_order() {
        let table = |words: &[&'static str], measure, named: &[&'static str]| {
            assert_eq!(asked(words), Ok(Asked { measure, words: named.to_vec() }), "{words:?}");
        };
        table(&[], Measure::Time, &[]);
        table(&["--rows", "grids in force"], Measure::Time, &["grids in force"]);
        let count = |what, jobs| Measure::Count { what, jobs };
        table(&["--instructions"], count(Counted::Instructions, 1), &[]);
        table(&["--divisions"], count(Counted::Divisions, 1), &[]);
        table(&["--jobs", "2", "--instructions"], count(Counted::Instructions, 2), &[]);
        table(&["--divisions", "--jobs", "2"], count(Counted::Divisions, 2), &[]);
        let both = ["--rows", "read", "--instructions", "--rows", "write"];
        table(&both, count(Counted::Instructions, 1), &["read", "write"]);
    }

    #[test]
    fn what_is_no_table_is_told() {
        let told = |words: &[&str]| asked(words).expect_err("it is told").lines().next().map(str::to_string);
        let two_counts = &["--instructions", "--divisions"];
        for words in [&["--rows"][..], &["--jobs"], &["grids in force"], &["--rows", "read", "write"], two_counts] {
            assert_eq!(told(words).as_deref(), Some("these arguments are not known"), "{words:?}");
        }
        for jobs in ["0", "-1", "two", ""] {
            let words = ["--divisions", "--jobs", jobs];
            assert_eq!(told(&words), Some(format!("{jobs} is no count of jobs")));
        }
        assert!(told(&["--jobs", "2"]).is_some_and(|why| why.starts_with("--jobs goes with --instructions")));
    }
}
