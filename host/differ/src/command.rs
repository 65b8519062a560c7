//! The command line `differ [--seed SEED] [INPUTS]`.

use crate::calls::{Call, OTHERS, TIMED};
use crate::run::{Inputs, Report, run};
use interface::Calls;
use progress::Progress;
use std::ffi::OsString;
use std::fmt::Write;
use std::process::ExitCode;
use std::str::FromStr;

const HELP: &str = "\
usage: differ [--seed SEED] [INPUTS]

Gives INPUTS random and damaged inputs (20000 unless told otherwise) to every
call of the library and of the second program. Compares answers and all lent
memory, and prints how often each number was returned; 0 is accepted. The inputs
are the same in every run with the same SEED, a whole number from 0 on (0 unless
told otherwise), and others with another.

exit status: 0 no input differs, 1 some differ, 2 usage error
";

const INPUTS: Inputs = Inputs { count: 20_000, seed: 0 };

/// Differences printed for each call.
const SHOWN: usize = 5;

/// Runs the command line over two back ends.
pub fn main(first: &(dyn Calls + 'static), second: &(dyn Calls + 'static)) -> ExitCode {
    let words: Vec<OsString> = std::env::args_os().skip(1).collect();
    if words.iter().any(|word| word == "--help" || word == "-h") {
        print!("{HELP}");
        return ExitCode::SUCCESS;
    }
    let inputs = match inputs(&words) {
        Ok(inputs) => inputs,
        Err(why) => {
            eprintln!("differ: {why}; see differ --help");
            return ExitCode::from(2);
        }
    };
    let timed = TIMED.map(|call| agree(&call, inputs, first, second));
    let others = OTHERS.map(|call| agree(&call, inputs, first, second));
    ExitCode::from(u8::from(timed.contains(&false) || others.contains(&false)))
}

/// Runs a call, prints how it fared, and answers whether no input differs.
fn agree<B: ?Sized>(call: &Call<B>, inputs: Inputs, first: &B, second: &B) -> bool {
    let mut progress = Progress::new(call.name, inputs.count);
    let report = run(call, inputs, first, second, |done| progress.at(done));
    drop(progress);
    print!("{}", shown(call.name, &report));
    report.differences.is_empty()
}

/// The inputs that a command line asks for.
fn inputs(words: &[OsString]) -> Result<Inputs, String> {
    let mut inputs = INPUTS;
    let mut counts = 0;
    let mut words = words.iter();
    while let Some(word) = words.next() {
        if word == "--seed" {
            inputs.seed = number("SEED", words.next())?;
        } else if word.as_encoded_bytes().starts_with(b"-") {
            return Err(format!("there is no option {word:?}"));
        } else {
            inputs.count = number("INPUTS", Some(word))?;
            counts += 1;
        }
    }
    if counts > 1 { Err("it takes one count of inputs".into()) } else { Ok(inputs) }
}

fn number<T: FromStr>(name: &str, word: Option<&OsString>) -> Result<T, String> {
    let Some(word) = word else { return Err(format!("{name} is missing")) };
    let wrong = || format!("{name} is {word:?}, but must be a whole number from 0 on");
    word.to_str()
        .filter(|word| word.bytes().all(|c| c.is_ascii_digit()))
        .and_then(|word| word.parse().ok())
        .ok_or_else(wrong)
}

/// A call's line: inputs, differences, and the count of each number returned; then the first differences.
fn shown(call: &str, report: &Report) -> String {
    let Inputs { count, seed } = report.inputs;
    let mut text = format!("{call}: {count} inputs of seed {seed}, {} differ; returned", report.differences.len());
    for (number, count) in report.returned.iter().enumerate().filter(|&(_, &count)| count > 0) {
        let _ = write!(text, " {number}:{count}");
    }
    text.push('\n');
    for (index, why) in report.differences.iter().take(SHOWN) {
        let _ = writeln!(text, "  input {index}: {why}");
    }
    text
}

#[cfg(test)]
mod tests {
    use super::{Inputs, inputs};
    use std::ffi::OsString;

    fn read(line: &str) -> Result<(usize, u64), String> {
        let words: Vec<OsString> = line.split_whitespace().map(OsString::from).collect();
        inputs(&words).map(|Inputs { count, seed }| (count, seed))
    }

    #[test]
    fn seed_and_count_stand_in_any_order() {
        assert_eq!(read(""), Ok((20_000, 0)));
        assert_eq!(read("5"), Ok((5, 0)));
        assert_eq!(read("--seed 7"), Ok((20_000, 7)));
        assert_eq!(read("--seed 7 5"), Ok((5, 7)));
        assert_eq!(read("5 --seed 18446744073709551615"), Ok((5, u64::MAX)));
    }

    #[test]
    fn what_is_no_count_or_seed_is_told() {
        let wrong = |name: &str, word: &str| Err(format!("{name} is {word:?}, but must be a whole number from 0 on"));
        assert_eq!(read("--seed"), Err("SEED is missing".into()));
        assert_eq!(read("--seed x"), wrong("SEED", "x"));
        assert_eq!(read("--seed +1"), wrong("SEED", "+1"));
        assert_eq!(read("--seed 18446744073709551616"), wrong("SEED", "18446744073709551616"));
        assert_eq!(read("1e3"), wrong("INPUTS", "1e3"));
        assert_eq!(read("5 5"), Err("it takes one count of inputs".into()));
        assert_eq!(read("--sed 5"), Err("there is no option \"--sed\"".into()));
    }
}
