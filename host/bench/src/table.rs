//! The table: a row for each work, a column for each back end, and how much more the library takes than each plain version.

use crate::back_end::BackEnd;
use crate::count::{Counted, counts};
use crate::measure::{RUNS, answers, best_times};
use crate::work::Row;

/// What is measured; of counts, so many figures at a time.
#[derive(Clone, Copy, Debug, PartialEq, Eq)]
pub enum Measure {
    Time,
    Count { what: Counted, jobs: usize },
}

/// Prints a table of some of the rows, given by their indices; why it can't be had, otherwise.
pub fn print(rows: &[Row], chosen: &[usize], measure: Measure, back_ends: &[BackEnd]) -> Result<(), String> {
    let all = chosen.iter().flat_map(|&row| (0..back_ends.len()).map(move |back_end| (row, back_end)));
    let mut counts = match measure {
        Measure::Time => None,
        Measure::Count { what, jobs } => Some(counts(what, all, jobs)?),
    };
    print_head(back_ends);
    for row in chosen.iter().map(|&index| &rows[index]) {
        alike(row, back_ends)?;
        let figures: Vec<f64> = match &mut counts {
            None => {
                let times = best_times(&mut *(row.make)(), row.repeats, RUNS, back_ends);
                times.iter().map(|time| time.as_secs_f64()).collect()
            }
            Some(counts) => {
                let counts = counts.take(back_ends.len());
                counts.map(|count| count.map(|n| n as f64)).collect::<Result<_, _>>()?
            }
        };
        print_row(row, measure, &figures);
    }
    Ok(())
}

fn print_head(back_ends: &[BackEnd]) {
    let (_, plain) = back_ends.split_last().expect("the library is one");
    let names = back_ends.iter().map(|b| b.name.to_string());
    let ratios = plain.iter().map(|b| format!("library / {}", b.name));
    let columns: Vec<String> = names.chain(ratios).collect();
    println!("| work | {} |", columns.join(" | "));
    println!("|---|{}", "---:|".repeat(columns.len()));
}

/// Says which back ends answer a row differently, if any.
fn alike(row: &Row, back_ends: &[BackEnd]) -> Result<(), String> {
    let answers = answers(&row.make, back_ends);
    match answers.iter().position(|answer| *answer != answers[0]) {
        Some(k) => Err(format!("{}: {} and {} answer differently", row.name, back_ends[0].name, back_ends[k].name)),
        None => Ok(()),
    }
}

fn print_row(row: &Row, measure: Measure, figures: &[f64]) {
    let (library, plain) = figures.split_last().expect("the library is one");
    let shown = figures.iter().map(|&figure| match measure {
        Measure::Time => time(figure),
        Measure::Count { .. } => grouped(figure as u64),
    });
    let ratios = plain.iter().map(|&plain| ratio(*library, plain));
    println!("| {} | {} |", row.name, shown.chain(ratios).collect::<Vec<_>>().join(" | "));
}

/// The library's figure as a multiple of a plain version's; there is none of 0.
fn ratio(library: f64, plain: f64) -> String {
    if plain > 0.0 { format!("{:.2}", library / plain) } else { "–".to_string() }
}

/// A time with three digits or so.
fn time(seconds: f64) -> String {
    match seconds {
        s if s < 1e-3 => format!("{:.2} µs", s * 1e6),
        s if s < 1.0 => format!("{:.2} ms", s * 1e3),
        s => format!("{s:.2} s"),
    }
}

/// A number with a comma before each three digits.
fn grouped(n: u64) -> String {
    let digits = n.to_string();
    let mut shown = String::new();
    for (k, digit) in digits.chars().enumerate() {
        if k > 0 && (digits.len() - k).is_multiple_of(3) {
            shown.push(',');
        }
        shown.push(digit);
    }
    shown
}

#[cfg(test)]
mod tests {
    use super::ratio;

    #[test]
    fn there_is_no_multiple_of_nothing() {
        assert_eq!([ratio(3.0, 2.0), ratio(0.0, 2.0), ratio(3.0, 0.0), ratio(0.0, 0.0)], ["1.50", "0.00", "–", "–"]);
    }
}
