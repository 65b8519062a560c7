//! The functions of time of a group, as `grids` prints them.

use crate::table::{Cell, Column, Table, aligned};
use interface::Group;

/// The columns of all kinds: each has its own, and what others have is empty.
const COLUMNS: [Column; 11] = [
    ("number", "number"),
    ("kind", "kind"),
    ("a_day", "A [day]"),
    ("s0_millionths", "S0 [millionths]"),
    ("b_day", "B [day]"),
    ("s1_millionths", "S1 [millionths]"),
    ("event_day", "EVENT [day]"),
    ("start_day", "START [day]"),
    ("end_day", "END [day]"),
    ("ref_day", "REF [day]"),
    ("mult_millionths", "MULT [millionths]"),
];

/// The columns in which the numbers of a kind stand, in the order of its line, by kind.
const OF_KIND: [&[usize]; 3] = [&[2, 3, 4, 5], &[6, 9, 10], &[7, 8, 9, 10]];

/// What a function of an accepted group shows: its number from 1, the word of its kind, and its numbers with their columns.
fn shown(group: &Group) -> impl Iterator<Item = (i64, &'static str, Vec<(usize, i64)>)> {
    (1..).zip(&group.function[..group.functions as usize]).filter_map(|(number, function)| {
        let (word, numbers) = function.line()?;
        let columns = OF_KIND[function.kind as usize].iter().copied();
        Some((number, word, columns.zip(numbers.iter().copied()).collect()))
    })
}

/// A row for each function, in the order of the header.
pub fn table(group: &Group) -> Table {
    let row = |(number, word, numbers): (i64, &str, Vec<(usize, i64)>)| {
        let mut row = vec![Cell::Number(number), Cell::Text(word.into())];
        row.resize_with(COLUMNS.len(), || Cell::None);
        for (column, number) in numbers {
            row[column] = Cell::Number(number);
        }
        row
    };
    Table { columns: &COLUMNS, rows: shown(group).map(row).collect() }
}

/// A line for each function, with the names of its numbers; nothing for none.
pub fn for_people(group: &Group) -> String {
    let mut rows = vec![["", "function", "days; S0, S1 and MULT in millionths"].map(String::from).to_vec()];
    for (number, word, numbers) in shown(group) {
        let name = |column: usize| COLUMNS[column].1.split(' ').next().unwrap_or_default();
        let numbers: Vec<String> = numbers.into_iter().map(|(column, n)| format!("{} {n}", name(column))).collect();
        rows.push(vec![number.to_string(), word.into(), numbers.join(", ")]);
    }
    if rows.len() == 1 { String::new() } else { aligned(&rows, &[1, 2]) }
}
