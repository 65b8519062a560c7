//! Records of the same fields, said once for every format that has them.

use crate::json::{Member, Object, Text};
use crate::parted::Parted;
use std::fmt::{Display, Formatter, Result};

/// A column: its key in JSON, and its heading in CSV.
pub type Column = (&'static str, &'static str);

pub const LONGITUDE: Column = ("longitude_mas", "longitude [mas]");
pub const LATITUDE: Column = ("latitude_mas", "latitude [mas]");

/// A value of a row. No text that is printed needs quotes in CSV.
pub enum Cell {
    Number(i64),
    Text(String),
    /// What a row hasn't got: JSON leaves it out.
    None,
}

pub struct Table {
    pub columns: &'static [Column],
    pub rows: Vec<Vec<Cell>>,
}

impl Table {
    /// A line a row, its values parted by a character.
    pub fn lines(&self, by: char) -> String {
        self.rows.iter().map(|row| format!("{}\n", Parted(row, by))).collect()
    }

    /// The headings, then the rows.
    pub fn csv(&self) -> String {
        let headings: Vec<&str> = self.columns.iter().map(|&(_, heading)| heading).collect();
        format!("{}\n{}", Parted(&headings, ','), self.lines(','))
    }

    /// The rows as objects of JSON.
    pub fn objects(&self) -> Vec<String> {
        self.rows.iter().map(|row| self.object(row)).collect()
    }

    fn object(&self, row: &[Cell]) -> String {
        let values: Vec<Option<String>> = row.iter().map(Cell::json).collect();
        let named = self.columns.iter().zip(&values);
        let members: Vec<Member> =
            named.filter_map(|(&(key, _), value)| Some((key, value.as_ref()? as &dyn Display))).collect();
        Object(&members).to_string()
    }
}

impl Cell {
    fn json(&self) -> Option<String> {
        match self {
            Cell::Number(number) => Some(number.to_string()),
            Cell::Text(text) => Some(Text(text).to_string()),
            Cell::None => None,
        }
    }
}

impl Display for Cell {
    fn fmt(&self, to: &mut Formatter) -> Result {
        match self {
            Cell::Number(number) => number.fmt(to),
            Cell::Text(text) => text.fmt(to),
            Cell::None => Ok(()),
        }
    }
}

/// Rows of text with columns of equal width, two spaces apart; those named have their words to the left, the others to the right.
pub fn aligned(rows: &[Vec<String>], left: &[usize]) -> String {
    let columns = rows.iter().map(Vec::len).max().unwrap_or(0);
    let width = |k: usize| rows.iter().filter_map(|row| row.get(k)).map(|cell| cell.chars().count()).max().unwrap_or(0);
    let widths: Vec<usize> = (0..columns).map(width).collect();
    let mut text = String::new();
    for row in rows {
        let cell = |(k, cell): (usize, &String)| {
            let width = widths[k];
            if left.contains(&k) { format!("{cell:<width$}") } else { format!("{cell:>width$}") }
        };
        let cells: Vec<String> = row.iter().enumerate().map(cell).collect();
        text += cells.join("  ").trim_end();
        text.push('\n');
    }
    text
}
