//! The reader of a header text.

use crate::judge::{function_within, grid_within, head_within, name_byte, refusal, sound};
use interface::{Function, Grid, Group, NAME_BYTES, Name, Refusal};

/// Why a line is not taken: its form (1) or a limit (2).
type Fault = u64;

const FORM: Fault = 1;
const LIMIT: Fault = 2;

/// The fields of the line that is being read.
struct Fields<'a> {
    rest: Option<&'a [u8]>,
}

impl<'a> Fields<'a> {
    fn next(&mut self) -> Result<&'a [u8], Fault> {
        let line = self.rest.ok_or(FORM)?;
        match line.iter().position(|&c| c == b'\t') {
            Some(tab) => {
                self.rest = Some(&line[tab + 1..]);
                Ok(&line[..tab])
            }
            None => {
                self.rest = None;
                Ok(line)
            }
        }
    }

    fn word(&mut self, word: &[u8]) -> Result<(), Fault> {
        if self.next()? == word { Ok(()) } else { Err(FORM) }
    }

    /// The last N fields of the line, as numbers.
    fn numbers<const N: usize>(&mut self) -> Result<[i64; N], Fault> {
        let mut numbers = [0; N];
        for number in &mut numbers {
            *number = decimal(self.next()?)?;
        }
        if self.rest.is_none() { Ok(numbers) } else { Err(FORM) }
    }

    fn name(&mut self) -> Result<Name, Fault> {
        let name = self.next()?;
        if name.is_empty() || name.len() > NAME_BYTES || !name.iter().all(|&c| name_byte(c)) {
            return Err(FORM);
        }
        Ok(Name::new(name))
    }
}

/// A number, cut at 10^17, which is beyond every limit.
fn decimal(field: &[u8]) -> Result<i64, Fault> {
    let digits = field.strip_prefix(b"-").unwrap_or(field);
    let below = digits.len() < field.len();
    match digits {
        [b'0'] if !below => return Ok(0),
        [b'1'..=b'9', ..] => {}
        _ => return Err(FORM),
    }
    let mut size = 0;
    for &c in digits {
        if !c.is_ascii_digit() {
            return Err(FORM);
        }
        size = (size * 10 + i64::from(c - b'0')).min(100_000_000_000_000_000);
    }
    Ok(if below { -size } else { size })
}

/// A line's value, if its numbers are within their limits.
fn admitted<T>(value: T, within: impl Fn(&T) -> bool) -> Result<T, Fault> {
    if within(&value) { Ok(value) } else { Err(LIMIT) }
}

fn group_line(mut fields: Fields) -> Result<Group, Fault> {
    fields.word(b"group")?;
    let name = fields.name()?;
    let unit = match fields.next()? {
        b"arc-second" => 0,
        b"metre" => 1,
        _ => return Err(FORM),
    };
    let [quantum, parameters, functions, grids] = fields.numbers()?;
    admitted(Group { name, unit, quantum, parameters, functions, grids, ..Group::default() }, head_within)
}

fn function_line(mut fields: Fields) -> Result<Function, Fault> {
    let function = match fields.next()? {
        b"ramp" => Function { kind: Function::RAMP, numbers: fields.numbers()? },
        b"ramp2" => Function { kind: Function::RAMP2, numbers: fields.numbers()? },
        b"step" => {
            let [event, reference, mult] = fields.numbers()?;
            Function::step(event, reference, mult)
        }
        _ => return Err(FORM),
    };
    admitted(function, function_within)
}

fn grid_line(mut fields: Fields) -> Result<Grid, Fault> {
    fields.word(b"grid")?;
    let name = fields.name()?;
    let [lon, lat, dlon, dlat, ni, nj, rank, start] = fields.numbers()?;
    admitted(Grid { name, lon, lat, dlon, dlat, ni, nj, rank, start }, grid_within)
}

/// The lines of a text that are not read yet.
struct Lines<'a> {
    rest: &'a [u8],
    number: usize,
}

impl<'a> Lines<'a> {
    /// Reads the next line.
    fn next<T>(&mut self, line: impl Fn(Fields<'a>) -> Result<T, Fault>) -> Result<T, Refusal> {
        self.number += 1;
        let end = self.rest.iter().position(|&c| c == b'\n').ok_or(refusal(FORM, self.number))?;
        let fields = Fields { rest: Some(&self.rest[..end]) };
        self.rest = &self.rest[end + 1..];
        line(fields).map_err(|fault| refusal(fault, self.number))
    }
}

/// Reads a header text.
pub fn read(text: &[u8]) -> Result<Group, Refusal> {
    let mut lines = Lines { rest: text, number: 0 };
    let mut group = lines.next(group_line)?;
    for function in &mut group.function[..group.functions as usize] {
        *function = lines.next(function_line)?;
    }
    for grid in &mut group.grid[..group.grids as usize] {
        *grid = lines.next(grid_line)?;
    }
    if !lines.rest.is_empty() {
        return Err(refusal(FORM, lines.number + 1));
    }
    sound(&group)?;
    Ok(group)
}
