//! The header text, read line by line and written back.

use crate::judge::{judge, sound};
use crate::limits;
use crate::refusal::refuse;
use crate::text::{decimal, put};
use interface::{Function, Grid, Group, Name, Refusal};

/// Why a line is not taken.
enum Fault {
    Form,
    Limit,
}

/// The lines of a text that are not read yet.
struct Lines<'a> {
    rest: &'a [u8],
    number: usize,
}

impl<'a> Lines<'a> {
    /// Reads the next line by `parse`, refusing 1 or 2 at its number; a line not closed by a line feed is 1.
    fn read<T>(&mut self, parse: impl Fn(&[&'a [u8]]) -> Result<T, Fault>) -> Result<T, Refusal> {
        self.number += 1;
        let Some(end) = self.rest.iter().position(|&c| c == b'\n') else {
            return refuse(1, self.number);
        };
        let fields: Vec<&[u8]> = self.rest[..end].split(|&c| c == b'\t').collect();
        self.rest = &self.rest[end + 1..];
        match parse(&fields) {
            Ok(value) => Ok(value),
            Err(Fault::Form) => refuse(1, self.number),
            Err(Fault::Limit) => refuse(2, self.number),
        }
    }
}

/// The numbers that `N` fields write.
fn numbers<const N: usize>(fields: &[&[u8]]) -> Result<[i128; N], Fault> {
    let all: Option<Vec<i128>> = fields.iter().map(|f| decimal(f)).collect();
    all.and_then(|v| v.try_into().ok()).ok_or(Fault::Form)
}

fn name(field: &[u8]) -> Result<Name, Fault> {
    if limits::name_text(field) { Ok(Name::new(field)) } else { Err(Fault::Form) }
}

fn within<T>(admitted: bool, value: impl FnOnce() -> T) -> Result<T, Fault> {
    if admitted { Ok(value()) } else { Err(Fault::Limit) }
}

/// `group` NAME UNIT Q NP FUNCTIONS GRIDS.
fn group_line(fields: &[&[u8]]) -> Result<Group, Fault> {
    let [b"group", text, unit, rest @ ..] = fields else { return Err(Fault::Form) };
    let name = name(text)?;
    let unit = match *unit {
        b"arc-second" => 0,
        b"metre" => 1,
        _ => return Err(Fault::Form),
    };
    let [q, np, functions, grids] = numbers(rest)?;
    within(limits::head(q, np, functions, grids), || Group {
        name,
        unit,
        quantum: q as i64,
        parameters: np as i64,
        functions: functions as i64,
        grids: grids as i64,
        ..Group::default()
    })
}

/// `ramp` A S0 B S1, `step` EVENT REF MULT, or `ramp2` START END REF MULT.
fn function_line(fields: &[&[u8]]) -> Result<Function, Fault> {
    let (kind, all) = match fields {
        [b"ramp", rest @ ..] => (Function::RAMP, numbers(rest)?),
        [b"step", rest @ ..] => {
            let [event, reference, mult] = numbers(rest)?;
            (Function::STEP, [event, reference, mult, 0])
        }
        [b"ramp2", rest @ ..] => (Function::RAMP2, numbers(rest)?),
        _ => return Err(Fault::Form),
    };
    within(limits::function(kind, all), || Function { kind, numbers: all.map(|n| n as i64) })
}

/// `grid` NAME LON LAT DLON DLAT NI NJ RANK START.
fn grid_line(fields: &[&[u8]]) -> Result<Grid, Fault> {
    let [b"grid", text, rest @ ..] = fields else { return Err(Fault::Form) };
    let name = name(text)?;
    let all: [i128; 8] = numbers(rest)?;
    within(limits::grid(all), || {
        let [lon, lat, dlon, dlat, ni, nj, rank, start] = all.map(|n| n as i64);
        Grid { name, lon, lat, dlon, dlat, ni, nj, rank, start }
    })
}

/// Reads a whole header: refusals 1 and 2 line by line, then 3, 4, 5.
pub fn read_header(text: &[u8]) -> Result<Group, Refusal> {
    let mut lines = Lines { rest: text, number: 0 };
    let mut record = lines.read(group_line)?;
    for k in 0..record.functions as usize {
        record.function[k] = lines.read(function_line)?;
    }
    for k in 0..record.grids as usize {
        record.grid[k] = lines.read(grid_line)?;
    }
    if !lines.rest.is_empty() {
        return refuse(1, lines.number + 1);
    }
    sound(&record)?;
    Ok(record)
}

/// The header text of an accepted record.
fn header_text(record: &Group) -> Vec<u8> {
    let shown = |name: &Name| String::from_utf8_lossy(name.text()).into_owned();
    let unit = if record.unit == 0 { "arc-second" } else { "metre" };
    let mut text = format!(
        "group\t{}\t{unit}\t{}\t{}\t{}\t{}\n",
        shown(&record.name),
        record.quantum,
        record.parameters,
        record.functions,
        record.grids
    );
    for f in &record.function[..record.functions as usize] {
        let (word, numbers) = f.line().expect("a judged function has a kind");
        text += &format!("{word}\t{}\n", numbers.iter().map(i64::to_string).collect::<Vec<_>>().join("\t"));
    }
    for g in &record.grid[..record.grids as usize] {
        let numbers = limits::grid_numbers(g).map(|n| n.to_string()).join("\t");
        text += &format!("grid\t{}\t{numbers}\n", shown(&g.name));
    }
    text.into_bytes()
}

/// Writes the record's header into `out` and answers the count of bytes: refusals 2 to 5, then 12.
pub fn write_header(record: &Group, out: &mut [u8]) -> Result<usize, Refusal> {
    judge(record)?;
    put(&header_text(record), out)
}
