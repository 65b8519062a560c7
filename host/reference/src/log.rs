//! Logs of lookups: the judge of one, and the writer of its lines.

use crate::geometry::grids;
use crate::judge::judge;
use crate::limits;
use crate::lookup::{lookup, whole_ranges};
use crate::text::{decimal, put};
use interface::{Fault, Group, Position, Refusal};

/// What a line of the form says: LON LAT DAY, GRID, V1 and those behind it.
struct Said<'a> {
    at: [i128; 3],
    grid: &'a [u8],
    values: Vec<i128>,
}

/// `fix` LON LAT DAY GRID and as many values as there are parameters, closed by a line feed.
fn said(line: &[u8], parameters: i64) -> Option<Said<'_>> {
    let fields: Vec<&[u8]> = line.strip_suffix(b"\n")?.split(|&c| c == b'\t').collect();
    let [b"fix", lon, lat, day, grid, values @ ..] = fields.as_slice() else { return None };
    let said = Said {
        at: [decimal(lon)?, decimal(lat)?, decimal(day)?],
        grid,
        values: values.iter().map(|v| decimal(v)).collect::<Option<_>>()?,
    };
    (limits::name_text(grid) && values.len() as i64 == parameters).then_some(said)
}

/// The position of these numbers; one that no position has room for is beyond its limit.
fn position([lon, lat, day]: [i128; 3]) -> Option<Position> {
    Some(Position { lon: lon.try_into().ok()?, lat: lat.try_into().ok()?, day: day.try_into().ok()? })
}

/// The kind of a line's fault; `None` if it passes.
fn kind(record: &Group, nodes: &[i32], line: &[u8]) -> Option<u64> {
    let Some(said) = said(line, record.parameters) else {
        return Some(Fault::FORM);
    };
    let Some(fix) = position(said.at).and_then(|at| lookup(record, nodes, at).ok()) else {
        return Some(Fault::REFUSED);
    };
    if said.grid != grids(record)[fix.grid as usize - 1].name.text() {
        return Some(Fault::GRID);
    }
    let same = said.values.iter().zip(fix.result).all(|(&value, result)| value == i128::from(result));
    (!same).then_some(Fault::SHIFT)
}

/// Judges a log line by line, each with its line feed: refusals 2 to 5, then 13; else the first bad line, if any.
pub fn judge_log(record: &Group, nodes: &[i32], log: &[u8]) -> Result<Fault, Refusal> {
    judge(record)?;
    whole_ranges(record, nodes)?;
    let kinds = log.split_inclusive(|&c| c == b'\n').map(|line| kind(record, nodes, line));
    let bad = (1..).zip(kinds).find_map(|(line, kind)| kind.map(|kind| Fault { line, kind }));
    Ok(bad.unwrap_or_default())
}

/// Writes the line of a position into `out` and answers the count of bytes: refusals as of the lookup, then 12.
pub fn write_log_line(record: &Group, nodes: &[i32], at: Position, out: &mut [u8]) -> Result<usize, Refusal> {
    let fix = lookup(record, nodes, at)?;
    let name = String::from_utf8_lossy(grids(record)[fix.grid as usize - 1].name.text());
    let mut line = format!("fix\t{}\t{}\t{}\t{name}", at.lon, at.lat, at.day);
    for value in &fix.result[..record.parameters as usize] {
        line += &format!("\t{value}");
    }
    put((line + "\n").as_bytes(), out)
}
