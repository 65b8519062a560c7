//! `hole HEADER WEST EAST SOUTH NORTH`: the first coordinate of an area that no grid holds.

use crate::area;
use crate::arguments::Arguments;
use crate::formats::Format;
use crate::json;
use crate::output::Output;
use crate::stop::Stop;
use crate::table::{Cell, LATITUDE, LONGITUDE, Table};
use interface::{Calls, Uncovered};

pub fn hole(calls: &dyn Calls, arguments: &Arguments, out: &mut Output) -> Result<(), Stop> {
    let (group, area) = area::read(calls, arguments)?;
    let (mut uncovered, mut place) = (Uncovered::default(), 0);
    let number = calls.hole(&group, area, &mut uncovered, &mut place);
    area::accepted(&area, number, place)?;
    let table = table(&uncovered);
    out.put(match out.format {
        Format::Text if table.rows.is_empty() => "none\n".into(),
        Format::Text => format!("hole\t{}", table.lines('\t')),
        Format::Json => json::line(&[&[("hole", &table.objects().pop().unwrap_or("null".into()))]]),
        Format::Csv => table.csv(),
    })
}

/// One row, or none where there is no hole.
fn table(uncovered: &Uncovered) -> Table {
    let row = vec![Cell::Number(uncovered.lon), Cell::Number(uncovered.lat)];
    let rows = if uncovered.found == 0 { vec![] } else { vec![row] };
    Table { columns: &[LONGITUDE, LATITUDE], rows }
}
