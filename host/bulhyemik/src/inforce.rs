//! `inforce HEADER WEST EAST SOUTH NORTH`: the grids in force in an area.

use crate::area;
use crate::arguments::Arguments;
use crate::formats::Format;
use crate::group::name;
use crate::json::{self, List};
use crate::output::Output;
use crate::stop::Stop;
use crate::table::{Cell, Column, LATITUDE, LONGITUDE, Table};
use interface::{Calls, Entry, Group, InForce};

pub fn inforce(calls: &dyn Calls, arguments: &Arguments, out: &mut Output) -> Result<(), Stop> {
    let (group, area) = area::read(calls, arguments)?;
    let (mut list, mut place) = (InForce::default(), 0);
    let number = calls.grids_in_force(&group, area, &mut list, &mut place);
    area::accepted(&area, number, place)?;
    let table = table(&group, &list);
    out.put(match out.format {
        Format::Text => table.lines('\t'),
        Format::Json => json::line(&[&[("count", &list.count), ("grids", &List(&table.objects()))]]),
        Format::Csv => table.csv(),
    })
}

const COLUMNS: [Column; 4] = [("number", "number"), ("name", "name"), LONGITUDE, LATITUDE];

/// A row for each grid in force.
fn table(group: &Group, list: &InForce) -> Table {
    let row = |&Entry { grid, lon, lat }: &Entry| {
        let name = name(&group.grid[grid as usize - 1].name);
        vec![Cell::Number(grid), Cell::Text(name), Cell::Number(lon), Cell::Number(lat)]
    };
    Table { columns: &COLUMNS, rows: list.entry[..list.count as usize].iter().map(row).collect() }
}
