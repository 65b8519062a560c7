//! `grids HEADER`: the functions of time and the grids of a header, as tables for people or as records for programs.

use crate::arguments::Arguments;
use crate::extent::{extent, of_points};
use crate::formats::Format;
use crate::functions;
use crate::group::{self, name, node_range, unit};
use crate::json::{self, List, Member, Text};
use crate::output::Output;
use crate::stop::Stop;
use crate::table::{Cell, Column, Table, aligned};
use interface::{Calls, Grid, Group};

pub fn grids(calls: &dyn Calls, arguments: &Arguments, out: &mut Output) -> Result<(), Stop> {
    arguments.count(&[1], "HEADER")?;
    let group = group::read(calls, arguments.file(0))?;
    let functions_alone = arguments.has("--functions");
    let table = if functions_alone { functions::table } else { table };
    out.put(match out.format {
        Format::Text if arguments.has("--tsv") => table(&group).lines('\t'),
        Format::Text if functions_alone => functions::for_people(&group),
        Format::Text => both(&functions::for_people(&group), &for_people(&group)),
        Format::Json => object(&group, functions_alone),
        Format::Csv => table(&group).csv(),
    })
}

/// Two texts with an empty line between them, if there is anything to part.
fn both(first: &str, second: &str) -> String {
    let parted = if first.is_empty() { "" } else { "\n" };
    [first, parted, second].concat()
}

const COLUMNS: [Column; 13] = [
    ("number", "number"),
    ("name", "name"),
    ("rank", "rank"),
    ("west_mas", "west [mas]"),
    ("east_mas", "east [mas]"),
    ("south_mas", "south [mas]"),
    ("north_mas", "north [mas]"),
    ("dlon_mas", "DLON [mas]"),
    ("dlat_mas", "DLAT [mas]"),
    ("ni", "NI"),
    ("nj", "NJ"),
    ("first", "first"),
    ("last", "last"),
];

/// A row for each grid.
fn table(group: &Group) -> Table {
    let row = |(number, grid): (usize, &Grid)| {
        let &Grid { lon, lat, dlon, dlat, ni, nj, rank, .. } = grid;
        let ([west, east], [south, north]) = (extent(lon, dlon, ni), extent(lat, dlat, nj));
        let range = node_range(group, grid);
        let [number, first, last] = [number, range.start, range.end - 1].map(|count| count as i64);
        let mut row = vec![Cell::Number(number), Cell::Text(name(&grid.name))];
        row.extend([rank, west, east, south, north, dlon, dlat, ni, nj, first, last].map(Cell::Number));
        row
    };
    Table { columns: &COLUMNS, rows: group::grids(group).map(row).collect() }
}

/// The group, its functions and, unless these are wanted alone, its grids.
fn object(group: &Group, functions_alone: bool) -> String {
    let (functions, grids) = (functions::table(group).objects(), table(group).objects());
    let grids = List(&grids);
    let grids: &[Member] = &[("grids", &grids)];
    json::line(&[
        &[
            ("group", &Text(&name(&group.name))),
            ("unit", &Text(unit(group))),
            ("quantum", &group.quantum),
            ("parameters", &group.parameters),
            ("functions", &List(&functions)),
        ],
        if functions_alone { &[] } else { grids },
    ])
}

const HEADINGS: [&str; 12] = [
    "",
    "grid",
    "rank",
    "axis",
    "from mas",
    "to mas",
    "from degrees",
    "to degrees",
    "spacing",
    "nodes",
    "first value",
    "last",
];

/// Columns of words to the left: the name of the grid, and the axis.
const LEFT: [usize; 2] = [1, 3];

/// Two rows a grid, one for each axis, in columns; where its longitudes are not those of points, these below them.
fn for_people(group: &Group) -> String {
    let mut rows = vec![HEADINGS.map(String::from).to_vec()];
    for (number, grid) in group::grids(group) {
        let range = node_range(group, grid);
        let mut row = vec![number.to_string(), name(&grid.name), grid.rank.to_string()];
        row.extend(axis("longitude", grid.lon, grid.dlon, grid.ni));
        row.extend([range.start.to_string(), (range.end - 1).to_string()]);
        rows.push(row);
        let written = extent(grid.lon, grid.dlon, grid.ni);
        let below = |columns: &[String]| [&vec![String::new(); 3], columns].concat();
        let points = of_points(written);
        if points != [written] {
            rows.extend(points.into_iter().map(|run| below(&from_to("points", run))));
        }
        rows.push(below(&axis("latitude", grid.lat, grid.dlat, grid.nj)));
    }
    aligned(&rows, &LEFT)
}

/// The columns of an axis: its extent, the spacing, the count of nodes.
fn axis(name: &str, first: i64, spacing: i64, count: i64) -> Vec<String> {
    [&from_to(name, extent(first, spacing, count))[..], &[spacing.to_string(), count.to_string()]].concat()
}

/// The columns of an extent: what it is of, in milliarcseconds and in degrees.
fn from_to(name: &str, [least, greatest]: [i64; 2]) -> [String; 5] {
    let degrees = |mas: i64| format!("{:.7}", mas as f64 / 3_600_000.0);
    [name.into(), least.to_string(), greatest.to_string(), degrees(least), degrees(greatest)]
}
