//! `lookup HEADER NODES [LON LAT DAY]`: the shifts of a point in steps.

use crate::arguments::Arguments;
use crate::formats::Format;
use crate::group::unit;
use crate::json::{self, List, Text};
use crate::model::Model;
use crate::output::Output;
use crate::parted::Parted;
use crate::points;
use crate::printed::{Printed, members};
use crate::stop::{Refusal, Stop, accepted};
use interface::{Calls, Found, Group, Position};

pub fn lookup(calls: &dyn Calls, arguments: &Arguments, out: &mut Output) -> Result<(), Stop> {
    points::answer(calls, arguments, out, &Printed { headings: &["grid"], unit: step, line: fix })
}

/// One step, in the group's unit.
fn step(group: &Group) -> String {
    format!("2^-{} {}", group.quantum, unit(group))
}

/// The line of an accepted lookup.
fn fix(_: &dyn Calls, model: &Model, format: Format, at: Position, found: &Found) -> Result<String, Refusal> {
    accepted(found.number, found.at)?;
    let Position { lon, lat, day } = at;
    let (grid, steps) = (model.chosen(&found.fix), model.shifts(&found.fix.result));
    Ok(match format {
        Format::Text => format!("fix\t{lon}\t{lat}\t{day}\t{grid}\t{}\n", Parted(steps, '\t')),
        Format::Json => json::line(&[
            &members(&at),
            &[
                ("grid", &Text(&grid)),
                ("steps", &List(steps)),
                ("unit", &Text(unit(&model.group))),
                ("quantum", &found.quantum),
            ],
        ]),
        Format::Csv => format!("{lon},{lat},{day},0,0,{grid},{}\n", Parted(steps, ',')),
    })
}
