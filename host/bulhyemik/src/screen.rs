//! `screen HEADER NODES [LON LAT DAY]`: what the screen shows of a point, as floats.

use crate::arguments::Arguments;
use crate::formats::Format;
use crate::group::unit;
use crate::json::{self, List, Text};
use crate::model::Model;
use crate::output::Output;
use crate::parted::Parted;
use crate::points;
use crate::printed::{Printed, members};
use crate::stop::{Refusal, Stop, accepted};
use interface::{Calls, Found, Position, Screen};

pub fn screen(calls: &dyn Calls, arguments: &Arguments, out: &mut Output) -> Result<(), Stop> {
    let headings = &["grid", "longitude [degree]", "latitude [degree]"];
    points::answer(calls, arguments, out, &Printed { headings, unit: |group| unit(group).into(), line: shown })
}

/// The line of an accepted lookup in degrees and units.
fn shown(calls: &dyn Calls, model: &Model, format: Format, at: Position, found: &Found) -> Result<String, Refusal> {
    let (mut screen, mut place) = (Screen::default(), 0);
    let number = calls.screen_record(at.lon, at.lat, found, &mut screen, &mut place);
    accepted(number, place)?;
    let Position { lon, lat, day } = at;
    let Screen { longitude, latitude, shift } = screen;
    let (grid, shifts) = (model.chosen(&found.fix), model.shifts(&shift));
    Ok(match format {
        Format::Text => {
            format!("shown\t{longitude}\t{latitude}\t{day}\t{grid}\t{}\n", Parted(shifts, '\t'))
        }
        Format::Json => json::line(&[
            &members(&at),
            &[
                ("grid", &Text(&grid)),
                ("longitude_degrees", &longitude),
                ("latitude_degrees", &latitude),
                ("shifts", &List(shifts)),
                ("unit", &Text(unit(&model.group))),
            ],
        ]),
        Format::Csv => {
            format!("{lon},{lat},{day},0,0,{grid},{longitude},{latitude},{}\n", Parted(shifts, ','))
        }
    })
}
