//! A group and an area: what `HEADER WEST EAST SOUTH NORTH` names, and what can be seen of an area that the library refused.

use crate::arguments::Arguments;
use crate::extent::{HALF_TURN, POLE, eastward, within};
use crate::group;
use crate::stop::{self, Stop};
use interface::{Area, Calls, Group};

/// Reads the sides, then the file HEADER, the first argument.
pub fn read(calls: &dyn Calls, arguments: &Arguments) -> Result<(Group, Area), Stop> {
    arguments.count(&[5], "HEADER WEST EAST SOUTH NORTH")?;
    let [west, east] = [arguments.number(1, "WEST")?, arguments.number(2, "EAST")?];
    let [south, north] = [arguments.number(3, "SOUTH")?, arguments.number(4, "NORTH")?];
    let group = group::read(calls, arguments.file(0))?;
    Ok((group, Area { west, east, south, north }))
}

/// Accepts a call for an area that returned 0; else its refusal. An accepted group is not refused again, so the area is.
pub fn accepted(area: &Area, number: u64, place: u64) -> Result<(), Stop> {
    stop::accepted(number, place)
        .map_err(|refusal| Stop::Refused { refusal, words: seen(area).unwrap_or_else(|| refusal.words()) })
}

/// What is wrong with an area, and how it has to be asked for.
fn seen(&Area { west, east, south, north }: &Area) -> Option<String> {
    let outside = |most: i64, sides: [i64; 2]| sides.iter().any(|&side| !within(most, side));
    let seen = if outside(POLE, [south, north]) {
        return Some(format!("a side is outside latitude ±{POLE}"));
    } else if south > north {
        return Some(format!("south is {south}, above north, which is {north}"));
    } else if outside(HALF_TURN, [west, east]) {
        format!("a side is outside longitude ±{HALF_TURN}")
    } else if west > east {
        format!("west is {west}, above east, which is {east}")
    } else {
        return None;
    };
    let sides = |[west, east]: [i64; 2]| format!("{west} {east} {south} {north}");
    Some(match eastward(west, east).unwrap_or_default()[..] {
        [one] => format!("{seen}; ask for {}", sides(one)),
        [one, other] => {
            let [one, other] = [one, other].map(sides);
            format!("{seen}; an area across the 180° meridian needs two calls: {one} and {other}")
        }
        _ => seen,
    })
}
