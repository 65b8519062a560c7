//! A group, read from a header file.

use crate::files;
use crate::hint::hint;
use crate::stop::{Refusal, Stop, accepted};
use interface::{Calls, Grid, Group, Name};
use std::ffi::OsStr;

/// Reads a header file; a refusal's words say what can be seen on its line.
pub fn read(calls: &dyn Calls, file: &OsStr) -> Result<Group, Stop> {
    let text = files::read(file)?;
    let (mut group, mut place) = (Group::default(), 0);
    let number = calls.read_header(&text, &mut group, &mut place);
    accepted(number, place).map_err(|refusal| refused(&text, refusal))?;
    Ok(group)
}

fn refused(text: &[u8], refusal: Refusal) -> Stop {
    Stop::Refused { refusal, words: hint(text, &refusal).unwrap_or_else(|| refusal.words()) }
}

/// The grids of a group with their numbers, from 1.
pub fn grids(group: &Group) -> impl Iterator<Item = (usize, &Grid)> {
    (1..).zip(group.grid.iter().take(group.grids as usize))
}

/// The name of a group or of a grid.
pub fn name(name: &Name) -> String {
    String::from_utf8_lossy(name.text()).into_owned()
}

/// The unit of a group, as its header has it.
pub fn unit(group: &Group) -> &'static str {
    if group.unit == 0 { "arc-second" } else { "metre" }
}

/// Where the values of a grid stand in the node list.
pub fn node_range(group: &Group, grid: &Grid) -> std::ops::Range<usize> {
    let [start, count] = [grid.start, grid.ni * grid.nj * group.parameters].map(|number| number as usize);
    start..start + count
}
