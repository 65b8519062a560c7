//! The judge: limits and refusals 2 to 5, and 10 of an area.

use crate::group::{LONGITUDE, TURN, end, extent, share};
use interface::{Area, Function, Grid, Group, MOST_GRIDS, NAME_BYTES, Name, Refusal};

pub const LATITUDE: i64 = 324_000_000;
const NODE_LIST: i64 = 16_777_216;
const SPACING: i64 = 36_000_000;

/// The refusal of this number at this place.
pub fn refusal(number: u64, place: usize) -> Refusal {
    Refusal { number, place: place as u64 }
}

/// Whether x is from -limit to limit.
pub fn within(x: i64, limit: i64) -> bool {
    -limit <= x && x <= limit
}

pub fn between(x: i64, least: i64, greatest: i64) -> bool {
    least <= x && x <= greatest
}

pub fn name_byte(c: u8) -> bool {
    c.is_ascii_alphanumeric() || c == b'_' || c == b'-'
}

fn name_within(name: &Name) -> bool {
    between(name.len, 1, NAME_BYTES as i64) && {
        let (used, behind) = name.bytes.split_at(name.len as usize);
        used.iter().all(|&c| name_byte(c)) && behind.iter().all(|&c| c == 0)
    }
}

pub fn head_within(group: &Group) -> bool {
    between(group.quantum, 0, 20)
        && between(group.parameters, 1, 3)
        && between(group.functions, 0, 8)
        && between(group.grids, 1, 64)
}

pub fn function_within(&Function { kind, numbers }: &Function) -> bool {
    let day = |t: i64| within(t, 1_000_000);
    let factor = |s: i64| within(s, 10_000_000);
    let [a, b, c, d] = numbers;
    match kind {
        Function::RAMP => day(a) && factor(b) && day(c) && factor(d) && a <= c,
        Function::STEP => day(a) && day(b) && factor(c) && d == 0,
        Function::RAMP2 => day(a) && day(b) && day(c) && factor(d) && a < b,
        _ => false,
    }
}

pub fn grid_within(grid: &Grid) -> bool {
    within(grid.lon, TURN)
        && within(grid.lat, LATITUDE)
        && within(grid.dlon, SPACING)
        && grid.dlon != 0
        && within(grid.dlat, SPACING)
        && grid.dlat != 0
        && between(grid.ni, 2, 16_384)
        && between(grid.nj, 2, 16_384)
        && between(grid.rank, 1, 1_000)
        && between(grid.start, 0, NODE_LIST - 1)
}

/// Refusal 2 of a group.
fn limits(group: &Group) -> Result<(), Refusal> {
    if !name_within(&group.name) || !between(group.unit, 0, 1) || !head_within(group) {
        return Err(refusal(2, 1));
    }
    let (functions, unused) = group.function.split_at(group.functions as usize);
    let (grids, unused_grids) = group.grid.split_at(group.grids as usize);
    if unused.iter().any(|f| *f != Function::default()) || unused_grids.iter().any(|g| *g != Grid::default()) {
        return Err(refusal(2, 1));
    }
    if let Some(k) = functions.iter().position(|f| !function_within(f)) {
        return Err(refusal(2, 2 + k));
    }
    match grids.iter().position(|g| !name_within(&g.name) || !grid_within(g)) {
        Some(k) => Err(refusal(2, 2 + functions.len() + k)),
        None => Ok(()),
    }
}

/// Refusals 3 to 5 of a group within its limits; the extents of its grids.
pub fn sound(group: &Group) -> Result<[Area; MOST_GRIDS], Refusal> {
    let grids = &group.grid[..group.grids as usize];
    for (k, grid) in grids.iter().enumerate() {
        if grids[..k].iter().any(|earlier| earlier.name == grid.name) {
            return Err(refusal(3, k + 1));
        }
    }
    let mut all = [Area::default(); MOST_GRIDS];
    let mut ranks = [0; MOST_GRIDS];
    for (k, grid) in grids.iter().enumerate() {
        let e = extent(grid);
        let inside = -TURN <= e.west && e.east <= TURN && -LATITUDE <= e.south && e.north <= LATITUDE;
        if !inside || e.east - e.west > TURN || end(grid, group.parameters) > NODE_LIST {
            return Err(refusal(4, k + 1));
        }
        (all[k], ranks[k]) = (e, grid.rank);
    }
    for k in 1..grids.len() {
        if (0..k).any(|j| ranks[j] == ranks[k] && share(&all[j], &all[k])) {
            return Err(refusal(5, k + 1));
        }
    }
    Ok(all)
}

/// Judges a group; the extents of its grids.
pub fn judge(group: &Group) -> Result<[Area; MOST_GRIDS], Refusal> {
    limits(group)?;
    sound(group)
}

/// Judges a group, then an area; the extents of the group's grids.
pub fn judge_area(group: &Group, area: &Area) -> Result<[Area; MOST_GRIDS], Refusal> {
    let extents = judge(group)?;
    let admitted = within(area.west, LONGITUDE)
        && within(area.east, LONGITUDE)
        && within(area.south, LATITUDE)
        && within(area.north, LATITUDE);
    if !admitted || area.west > area.east || area.south > area.north {
        return Err(refusal(10, 0));
    }
    Ok(extents)
}
