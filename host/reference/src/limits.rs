//! The admitted ranges of document 01's table 'Numbers', as orders 5 to 7 amend them, each as a test of one number.

use interface::{Function, Grid, Name};
use std::ops::RangeInclusive;

/// Of a grid's own longitude and far edge.
pub const GRID_LONGITUDE: i128 = 1_296_000_000;
/// Of points and of the sides of areas.
pub const LONGITUDE: i128 = 648_000_000;
pub const LATITUDE: i128 = 324_000_000;
pub const DAY: i128 = 1_000_000;
pub const NODE: i128 = 2_147_483_647;
pub const NODE_LIST: i128 = 16_777_216;
/// The numbers of the table of refusals.
pub const REFUSALS: RangeInclusive<u64> = 1..=13;

const SPACING: i128 = 36_000_000;
const FACTOR: i128 = 10_000_000;

pub fn grid_longitude(x: i128) -> bool {
    (-GRID_LONGITUDE..=GRID_LONGITUDE).contains(&x)
}

pub fn longitude(x: i128) -> bool {
    (-LONGITUDE..=LONGITUDE).contains(&x)
}

pub fn latitude(y: i128) -> bool {
    (-LATITUDE..=LATITUDE).contains(&y)
}

pub fn day(t: i128) -> bool {
    (-DAY..=DAY).contains(&t)
}

pub fn quantum(q: i128) -> bool {
    (0..=20).contains(&q)
}

pub fn parameters(np: i128) -> bool {
    (1..=3).contains(&np)
}

/// Whether the four numbers of a group line stand in their limits: Q, NP, functions, grids.
pub fn head(q: i128, np: i128, functions: i128, grids: i128) -> bool {
    quantum(q) && parameters(np) && (0..=8).contains(&functions) && (1..=64).contains(&grids)
}

fn factor(s: i128) -> bool {
    (-FACTOR..=FACTOR).contains(&s)
}

/// Whether the numbers of a function stand in the limits of its kind, A not above B and START below END; a number that the kind
/// hasn't got is 0.
pub fn function(kind: i64, numbers: [i128; 4]) -> bool {
    match (kind, numbers) {
        (Function::RAMP, [a, s0, b, s1]) => day(a) && factor(s0) && day(b) && factor(s1) && a <= b,
        (Function::STEP, [event, reference, mult, none]) => day(event) && day(reference) && factor(mult) && none == 0,
        (Function::RAMP2, [start, end, reference, mult]) => {
            day(start) && day(end) && day(reference) && factor(mult) && start < end
        }
        _ => false,
    }
}

/// Whether the eight numbers of a grid line stand in their limits.
pub fn grid([lon, lat, dlon, dlat, ni, nj, rank, start]: [i128; 8]) -> bool {
    let spacing = |d: i128| (1..=SPACING).contains(&d.abs());
    let count = |n: i128| (2..=16_384).contains(&n);
    grid_longitude(lon)
        && latitude(lat)
        && spacing(dlon)
        && spacing(dlat)
        && count(ni)
        && count(nj)
        && (1..=1_000).contains(&rank)
        && (0..NODE_LIST).contains(&start)
}

/// Whether a byte may stand in a name.
fn name_byte(c: u8) -> bool {
    c.is_ascii_alphanumeric() || c == b'_' || c == b'-'
}

/// Whether these bytes are a name.
pub fn name_text(text: &[u8]) -> bool {
    (1..=24).contains(&text.len()) && text.iter().all(|&c| name_byte(c))
}

/// Whether a record's name is well formed: 1 to 24 bytes of a name and zeros behind them.
pub fn name(n: &Name) -> bool {
    (1..=24).contains(&n.len) && {
        let (used, behind) = n.bytes.split_at(n.len as usize);
        name_text(used) && behind.iter().all(|&c| c == 0)
    }
}

/// The eight numbers of a grid, as its line has them.
pub fn grid_numbers(g: &Grid) -> [i128; 8] {
    [g.lon, g.lat, g.dlon, g.dlat, g.ni, g.nj, g.rank, g.start].map(i128::from)
}
