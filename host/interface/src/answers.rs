//! The answers of the calls, as the structs that the C interface fills.

use crate::{MOST_GRIDS, MOST_PARAMETERS};

/// What a lookup finds: the chosen grid's number, from 1, and its results in steps, 0 for a missing parameter.
#[repr(C)]
#[derive(Clone, Copy, Debug, Default, PartialEq, Eq)]
pub struct Fix {
    pub grid: i64,
    pub result: [i64; MOST_PARAMETERS],
}

/// The answer to one point of many: the number and the place of the point's own refusal, and what its lookup finds, zeros
/// beside a refusal.
#[repr(C)]
#[derive(Clone, Copy, Debug, Default, PartialEq, Eq)]
pub struct Answer {
    pub number: u64,
    pub place: u64,
    pub fix: Fix,
}

/// A grid in force: its number, from 1, and the southmost, then westmost coordinate at which it is chosen.
#[repr(C)]
#[derive(Clone, Copy, Debug, Default, PartialEq, Eq)]
pub struct Entry {
    pub grid: i64,
    pub lon: i64,
    pub lat: i64,
}

/// The grids in force in an area: the first `count` entries; the others are zero.
#[repr(C)]
#[derive(Clone, Debug, PartialEq, Eq)]
pub struct InForce {
    pub count: i64,
    pub entry: [Entry; MOST_GRIDS],
}

impl InForce {
    /// The list of these entries, at most 64.
    pub fn new(entries: &[Entry]) -> InForce {
        let mut entry = [Entry::default(); MOST_GRIDS];
        entry[..entries.len()].copy_from_slice(entries);
        InForce { count: entries.len() as i64, entry }
    }
}

impl Default for InForce {
    fn default() -> InForce {
        InForce::new(&[])
    }
}

/// Whether an area has a coordinate that no grid holds, 1 or 0, and the southmost, then westmost such; zeros where there is none.
#[repr(C)]
#[derive(Clone, Copy, Debug, Default, PartialEq, Eq)]
pub struct Uncovered {
    pub found: i64,
    pub lon: i64,
    pub lat: i64,
}

impl Uncovered {
    /// The answer of this longitude and latitude, or of none.
    pub fn new(first: Option<(i64, i64)>) -> Uncovered {
        first.map_or(Uncovered::default(), |(lon, lat)| Uncovered { found: 1, lon, lat })
    }
}

/// The first bad line of a log, from 1, and the kind of its fault; zeros where the log passes.
#[repr(C)]
#[derive(Clone, Copy, Debug, Default, PartialEq, Eq)]
pub struct Fault {
    pub line: u64,
    pub kind: u64,
}

impl Fault {
    /// The kinds, in the order in which a line is tested.
    pub const FORM: u64 = 1;
    pub const REFUSED: u64 = 2;
    pub const GRID: u64 = 3;
    pub const SHIFT: u64 = 4;
}

/// A field of a line: its first byte, and the byte behind its last.
#[repr(C)]
#[derive(Clone, Copy, Debug, Default, PartialEq, Eq)]
pub struct Part {
    pub from: u64,
    pub to: u64,
}

/// A point's degrees and its shifts in units.
#[repr(C)]
#[derive(Clone, Copy, Debug, Default, PartialEq)]
pub struct Screen {
    pub longitude: f64,
    pub latitude: f64,
    pub shift: [f64; MOST_PARAMETERS],
}
