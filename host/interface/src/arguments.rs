//! What calls take beside groups and lists: numbers that belong together, which C passes one by one, but for a list of positions
//! and the position of a log's line.

use crate::Fix;

/// A point in milliarcseconds and a day.
#[repr(C)]
#[derive(Clone, Copy, Debug, Default, PartialEq, Eq)]
pub struct Position {
    pub lon: i64,
    pub lat: i64,
    pub day: i64,
}

/// An area by its sides, in milliarcseconds, sides included.
#[derive(Clone, Copy, Debug, Default, PartialEq, Eq)]
pub struct Area {
    pub west: i64,
    pub east: i64,
    pub south: i64,
    pub north: i64,
}

impl Area {
    /// The whole earth.
    pub const EARTH: Area = Area { west: -648_000_000, east: 648_000_000, south: -324_000_000, north: 324_000_000 };
}

/// What the screen is told of a lookup: Q and NP of its group, and the number, place and fix that it left.
#[derive(Clone, Copy, Debug, PartialEq, Eq)]
pub struct Found {
    pub quantum: i64,
    pub parameters: i64,
    pub number: u64,
    pub at: u64,
    pub fix: Fix,
}
