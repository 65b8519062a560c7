//! A grid as the lines of its header show it: what of it reaches too far, and whether it meets another of its rank.

use crate::extent::{POLE, TURN, extent, raised_to_meet, within};
use crate::shown::bytes;

/// The most values that a node list has.
const NODE_LIST: i64 = 16_777_216;

pub struct Reach {
    /// What messages call it.
    called: String,
    lon: [i64; 2],
    lat: [i64; 2],
    /// How many columns fit into a whole turn.
    columns: i64,
    rank: i64,
    /// How many values a node list has up to its last.
    end: i64,
}

impl Reach {
    /// The grid of a number from 1, of a name and of the numbers of its line, in a group of so many parameters.
    pub fn new(number: i64, name: &[u8], numbers: [i64; 8], parameters: i64) -> Reach {
        let [lon, lat, dlon, dlat, ni, nj, rank, start] = numbers;
        Reach {
            called: format!("grid {number} ({})", bytes(name)),
            lon: extent(lon, dlon, ni),
            lat: extent(lat, dlat, nj),
            columns: TURN / dlon.abs() + 1,
            rank,
            end: start + ni * nj * parameters,
        }
    }

    /// What of it reaches too far.
    pub fn too_far(&self) -> Option<String> {
        let &Reach { lon: [west, east], lat: [south, north], columns, end, .. } = self;
        let seen = if !within(TURN, west) || !within(TURN, east) {
            format!("reaches from longitude {west} to {east}, beyond ±{TURN}; check LON, DLON and NI")
        } else if !within(POLE, south) || !within(POLE, north) {
            format!("reaches from latitude {south} to {north}, beyond ±{POLE}; check LAT, DLAT and NJ")
        } else if east - west > TURN {
            let width = east - west;
            format!("is {width} wide, more than a whole turn, {TURN}; cut it: with this DLON NI is at most {columns}")
        } else if end > NODE_LIST {
            format!("needs {end} values in the node list, which has at most {NODE_LIST}; check START, NI and NJ")
        } else {
            return None;
        };
        Some(format!("{} {seen}", self.called))
    }

    /// Whether it meets an earlier grid of its rank, and how.
    pub fn clash(&self, earlier: &Reach) -> Option<String> {
        let same_latitudes = self.lat[0] <= earlier.lat[1] && earlier.lat[0] <= self.lat[1];
        if self.rank != earlier.rank || !same_latitudes {
            return None;
        }
        let across = match raised_to_meet(self.lon, earlier.lon)? {
            0 => String::new(),
            raised => format!(" across the 180° meridian (its longitudes {raised:+})"),
        };
        let Reach { called, rank, .. } = self;
        Some(format!("{called} meets {}{across}, and both have rank {rank}; give one of them another", earlier.called))
    }
}
