//! What a lookup rounds, as the library has it: quotients of whole numbers, each raised so that none is below 0.

use interface::{Grid, Group, Position};
use plain::nearest;

/// What node values, the factors of ramps and results are raised by: the size of the greatest.
const VALUE: i64 = 4_000_000;
const GREAT_VALUE: i64 = 1 << 31;
const FACTOR: i64 = 10_000_000;
const RESULT: i64 = 320_000_000;

/// The factor 1, in millionths.
const ONE: i64 = 1_000_000;

/// A numerator and a divisor.
pub type Quotient = (i64, i64);

/// The same with a numerator of two words.
pub type WideQuotient = (u128, u64);

/// The weighted sum of the nodes around the point, each raised by so much, and the sum of the weights: of the first parameter in a
/// group's first grid, which goes north and east and has the first nodes of the list.
fn weighted(group: &Group, nodes: &[i32], at: &Position, raised: i64) -> (i128, i64) {
    let Grid { lon, lat, dlon, dlat, ni, nj, .. } = group.grid[0];
    let (x, y) = (at.lon - lon, at.lat - lat);
    let (i, j) = ((x / dlon).min(ni - 2), (y / dlat).min(nj - 2));
    let (east, north) = (x - i * dlon, y - j * dlat);
    let node = |i, j| raised + i64::from(nodes[((j * ni + i) * group.parameters) as usize]);
    let along = |j| i128::from((dlon - east) * node(i, j) + east * node(i + 1, j));
    (i128::from(dlat - north) * along(j) + i128::from(north) * along(j + 1), dlon * dlat)
}

/// The value in a fine grid: the weighted sum over the sum of the weights.
pub fn value(group: &Group, nodes: &[i32], at: &Position) -> Quotient {
    let (sum, total) = weighted(group, nodes, at, VALUE);
    (sum as i64, total)
}

/// The value in a coarse grid.
pub fn wide_value(group: &Group, nodes: &[i32], at: &Position) -> WideQuotient {
    let (sum, total) = weighted(group, nodes, at, GREAT_VALUE);
    (sum as u128, total as u64)
}

/// The factor of a group's first function, a ramp, on a day between its ends.
pub fn ramp_factor(group: &Group, _: &[i32], at: &Position) -> Quotient {
    let [a, s0, b, s1] = group.function[0].numbers;
    ((s0 + FACTOR) * (b - at.day) + (s1 + FACTOR) * (at.day - a), b - a)
}

/// The result: the value times the factor of all ramps, which are alike. In a lookup this divisor is a constant.
pub fn result(group: &Group, nodes: &[i32], at: &Position) -> Quotient {
    let rounded = |(numerator, divisor): Quotient| nearest(numerator, divisor);
    let value = rounded(value(group, nodes, at)) - VALUE;
    let factor = group.functions * (rounded(ramp_factor(group, nodes, at)) - FACTOR);
    (value * factor + RESULT * ONE, ONE)
}
