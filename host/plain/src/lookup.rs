//! The lookup of a point on a day, and lookups in a group that is judged once.

use crate::group::{LONGITUDE, end, holds, longitude_used, pieces};
use crate::judge::{LATITUDE, judge, refusal, within};
use crate::round::{nearest, nearest_wide};
use interface::{Answer, Area, Fix, Function, Group, MARK, MOST_GRIDS, Position, Refusal};

/// With weights that add to at most this, every weighted sum of node values fits 64 bits. Fine grids are known by this one
/// number, without a look at the corners; on others the sum has 128 bits, whatever the corners hold.
const ONE_WORD: i64 = 1 << 32;

/// Cell index and distance from its lower node along an axis.
fn cell(from: i64, spacing: i64, count: i64, at: i64) -> (i64, i64) {
    let (away, size) = ((at - from).abs(), spacing.abs());
    let index = (away / size).min(count - 2);
    (index, away - index * size)
}

/// The factor of a judged function on a day.
fn factor_of(function: &Function, day: i64) -> i64 {
    match (function.kind, function.numbers) {
        (Function::RAMP, [a, s0, b, s1]) => {
            if day >= b {
                s1
            } else if day <= a {
                s0
            } else {
                nearest(s0 * (b - day) + s1 * (day - a), b - a)
            }
        }
        (Function::STEP, [event, reference, mult, _]) => {
            mult * (i64::from(day >= event) - i64::from(reference >= event))
        }
        (_, [start, end, reference, mult]) => {
            let gained = day.clamp(start, end) - reference.clamp(start, end);
            nearest(mult * gained, end - start)
        }
    }
}

/// The sum of the functions' factors on a day.
fn factor(group: &Group, day: i64) -> i64 {
    let functions = &group.function[..group.functions as usize];
    if functions.is_empty() { 1_000_000 } else { functions.iter().map(|function| factor_of(function, day)).sum() }
}

/// Refusals 6 and 9.
fn admitted(&Position { lon, lat, day }: &Position) -> Result<(), Refusal> {
    if !within(lon, LONGITUDE) || !within(lat, LATITUDE) {
        Err(refusal(6, 0))
    } else if !within(day, 1_000_000) {
        Err(refusal(9, 0))
    } else {
        Ok(())
    }
}

/// Refusal 13.
fn long_enough(group: &Group, nodes: &[i32]) -> Result<(), Refusal> {
    let grids = &group.grid[..group.grids as usize];
    match grids.iter().position(|grid| end(grid, group.parameters) > nodes.len() as i64) {
        Some(k) => Err(refusal(13, k + 1)),
        None => Ok(()),
    }
}

/// The number of grid k and three results, of a point that it has at this longitude, with the day's factor.
fn fix(group: &Group, k: usize, nodes: &[i32], lon: i64, lat: i64, factor: i64) -> Result<Fix, Refusal> {
    let parameters = group.parameters;
    let grid = &group.grid[k];
    let (i, fx) = cell(grid.lon, grid.dlon, grid.ni, lon);
    let (j, fy) = cell(grid.lat, grid.dlat, grid.nj, lat);
    let (sx, sy) = (grid.dlon.abs(), grid.dlat.abs());
    let first = (grid.start + (j * grid.ni + i) * parameters) as usize;
    let (np, row) = (parameters as usize, (grid.ni * parameters) as usize);
    let corners = [
        (first, (sx - fx) * (sy - fy)),
        (first + np, fx * (sy - fy)),
        (first + row, (sx - fx) * fy),
        (first + row + np, fx * fy),
    ];
    let mut used = corners.iter().filter(|&&(_, weight)| weight != 0).flat_map(|&(at, _)| &nodes[at..at + np]);
    if used.any(|&v| v == MARK) {
        return Err(refusal(8, 0));
    }
    let total = sx * sy;
    let mut fix = Fix { grid: k as i64 + 1, result: [0; 3] };
    for p in 0..np {
        let terms = corners.iter().map(|&(at, weight)| (weight, nodes[at + p]));
        let value = if total <= ONE_WORD {
            nearest(terms.map(|(weight, node)| weight * i64::from(node)).sum(), total)
        } else {
            nearest_wide(terms.map(|(weight, node)| i128::from(weight) * i128::from(node)).sum(), total)
        };
        fix.result[p] = nearest(value * factor, 1_000_000);
    }
    Ok(fix)
}

/// Looks a position up.
pub fn lookup(group: &Group, nodes: &[i32], at: Position) -> Result<Fix, Refusal> {
    let extents = judge(group)?;
    admitted(&at)?;
    long_enough(group, nodes)?;
    let (mut chosen, mut best) = (None, i64::MAX);
    for (k, grid) in group.grid[..group.grids as usize].iter().enumerate() {
        let used = longitude_used(&extents[k], at.lon);
        if grid.rank < best && holds(&extents[k], used, at.lat) {
            (chosen, best) = (Some((k, used)), grid.rank);
        }
    }
    let (k, used) = chosen.ok_or(refusal(7, 0))?;
    fix(group, k, nodes, used, at.lat, factor(group, at.day))
}

/// A piece of a grid: the grid from 0, its rank, and the turn from the piece to the grid.
struct Piece {
    area: Area,
    grid: usize,
    rank: i64,
    turn: i64,
}

/// Lookups in a judged group with nodes for all of its grids: its grids are cut once, and the factor is worked out anew only
/// where the day changes.
pub struct Lookups<'a> {
    group: &'a Group,
    pieces: Vec<Piece>,
    nodes: &'a [i32],
    day: i64,
    times: i64,
}

impl<'a> Lookups<'a> {
    /// Refusal 13.
    pub fn new(group: &'a Group, extents: &[Area; MOST_GRIDS], nodes: &'a [i32]) -> Result<Lookups<'a>, Refusal> {
        long_enough(group, nodes)?;
        let mut all = Vec::with_capacity(MOST_GRIDS);
        for (k, grid) in group.grid[..group.grids as usize].iter().enumerate() {
            all.extend(pieces(&extents[k]).map(|(area, turn)| Piece { area, grid: k, rank: grid.rank, turn }));
        }
        Ok(Lookups { group, pieces: all, nodes, day: 0, times: factor(group, 0) })
    }

    #[inline]
    pub fn fix(&mut self, at: &Position) -> Result<Fix, Refusal> {
        admitted(at)?;
        if at.day != self.day {
            (self.day, self.times) = (at.day, factor(self.group, at.day));
        }
        let (mut chosen, mut best) = (None, i64::MAX);
        for piece in &self.pieces {
            if piece.rank < best && holds(&piece.area, at.lon, at.lat) {
                (chosen, best) = (Some(piece), piece.rank);
            }
        }
        let piece = chosen.ok_or(refusal(7, 0))?;
        fix(self.group, piece.grid, self.nodes, at.lon + piece.turn, at.lat, self.times)
    }
}

/// Looks many positions up.
pub fn lookup_many(group: &Group, nodes: &[i32], points: &[Position], results: &mut [Answer]) -> Result<(), Refusal> {
    let extents = judge(group)?;
    if results.len() != points.len() {
        return Err(refusal(12, 0));
    }
    let mut lookups = Lookups::new(group, &extents, nodes)?;
    for (result, at) in results.iter_mut().zip(points) {
        *result = lookups.fix(at).into();
    }
    Ok(())
}
