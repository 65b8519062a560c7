//! Lookup of a point on a day: choice of the grid, cell, bilinear value, day factor, results.

use crate::geometry::{chosen, extent, grids, range_end};
use crate::judge::judge;
use crate::limits;
use crate::refusal::refuse;
use crate::rounding::nearest_even;
use interface::{Answer, Fix, Function, Grid, Group, MARK, Position, Refusal};

/// Where a point stands on one axis: the cell's index, the spacing's size, the distance from the cell's lower node.
struct Along {
    index: i128,
    size: i128,
    distance: i128,
}

fn along(from: i64, spacing: i64, count: i64, at: i128) -> Along {
    let size = i128::from(spacing).abs();
    let away = (at - i128::from(from)).abs();
    let index = (away / size).min(i128::from(count) - 2);
    Along { index, size, distance: away - index * size }
}

/// The four corners of a cell as node indices and weights, those of weight 0 left out.
fn used_corners(x: &Along, y: &Along) -> Vec<(i128, i128, i128)> {
    let mut corners = Vec::new();
    for (dj, wy) in [(0, y.size - y.distance), (1, y.distance)] {
        for (di, wx) in [(0, x.size - x.distance), (1, x.distance)] {
            if wx * wy != 0 {
                corners.push((x.index + di, y.index + dj, wx * wy));
            }
        }
    }
    corners
}

/// Place in the node list of parameter `p` of node (i, j).
fn node_place(g: &Grid, parameters: i64, i: i128, j: i128, p: i64) -> usize {
    (i128::from(g.start) + (j * i128::from(g.ni) + i) * i128::from(parameters) + i128::from(p)) as usize
}

/// A ramp's factor on a day, in millionths.
fn ramp_factor([a, s0, b, s1]: [i128; 4], t: i128) -> i128 {
    if t >= b {
        s1
    } else if t <= a {
        s0
    } else {
        nearest_even(s0 * (b - t) + s1 * (t - a), b - a)
    }
}

/// MULT times what a plain function gains from REF to the day, where the function is a whole number over a divisor.
fn gained(mult: i128, plain: impl Fn(i128) -> i128, divisor: i128, reference: i128, t: i128) -> i128 {
    nearest_even(mult * (plain(t) - plain(reference)), divisor)
}

/// A function's factor on a day, in millionths.
fn factor(f: &Function, day: i64) -> i128 {
    let t = i128::from(day);
    match (f.kind, f.numbers.map(i128::from)) {
        (Function::RAMP, numbers) => ramp_factor(numbers, t),
        (Function::STEP, [event, reference, mult, _]) => gained(mult, |t| i128::from(t >= event), 1, reference, t),
        (Function::RAMP2, [start, end, reference, mult]) => {
            let days = end - start;
            gained(mult, |t| (t - start).clamp(0, days), days, reference, t)
        }
        _ => panic!("a judged function has a kind"),
    }
}

/// The sum of the functions' factors on a day, in millionths; 1,000,000 without functions.
pub fn day_factor(functions: &[Function], day: i64) -> i128 {
    if functions.is_empty() { 1_000_000 } else { functions.iter().map(|f| factor(f, day)).sum() }
}

/// Refusal 13: the lowest grid of an accepted group whose nodes end behind the list.
pub fn whole_ranges(record: &Group, nodes: &[i32]) -> Result<(), Refusal> {
    match grids(record).iter().position(|g| range_end(g, record.parameters) > nodes.len() as i128) {
        Some(k) => refuse(13, k + 1),
        None => Ok(()),
    }
}

/// Looks a position up: refusals 2 to 5, then 6, 9, 13, 7, 8.
pub fn lookup(record: &Group, nodes: &[i32], at: Position) -> Result<Fix, Refusal> {
    judge(record)?;
    let (lon, lat) = (i128::from(at.lon), i128::from(at.lat));
    if !limits::longitude(lon) || !limits::latitude(lat) {
        return refuse(6, 0);
    }
    if !limits::day(i128::from(at.day)) {
        return refuse(9, 0);
    }
    whole_ranges(record, nodes)?;
    let grids = grids(record);
    let Some(choice) = chosen(grids, lon, lat) else {
        return refuse(7, 0);
    };
    let g = &grids[choice];
    let used = extent(g).longitude_used(lon).expect("the chosen grid holds the point");
    let x = along(g.lon, g.dlon, g.ni, used);
    let y = along(g.lat, g.dlat, g.nj, lat);
    let corners = used_corners(&x, &y);
    let node = |i: i128, j: i128, p: i64| nodes[node_place(g, record.parameters, i, j, p)];
    if corners.iter().any(|&(i, j, _)| (0..record.parameters).any(|p| node(i, j, p) == MARK)) {
        return refuse(8, 0);
    }
    let factor = day_factor(&record.function[..record.functions as usize], at.day);
    let mut fix = Fix { grid: choice as i64 + 1, result: [0; 3] };
    for p in 0..record.parameters {
        let sum: i128 = corners.iter().map(|&(i, j, w)| w * i128::from(node(i, j, p))).sum();
        let value = nearest_even(sum, x.size * y.size);
        fix.result[p as usize] = nearest_even(value * factor, 1_000_000) as i64;
    }
    Ok(fix)
}

/// Looks many positions up, each as by itself: refusals 2 to 5, 12, 13 of the call, which leave the results as they were; then
/// each position's own.
pub fn lookup_many(record: &Group, nodes: &[i32], points: &[Position], results: &mut [Answer]) -> Result<(), Refusal> {
    judge(record)?;
    if results.len() != points.len() {
        return refuse(12, 0);
    }
    whole_ranges(record, nodes)?;
    for (result, &at) in results.iter_mut().zip(points) {
        *result = lookup(record, nodes, at).into();
    }
    Ok(())
}
