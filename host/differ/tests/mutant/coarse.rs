//! Faults about coarse grids and great values (order 6): sums that pass one word, their rounding, and the limits of before.

use super::last_otherwise;
use super::meridian::longitude_used;
use interface::{Answer, Calls, Fault, Fix, Found, Function, Grid, Group, MARK, MOST_PARAMETERS, Position, Timed};
use reference::{Reference, day_factor};

/// The size of the greatest node value before order 6, and that of the greatest spacing then and now.
const OLD_VALUE: i32 = 4_000_000;
const OLD_SPACING: i64 = 1_000_000;
const SPACING: i64 = 36_000_000;

/// n / d to the nearest, a tie to the even one.
pub fn nearest(n: i128, d: i128) -> i128 {
    let (q, r) = (n.div_euclid(d), n.rem_euclid(d));
    q + i128::from(2 * r > d || 2 * r == d && q % 2 != 0)
}

/// What is rounded to a value: the weights of the corners with their nodes, in the order of document 01, and the weights' sum.
pub struct Cell {
    terms: [(i128, i32); 4],
    total: i128,
}

impl Cell {
    fn sum(&self) -> i128 {
        self.terms.iter().map(|&(weight, node)| weight * i128::from(node)).sum()
    }

    /// The greatest size of a node that is used.
    fn size(&self) -> u32 {
        self.terms.iter().filter(|&&(weight, _)| weight != 0).map(|(_, node)| node.unsigned_abs()).max().unwrap_or(0)
    }
}

/// A way to work a lookup out: as it should be, but for what is said otherwise.
pub trait Way {
    fn refused(_: &Cell) -> Option<u64> {
        None
    }

    fn value(cell: &Cell) -> i128 {
        nearest(cell.sum(), cell.total)
    }

    fn factor(functions: &[Function], day: i64) -> i128 {
        day_factor(functions, day)
    }

    fn result(value: i128, factor: i128) -> i64 {
        nearest(value * factor, 1_000_000) as i64
    }
}

/// No fault: what the others change.
pub struct AsItShouldBe;

impl Way for AsItShouldBe {}

/// The high word of the sum is dropped.
pub struct OneWord;

impl Way for OneWord {
    fn value(cell: &Cell) -> i128 {
        nearest(i128::from(cell.sum() as i64), cell.total)
    }
}

/// One word is thought enough wherever it was with the greatest spacing of before, whatever the nodes are.
pub struct OneWordByTheSpacing;

impl Way for OneWordByTheSpacing {
    fn value(cell: &Cell) -> i128 {
        let small = cell.total <= i128::from(OLD_SPACING * OLD_SPACING);
        if small { OneWord::value(cell) } else { nearest(cell.sum(), cell.total) }
    }
}

/// One word is thought enough wherever it was with the greatest value of before, whatever the spacing is.
pub struct OneWordByTheNodes;

impl Way for OneWordByTheNodes {
    fn value(cell: &Cell) -> i128 {
        let small = cell.size() <= OLD_VALUE as u32;
        if small { OneWord::value(cell) } else { nearest(cell.sum(), cell.total) }
    }
}

/// What the nodes are raised by so that none is below 0; it is even, so that ties stay.
const RAISED: i128 = 1 << 31;

/// The products of the raised nodes are added word by word, and what the low words carry is lost.
pub struct NoCarry;

impl Way for NoCarry {
    fn value(cell: &Cell) -> i128 {
        let products = cell.terms.iter().map(|&(weight, node)| (weight * (i128::from(node) + RAISED)) as u128);
        let (high, low) =
            products.fold((0, 0), |(high, low): (u128, u64), p| (high + (p >> 64), low.wrapping_add(p as u64)));
        nearest((high << 64) as i128 + i128::from(low), cell.total) - RAISED
    }
}

/// Whether to round up is decided by the low word's remainder alone.
pub struct RemainderOfTheLowWord;

impl Way for RemainderOfTheLowWord {
    fn value(cell: &Cell) -> i128 {
        let raised = cell.sum() + RAISED * cell.total;
        let (q, r) = (raised / cell.total, i128::from(raised as u64) % cell.total);
        q + i128::from(2 * r > cell.total || 2 * r == cell.total && q % 2 != 0) - RAISED
    }
}

/// A tie goes to the side that the lowest bit of the sum names, not to the even quotient.
pub struct TieByTheSum;

impl Way for TieByTheSum {
    fn value(cell: &Cell) -> i128 {
        let (sum, d) = (cell.sum(), cell.total);
        let (q, r) = (sum.div_euclid(d), sum.rem_euclid(d));
        q + i128::from(2 * r > d || 2 * r == d && sum % 2 != 0)
    }
}

/// Nodes are raised by an odd number, so that a tie goes to the odd value.
pub struct RaisedByAnOddNumber;

impl Way for RaisedByAnOddNumber {
    fn value(cell: &Cell) -> i128 {
        nearest(cell.sum() + (RAISED - 1) * cell.total, cell.total) - (RAISED - 1)
    }
}

/// The differences of the corners from the first that is used, or the even number beside it, are cut to a node's bits.
pub struct DifferencesOf32Bits;

impl Way for DifferencesOf32Bits {
    fn value(cell: &Cell) -> i128 {
        let used = cell.terms.iter().find(|&&(weight, _)| weight != 0);
        let first = used.map_or(0, |&(_, node)| node - node % 2);
        let away = cell.terms.iter().map(|&(weight, node)| weight * i128::from(node.wrapping_sub(first)));
        i128::from(first) + nearest(away.sum(), cell.total)
    }
}

/// The sum is one of floats, which has 53 bits.
pub struct SumInFloats;

impl Way for SumInFloats {
    fn value(cell: &Cell) -> i128 {
        let sum: f64 = cell.terms.iter().map(|&(weight, node)| weight as f64 * f64::from(node)).sum();
        (sum / cell.total as f64).round_ties_even() as i128
    }
}

/// The value goes through a float of 32 bits on its way to the day factor.
pub struct ValueInASmallFloat;

impl Way for ValueInASmallFloat {
    fn result(value: i128, factor: i128) -> i64 {
        nearest((value as f32 as i128) * factor, 1_000_000) as i64
    }
}

/// Results have as many bits as nodes.
pub struct ResultOf32Bits;

impl Way for ResultOf32Bits {
    fn result(value: i128, factor: i128) -> i64 {
        i64::from(nearest(value * factor, 1_000_000) as i32)
    }
}

/// 11 as before order 6.
pub struct OldLimitOfNodes;

impl Way for OldLimitOfNodes {
    fn refused(cell: &Cell) -> Option<u64> {
        (cell.size() > OLD_VALUE as u32).then_some(11)
    }
}

/// The least value is taken for the mark beside it.
pub struct LeastValueIsTheMark;

impl Way for LeastValueIsTheMark {
    fn refused(cell: &Cell) -> Option<u64> {
        cell.terms.iter().any(|&(weight, node)| weight != 0 && node == MARK + 1).then_some(8)
    }
}

/// The cell's index along an axis, the spacing's size and the distance from the cell's node of lower index.
fn along(from: i64, spacing: i64, count: i64, at: i64) -> (i64, i128, i128) {
    let (away, size) = ((at - from).abs(), spacing.abs());
    let index = (away / size).min(count - 2);
    (index, size.into(), (away - index * size).into())
}

/// What an accepted lookup in a grid rounds for each parameter.
fn cells(grid: &Grid, parameters: i64, nodes: &[i32], at: Position) -> impl Iterator<Item = Cell> {
    let lon = longitude_used(grid, at.lon).expect("the grid holds the point");
    let (i, sx, fx) = along(grid.lon, grid.dlon, grid.ni, lon);
    let (j, sy, fy) = along(grid.lat, grid.dlat, grid.nj, at.lat);
    let node = move |i, j, p| nodes[(grid.start + (j * grid.ni + i) * parameters + p) as usize];
    (0..parameters).map(move |p| Cell {
        terms: [
            ((sx - fx) * (sy - fy), node(i, j, p)),
            (fx * (sy - fy), node(i + 1, j, p)),
            ((sx - fx) * fy, node(i, j + 1, p)),
            (fx * fy, node(i + 1, j + 1, p)),
        ],
        total: sx * sy,
    })
}

/// An accepted lookup worked out in another way: its number.
fn worked_out<W: Way>(group: &Group, nodes: &[i32], at: Position, fix: &mut Fix) -> u64 {
    let factor = W::factor(&group.function[..group.functions as usize], at.day);
    let grid = &group.grid[fix.grid as usize - 1];
    let cells: Vec<Cell> = cells(grid, group.parameters, nodes, at).collect();
    if let Some(number) = cells.iter().find_map(W::refused) {
        *fix = Fix::default();
        return number;
    }
    for (result, cell) in fix.result.iter_mut().zip(&cells) {
        *result = W::result(W::value(cell), factor);
    }
    0
}

pub fn lookup_in<W: Way>(group: &Group, nodes: &[i32], at: Position, fix: &mut Fix, place: &mut u64) -> u64 {
    match Reference.lookup(group, nodes, at, fix, place) {
        0 => worked_out::<W>(group, nodes, at, fix),
        number => number,
    }
}

/// Only the last of the points is worked out in another way.
pub fn last_of_many_in<W: Way>(
    group: &Group,
    nodes: &[i32],
    points: &[Position],
    results: &mut [Answer],
    place: &mut u64,
) -> u64 {
    last_otherwise(group, nodes, points, results, place, lookup_in::<W>)
}

/// The line is refused where a lookup in another way is.
pub fn line_refused_in<W: Way>(
    group: &Group,
    nodes: &[i32],
    at: Position,
    out: &mut [u8],
    count: &mut u64,
    place: &mut u64,
) -> u64 {
    match lookup_in::<W>(group, nodes, at, &mut Fix::default(), place) {
        0 => Reference.write_log_line(group, nodes, at, out, count, place),
        number => {
            *count = 0;
            number
        }
    }
}

/// Values of a log are compared as far as 32 bits go.
pub fn values_of_32_bits_are_equal(
    group: &Group,
    nodes: &[i32],
    log: &[u8],
    fault: &mut Fault,
    place: &mut u64,
) -> u64 {
    let number = Reference.judge_log(group, nodes, log, fault, place);
    if fault.kind != Fault::SHIFT {
        return number;
    }
    let line = log.split(|&c| c == b'\n').nth(fault.line as usize - 1).expect("it is a line");
    let fields: Vec<i128> =
        line.split(|&c| c == b'\t').filter_map(|field| str::from_utf8(field).ok()?.parse().ok()).collect();
    let ([lon, lat, day], values) = fields.split_first_chunk().expect("it is of the form");
    let mut fix = Fix::default();
    Reference.lookup(group, nodes, Position { lon: *lon as i64, lat: *lat as i64, day: *day as i64 }, &mut fix, place);
    if values
        .iter()
        .rev()
        .zip(fix.result[..group.parameters as usize].iter().rev())
        .all(|(&v, &r)| v as i32 == r as i32)
    {
        *fault = Fault::default();
    }
    number
}

/// A judge who takes some spacings for others.
fn by_spacing(group: &Group, place: &mut u64, other: fn(i64) -> i64) -> u64 {
    let mut record = group.clone();
    for grid in &mut record.grid {
        (grid.dlon, grid.dlat) = (other(grid.dlon), other(grid.dlat));
    }
    Reference.judge(&record, place)
}

/// A spacing within the limit that was beyond it before order 6.
fn since_order_6(spacing: i64) -> bool {
    (OLD_SPACING + 1..=SPACING).contains(&spacing.saturating_abs())
}

pub fn spacings_end_at_a_million(group: &Group, place: &mut u64) -> u64 {
    by_spacing(group, place, |spacing| if since_order_6(spacing) { SPACING + 1 } else { spacing })
}

pub fn spacings_go_one_further(group: &Group, place: &mut u64) -> u64 {
    by_spacing(group, place, |spacing| if spacing.saturating_abs() == SPACING + 1 { SPACING } else { spacing })
}

pub fn spacings_of_a_header_end_at_a_million(text: &[u8], group: &mut Group, place: &mut u64) -> u64 {
    let before = group.clone();
    let number = Reference.read_header(text, group, place);
    let grids = &group.grid[..if number == 0 { group.grids as usize } else { 0 }];
    match grids.iter().position(|grid| since_order_6(grid.dlon) || since_order_6(grid.dlat)) {
        Some(k) => {
            *place = 2 + group.functions as u64 + k as u64;
            *group = before;
            2
        }
        None => number,
    }
}

/// What a float is in steps, rounded; of NaN and infinities themselves.
fn steps(float: f32, quantum: i64) -> f64 {
    (f64::from(float) * f64::from(1u32 << quantum.clamp(0, 20))).round_ties_even()
}

/// Loads the floats as they are after a change of those that are neither NaN nor the flag.
fn loaded_after(
    floats: &[f32],
    flag: f32,
    quantum: i64,
    nodes: &mut [i32],
    place: &mut u64,
    change: fn(f32, f64) -> f32,
) -> u64 {
    let other = |&float: &f32| {
        let same = float.is_nan() || float.to_bits() == flag.to_bits();
        if same { float } else { change(float, steps(float, quantum)) }
    };
    Reference.load_nodes(&floats.iter().map(other).collect::<Vec<f32>>(), flag, quantum, nodes, place)
}

/// What rounds to the mark's number loads as it.
pub fn what_rounds_to_the_mark_is_the_mark(
    floats: &[f32],
    flag: f32,
    quantum: i64,
    nodes: &mut [i32],
    place: &mut u64,
) -> u64 {
    loaded_after(
        floats,
        flag,
        quantum,
        nodes,
        place,
        |float, steps| {
            if steps == f64::from(MARK) { f32::NAN } else { float }
        },
    )
}

/// 11 as before order 6.
pub fn floats_load_up_to_4_million(floats: &[f32], flag: f32, quantum: i64, nodes: &mut [i32], place: &mut u64) -> u64 {
    loaded_after(floats, flag, quantum, nodes, place, |float, steps| {
        if steps.abs() > f64::from(OLD_VALUE) { f32::INFINITY.copysign(float) } else { float }
    })
}

/// A float just beyond the limit loads as the greatest value.
pub fn two_to_the_31_loads_as_the_greatest(
    floats: &[f32],
    flag: f32,
    quantum: i64,
    nodes: &mut [i32],
    place: &mut u64,
) -> u64 {
    let least = |float: f32| steps(float, quantum) == -f64::from(MARK) && float.to_bits() != flag.to_bits();
    let below: Vec<f32> = floats.iter().map(|&x| if least(x) { 0.0 } else { x }).collect();
    let number = Reference.load_nodes(&below, flag, quantum, nodes, place);
    if number == 0 {
        nodes.iter_mut().zip(floats).filter(|(_, x)| least(**x)).for_each(|(node, _)| *node = i32::MAX);
    }
    number
}

/// A shift shows as many bits as a node has.
pub fn shifts_of_32_bits(found: &Found, shifts: &mut [f64; MOST_PARAMETERS], place: &mut u64) -> u64 {
    let mut cut = *found;
    cut.fix.result = cut.fix.result.map(|result| i64::from(result as i32));
    Reference.screen_answer(&cut, shifts, place)
}
