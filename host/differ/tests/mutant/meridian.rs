//! Faults about the 180° meridian: other rules of which points a grid holds, and of the limits that go with them.

use super::last_otherwise;
use interface::{Answer, Area, Entry, Fix, Grid, Group, InForce, Position, Timed, Uncovered};
use reference::Reference;

const TURN: i64 = 1_296_000_000;

/// The last longitude of points and areas; the first is less than 0.
const LAST: i64 = 648_000_000;

/// The longitudes of a grid, as written.
fn width(grid: &Grid) -> (i64, i64) {
    let far = grid.lon + (grid.ni - 1) * grid.dlon;
    (grid.lon.min(far), grid.lon.max(far))
}

/// The latitudes of a grid.
fn height(grid: &Grid) -> (i64, i64) {
    let far = grid.lat + (grid.nj - 1) * grid.dlat;
    (grid.lat.min(far), grid.lat.max(far))
}

fn within((from, to): (i64, i64), x: i64) -> bool {
    from <= x && x <= to
}

/// A rule of holding.
pub trait Rule {
    /// Where a grid has a point of this longitude, if it does.
    fn used(grid: &Grid, lon: i64) -> Option<i64>;
}

/// The first of these longitudes that lies in a grid's extent.
fn first_within<const N: usize>(grid: &Grid, lons: [i64; N]) -> Option<i64> {
    lons.into_iter().find(|&lon| within(width(grid), lon))
}

/// Where a grid truly has a point.
pub fn longitude_used(grid: &Grid, lon: i64) -> Option<i64> {
    first_within(grid, [lon, lon + TURN, lon - TURN])
}

/// Nothing is turned, as before order 5.
pub struct AsWritten;

impl Rule for AsWritten {
    fn used(grid: &Grid, lon: i64) -> Option<i64> {
        first_within(grid, [lon])
    }
}

/// A turn is added and never taken off.
pub struct OnlyATurnMore;

impl Rule for OnlyATurnMore {
    fn used(grid: &Grid, lon: i64) -> Option<i64> {
        first_within(grid, [lon, lon + TURN])
    }
}

/// A turn is taken off and never added.
pub struct OnlyATurnLess;

impl Rule for OnlyATurnLess {
    fn used(grid: &Grid, lon: i64) -> Option<i64> {
        first_within(grid, [lon, lon - TURN])
    }
}

/// The turned longitudes are tried before the point's own. Of these two no grid has both, so that their order doesn't show.
pub struct TurnedFirst;

impl Rule for TurnedFirst {
    fn used(grid: &Grid, lon: i64) -> Option<i64> {
        first_within(grid, [lon - TURN, lon + TURN, lon])
    }
}

/// The cell is the one nearest to the point as given.
pub struct CellAsGiven;

impl Rule for CellAsGiven {
    fn used(grid: &Grid, lon: i64) -> Option<i64> {
        let (west, east) = width(grid);
        longitude_used(grid, lon).map(|_| lon.clamp(west, east))
    }
}

/// What is cut at the meridian ends a step before it.
pub struct EndsShort;

impl Rule for EndsShort {
    fn used(grid: &Grid, lon: i64) -> Option<i64> {
        longitude_used(grid, lon).filter(|_| lon != LAST)
    }
}

/// What is turned begins a step behind the meridian.
pub struct BeginsLate;

impl Rule for BeginsLate {
    fn used(grid: &Grid, lon: i64) -> Option<i64> {
        longitude_used(grid, lon).filter(|&used| lon != -LAST || used == lon)
    }
}

/// The grid chosen by a rule, from 0, and where it has the point.
fn chosen<R: Rule>(group: &Group, lon: i64, lat: i64) -> Option<(usize, i64)> {
    let grids = group.grid[..group.grids as usize].iter().enumerate();
    let holding = grids.filter(|(_, grid)| within(height(grid), lat));
    let all = holding.filter_map(|(k, grid)| Some((k, R::used(grid, lon)?)));
    all.min_by_key(|&(k, _)| group.grid[k].rank)
}

/// A lookup by another rule. The chosen grid is moved, and the point with it, so that it has the point where it stands.
pub fn lookup_by<R: Rule>(group: &Group, nodes: &[i32], at: Position, fix: &mut Fix, place: &mut u64) -> u64 {
    let number = Reference.lookup(group, nodes, at, fix, place);
    if ![0, 7, 8].contains(&number) {
        return number;
    }
    *fix = Fix::default();
    let Some((k, used)) = chosen::<R>(group, at.lon, at.lat) else { return 7 };
    let grid = &group.grid[k];
    let (west, east) = width(grid);
    let middle = (west + east) / 2;
    let mut alone = Group { grids: 1, ..group.clone() };
    alone.grid.fill(Grid::default());
    alone.grid[0] = Grid { lon: grid.lon - middle, ..*grid };
    let number = Reference.lookup(&alone, nodes, Position { lon: used - middle, ..at }, fix, place);
    fix.grid *= k as i64 + 1;
    number
}

/// What an area shows by another rule: the first coordinate at which each grid is chosen, and the first at which none is.
fn seen_by<R: Rule>(group: &Group, area: Area) -> (Vec<Entry>, Option<(i64, i64)>) {
    let grids = &group.grid[..group.grids as usize];
    let ends = grids.iter().map(width).flat_map(|(west, east)| [west, east + 1]);
    let turned = ends.flat_map(|lon| [lon, lon - TURN, lon + TURN]);
    let lons = cuts(area.west, area.east, turned.chain([1 - LAST, LAST]));
    let lats = cuts(area.south, area.north, grids.iter().map(height).flat_map(|(south, north)| [south, north + 1]));
    let (mut first, mut hole) = (vec![None; grids.len()], None);
    for &lat in &lats {
        for &lon in &lons {
            match chosen::<R>(group, lon, lat) {
                Some((k, _)) => drop(first[k].get_or_insert(Entry { grid: k as i64 + 1, lon, lat })),
                None => drop(hole.get_or_insert((lon, lat))),
            }
        }
    }
    let mut entries: Vec<Entry> = first.into_iter().flatten().collect();
    entries.sort_by_key(|entry| (grids[entry.grid as usize - 1].rank, entry.grid));
    (entries, hole)
}

/// The first number, and of the others those that lie behind it up to the last one; rising.
fn cuts(first: i64, last: i64, others: impl Iterator<Item = i64>) -> Vec<i64> {
    let mut all: Vec<i64> = others.filter(|&x| first < x && x <= last).chain([first]).collect();
    all.sort_unstable();
    all.dedup();
    all
}

pub fn in_force_by<R: Rule>(group: &Group, area: Area, list: &mut InForce, place: &mut u64) -> u64 {
    let number = Reference.grids_in_force(group, area, list, place);
    if number == 0 {
        *list = InForce::new(&seen_by::<R>(group, area).0);
    }
    number
}

pub fn hole_by<R: Rule>(group: &Group, area: Area, uncovered: &mut Uncovered, place: &mut u64) -> u64 {
    let number = Reference.hole(group, area, uncovered, place);
    if number == 0 {
        *uncovered = Uncovered::new(seen_by::<R>(group, area).1);
    }
    number
}

/// The last of the points is not turned.
pub fn last_of_many_is_not_turned(
    group: &Group,
    nodes: &[i32],
    points: &[Position],
    results: &mut [Answer],
    place: &mut u64,
) -> u64 {
    last_otherwise(group, nodes, points, results, place, lookup_by::<AsWritten>)
}

/// A longitude beyond the limit of points that grids reach, turned to one within it.
pub fn turned_back(lon: i64) -> Option<i64> {
    (within((-TURN, TURN), lon) && !within((-LAST, LAST), lon)).then(|| lon - lon.signum() * TURN)
}

pub fn points_go_a_whole_turn(group: &Group, nodes: &[i32], at: Position, fix: &mut Fix, place: &mut u64) -> u64 {
    let lon = turned_back(at.lon).unwrap_or(at.lon);
    Reference.lookup(group, nodes, Position { lon, ..at }, fix, place)
}

/// The two longitudes at the meridian are taken for one.
pub fn first_longitude_is_the_last(group: &Group, nodes: &[i32], at: Position, fix: &mut Fix, place: &mut u64) -> u64 {
    let lon = if at.lon == -LAST { LAST } else { at.lon };
    Reference.lookup(group, nodes, Position { lon, ..at }, fix, place)
}

pub fn entry_at_the_first_longitude_is_at_the_last(
    group: &Group,
    area: Area,
    list: &mut InForce,
    place: &mut u64,
) -> u64 {
    let number = Reference.grids_in_force(group, area, list, place);
    list.entry.iter_mut().filter(|entry| entry.lon == -LAST).for_each(|entry| entry.lon = LAST);
    number
}

pub fn entries_are_turned(group: &Group, area: Area, list: &mut InForce, place: &mut u64) -> u64 {
    let number = Reference.grids_in_force(group, area, list, place);
    for entry in &mut list.entry[..list.count as usize] {
        let used = longitude_used(&group.grid[entry.grid as usize - 1], entry.lon);
        entry.lon = used.expect("it is chosen there");
    }
    number
}

/// The hole is given from 0 to the east.
pub fn hole_is_turned(group: &Group, area: Area, uncovered: &mut Uncovered, place: &mut u64) -> u64 {
    let number = Reference.hole(group, area, uncovered, place);
    if uncovered.lon < 0 {
        uncovered.lon += TURN;
    }
    number
}

/// The area, cut off at the limits of points where a side goes beyond them and no further than grids do.
fn cut_off(area: Area) -> Area {
    let side = |lon: i64| if within((-TURN, TURN), lon) { lon.clamp(-LAST, LAST) } else { lon };
    Area { west: side(area.west), east: side(area.east), ..area }
}

pub fn areas_of_a_list_go_a_whole_turn(group: &Group, area: Area, list: &mut InForce, place: &mut u64) -> u64 {
    Reference.grids_in_force(group, cut_off(area), list, place)
}

pub fn areas_of_a_hole_go_a_whole_turn(group: &Group, area: Area, uncovered: &mut Uncovered, place: &mut u64) -> u64 {
    Reference.hole(group, cut_off(area), uncovered, place)
}

/// A judge who takes grids of some widths for others, of the spacing and count that `wrong` has for the width.
fn by_width(group: &Group, place: &mut u64, wrong: fn(i64) -> Option<(i64, i64)>) -> u64 {
    let mut other = group.clone();
    for grid in &mut other.grid[..group.grids.clamp(0, 64) as usize] {
        let limits = within((2, 16_384), grid.ni)
            && within((-36_000_000, 36_000_000), grid.dlon)
            && within((-TURN, TURN), grid.lon);
        let (west, east) = if limits { width(grid) } else { continue };
        if let Some((dlon, ni)) = wrong(east - west).filter(|_| -TURN <= west && east <= TURN) {
            (grid.lon, grid.dlon, grid.ni) = (west.min(TURN - (ni - 1) * dlon), dlon, ni);
        }
    }
    Reference.judge(&other, place)
}

const A_TURN: (i64, i64) = (1_000_000, 1_297);
const ONE_MORE: (i64, i64) = (952_241, 1_362);

pub fn a_whole_turn_is_too_wide(group: &Group, place: &mut u64) -> u64 {
    by_width(group, place, |width| (width == TURN).then_some(ONE_MORE))
}

pub fn one_more_than_a_turn_is_accepted(group: &Group, place: &mut u64) -> u64 {
    by_width(group, place, |width| (width == TURN + 1).then_some(A_TURN))
}

pub fn any_width_is_accepted(group: &Group, place: &mut u64) -> u64 {
    by_width(group, place, |width| (width > TURN).then_some(A_TURN))
}

fn meet(a: (i64, i64), b: (i64, i64)) -> bool {
    a.0.max(b.0) <= a.1.min(b.1)
}

/// A judge of clashes by another test of whether two grids share a longitude.
fn by_clash(group: &Group, place: &mut u64, share: fn((i64, i64), (i64, i64)) -> bool) -> u64 {
    let number = Reference.judge(group, place);
    if number != 0 && number != 5 {
        return number;
    }
    let grids = &group.grid[..group.grids as usize];
    let clash = |a: &Grid, b: &Grid| a.rank == b.rank && meet(height(a), height(b)) && share(width(a), width(b));
    let later = (1..grids.len()).find(|&k| grids[..k].iter().any(|earlier| clash(earlier, &grids[k])));
    *place = later.map_or(0, |k| k as u64 + 1);
    if *place == 0 { 0 } else { 5 }
}

pub fn clash_as_written(group: &Group, place: &mut u64) -> u64 {
    by_clash(group, place, meet)
}

pub fn clash_one_turn_apart_at_most(group: &Group, place: &mut u64) -> u64 {
    by_clash(group, place, |a, b| (-1..=1).any(|turns| meet(a, (b.0 + turns * TURN, b.1 + turns * TURN))))
}

/// What is cut at the meridian ends a step before it, on either side.
pub fn clash_beside_the_meridian_only(group: &Group, place: &mut u64) -> u64 {
    by_clash(group, place, |a, b| {
        let cut = |(west, east): (i64, i64)| {
            [0, TURN, -TURN].map(|turn| ((west - turn).max(1 - LAST), (east - turn).min(LAST - 1)))
        };
        let there = |piece: &(i64, i64)| piece.0 <= piece.1;
        cut(a).into_iter().filter(there).any(|one| cut(b).into_iter().filter(there).any(|other| meet(one, other)))
    })
}
