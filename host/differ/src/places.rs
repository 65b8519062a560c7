//! Random positions, areas and node lists for a group.

use crate::functions::day_of;
use crate::groups::{LONGITUDE, SPACING, TURN, turned};
use crate::random::Random;
use interface::{Area, Grid, Group, Position};

/// A counted grid of the record.
fn some_grid(random: &mut Random, record: &Group) -> Grid {
    record.grid[random.below(record.grids.clamp(1, 64) as usize)]
}

/// A coordinate on, between, at the end of or just beside the nodes of an axis.
fn along(random: &mut Random, from: i64, spacing: i64, count: i64) -> i64 {
    let (spacing, count) = (spacing.clamp(-SPACING, SPACING), count.clamp(2, 16_384));
    let node = match random.below(4) {
        0 => count - 1,
        1 => 0,
        _ => random.between(0, count - 1),
    };
    let beside = match random.below(6) {
        0 | 1 => 0,
        2 => random.between(-1, 1),
        3 => spacing / 2,
        _ => random.between(0, spacing.abs()) * spacing.signum(),
    };
    from.saturating_add(node * spacing).saturating_add(if node == count - 1 { -beside } else { beside })
}

/// A longitude on or beside a grid, turned so that a point can have it.
fn longitude(random: &mut Random, grid: &Grid) -> i64 {
    let lon = along(random, grid.lon, grid.dlon, grid.ni);
    turned(random, lon, LONGITUDE)
}

/// The position of a lookup.
pub fn position(random: &mut Random, record: &Group) -> Position {
    let grid = some_grid(random, record);
    let mut lon = longitude(random, &grid);
    let mut lat = along(random, grid.lat, grid.dlat, grid.nj);
    match random.below(40) {
        0 => lon = random.odd(),
        1 => lat = random.odd(),
        2 => lat = random.pick(&[-324_000_001, -324_000_000, 324_000_000, 324_000_001]),
        3 => lon = lon.saturating_add(random.pick(&[-TURN, TURN])),
        4..7 => lon = at_the_meridian(random),
        _ => {}
    }
    Position { lon, lat, day: day(random, record) }
}

/// The last longitude on either side of the meridian, or one beyond it.
fn at_the_meridian(random: &mut Random) -> i64 {
    random.pick(&[-LONGITUDE - 1, -LONGITUDE, -LONGITUDE, LONGITUDE, LONGITUDE, LONGITUDE + 1])
}

/// The points of an exercise, none, one or many: each on its own day, on days that come back, or all on the first one's.
pub fn positions(random: &mut Random, record: &Group) -> Vec<Position> {
    let len = random.pick(&[0, 1, 1, 2, 2, 3, 5, 8, 20, 70]);
    let mut points: Vec<Position> = (0..len).map(|_| position(random, record)).collect();
    let earlier_days = random.pick(&[0, 70, 100]);
    for k in 1..len {
        if random.percent(earlier_days) {
            points[k].day = points[random.below(k)].day;
        }
    }
    points
}

fn day(random: &mut Random, record: &Group) -> i64 {
    match random.below(24) {
        0 => random.odd(),
        1 => random.pick(&[-1_000_001, -1_000_000, 1_000_000, 1_000_001]),
        2..=19 => {
            let k = random.below(record.functions.clamp(1, 8) as usize);
            day_of(random, &record.function[k])
        }
        _ => random.between(-25, 25),
    }
}

/// An area; of some, west is above east or south above north.
pub fn area(random: &mut Random, record: &Group) -> Area {
    if random.percent(5) {
        return Area::EARTH;
    }
    let (one, other) = (some_grid(random, record), some_grid(random, record));
    let (x1, x2) = (longitude(random, &one), longitude(random, &other));
    let (y1, y2) = (along(random, one.lat, one.dlat, one.nj), along(random, other.lat, other.dlat, other.nj));
    let mut sides = [x1.min(x2), x1.max(x2), y1.min(y2), y1.max(y2)];
    match random.below(14) {
        0 => sides.swap(0, 1),
        1 => sides.swap(2, 3),
        2 => sides[random.below(4)] = random.odd(),
        3 => sides[random.below(2)] = at_the_meridian(random),
        4 => sides[1] = sides[1].saturating_add(TURN),
        5 => (sides[0], sides[1]) = (-LONGITUDE, LONGITUDE),
        _ => {}
    }
    let [west, east, south, north] = sides;
    Area { west, east, south, north }
}

/// A node list, mostly just long enough for the group.
pub fn nodes(random: &mut Random, record: &Group) -> Vec<i32> {
    const MOST: i64 = 12_000;
    let grids = &record.grid[..record.grids.clamp(1, 64) as usize];
    let size = |n: i64| n.clamp(0, MOST);
    let end = |g: &Grid| size(g.start) + size(size(g.ni) * size(g.nj)) * record.parameters.clamp(1, 3);
    let longest = grids.iter().map(end).max().unwrap_or(0).min(MOST);
    let len = match random.below(16) {
        0 => longest - 1,
        1 => longest / 2,
        2 => longest + random.between(1, 9),
        _ => longest,
    };
    let kind = random.below(8);
    let middle = middle(random, record);
    (0..len.max(0)).map(|_| node(random, kind, middle)).collect()
}

/// The size of the greatest node value.
const VALUE: i64 = 2_147_483_647;

/// A value about which a list may lie: with it at all corners the weighted sum of a grid, or the sum raised so that it is never
/// below 0, passes 2 to the power 63 or 64; or the greatest, the least or any other.
fn middle(random: &mut Random, record: &Group) -> i64 {
    let Grid { dlon, dlat, .. } = some_grid(random, record);
    let total = (i128::from(dlon) * i128::from(dlat)).abs().max(1);
    let word = random.pick(&[1 << 63, 1 << 64]) / total;
    let value = match random.below(8) {
        0 | 1 => word,
        2 => -word,
        3 | 4 => word - (1 << 31),
        5 => random.pick(&[-VALUE, VALUE]).into(),
        _ => random.between(-VALUE, VALUE).into(),
    };
    value.clamp(-i128::from(VALUE), i128::from(VALUE)) as i64
}

/// A node value of a list of some kind: small ones, the greatest, any, those up to the limit before order 6, those about the middle
/// by so much as the differences of corners may go, and lists with a few marks.
fn node(random: &mut Random, kind: usize, middle: i64) -> i32 {
    let value = match kind {
        0 | 1 => random.between(-3, 3),
        2 => random.pick(&[-VALUE, VALUE, VALUE - 1, 1 - VALUE, -4_000_001, 4_000_001, 0]),
        3 | 4 => random.between(-VALUE, VALUE),
        5 if random.percent(50) => random.pick(&[-4_000_000, 4_000_000, -(1 << 22), 1 << 22]),
        5 => random.between(-4_000_000, 4_000_000),
        6 => middle + random.between(-2, 2),
        _ => middle + random.pick(&[-1, 1]) * (1 << random.between(11, 24)) + random.between(-1, 1),
    };
    match random.below(48) {
        0..5 if kind == 3 => i32::MIN,
        0 if kind >= 3 => i32::MIN,
        _ => value.clamp(-VALUE, VALUE) as i32,
    }
}
