//! Random groups: sound ones, and ones damaged so that each of the refusals 2 to 5 comes up.

use crate::functions;
use crate::random::Random;
use interface::{Grid, Group, Name};

/// Once around the earth: a grid's own longitude and far edge go so far either way, points and areas half of it.
pub const TURN: i64 = 1_296_000_000;
pub const LONGITUDE: i64 = 648_000_000;
pub const LATITUDE: i64 = 324_000_000;
const NODE_LIST: i64 = 16_777_216;
/// The size of the greatest spacing.
pub const SPACING: i64 = 36_000_000;

/// An axis of a grid: its first node, spacing and count.
pub type Axis = (i64, i64, i64);

/// A corner or the middle of the world, and how large spacings and counts are there.
#[derive(Clone, Copy)]
struct World {
    lon: i64,
    lat: i64,
    spacing: i64,
    count: i64,
}

fn world(random: &mut Random) -> World {
    let small = World { lon: 0, lat: 0, spacing: 6, count: 6 };
    match random.below(19) {
        0 => World { lon: -TURN, ..small },
        1 => World { lon: TURN, lat: LATITUDE, ..small },
        2 => World { lat: -LATITUDE, ..small },
        3 => World { spacing: 1_000_000, count: 12, ..small },
        4 => World { count: 60, spacing: 50_000, ..small },
        5..9 => World { lon: LONGITUDE, ..small },
        9 => World { lon: LONGITUDE, spacing: 1_000_000, count: 12, ..small },
        10..13 => World { spacing: SPACING, ..small },
        13 => World { lon: LONGITUDE, spacing: SPACING, ..small },
        _ => small,
    }
}

/// From least to greatest on one axis.
fn reach(from: i64, spacing: i64, count: i64) -> (i64, i64) {
    let far = from.saturating_add((count - 1).saturating_mul(spacing));
    (from.min(far), from.max(far))
}

fn share(a: (i64, i64), b: (i64, i64)) -> bool {
    a.0.max(b.0) <= a.1.min(b.1)
}

/// Whether two grids hold a common point.
fn overlap(a: &Grid, b: &Grid) -> bool {
    let (west, east) = reach(b.lon, b.dlon, b.ni);
    let turned = |turns: i64| (west + turns * TURN, east + turns * TURN);
    (-2..=2).any(|turns| share(reach(a.lon, a.dlon, a.ni), turned(turns)))
        && share(reach(a.lat, a.dlat, a.nj), reach(b.lat, b.dlat, b.nj))
}

/// A longitude within ±limit that is this one or whole turns from it, or this one if there is none.
pub fn turned(random: &mut Random, lon: i64, limit: i64) -> i64 {
    let all = (-2..=2).map(|turns| lon.saturating_add(turns * TURN));
    let within: Vec<i64> = all.filter(|other| (-limit..=limit).contains(other)).collect();
    if within.is_empty() { lon } else { random.pick(&within) }
}

/// A longitude, in some cases turned, that a grid can have.
fn turned_at_times(random: &mut Random, lon: i64) -> i64 {
    if random.percent(35) { turned(random, lon, TURN) } else { lon }
}

/// An axis of longitudes of this spacing and count that begins or ends at or beside the meridian, or anywhere.
pub fn around(random: &mut Random, spacing: i64, count: i64) -> Axis {
    let width = (count - 1) * spacing;
    let beside = random.pick(&[-1, 0, 0, 0, 1]);
    let wests = [-LONGITUDE + beside, LONGITUDE - width + beside, random.between(-TURN, TURN - width)];
    let west = random.pick(&wests).clamp(-TURN, TURN - width);
    if random.percent(50) { (west, spacing, count) } else { (west + width, -spacing, count) }
}

/// Spacing and count of grids that are just a turn wide, a milliarcsecond or two less, a milliarcsecond more, and two turns wide.
pub const A_TURN: (i64, i64) = (1_000_000, 1_297);
pub const ONE_LESS: (i64, i64) = (251_993, 5_144);
pub const TWO_LESS: (i64, i64) = (556_462, 2_330);
const ONE_MORE: (i64, i64) = (952_241, 1_362);
const TWO_TURNS: (i64, i64) = (1_000_000, 2_593);
/// Those of coarse grids that are just a turn wide.
const A_COARSE_TURN: [(i64, i64); 2] = [(SPACING, 37), (3_600_000, 361)];

/// The size of a spacing: in a coarse world mostly a great one, and often at a limit or where the weights of a square cell add to
/// 2 to the power 32, 40 or 41.
fn spacing(random: &mut Random, world: World) -> i64 {
    const SIZES: [i64; 12] = [
        SPACING,
        SPACING,
        SPACING - 1,
        3_600_000,
        1_000_000,
        1_000_001,
        65_536,
        65_537,
        1_048_576,
        1_048_577,
        1_482_910,
        1_482_911,
    ];
    match random.below(10) {
        0..6 if world.spacing == SPACING => random.pick(&SIZES),
        0..7 => random.between(1, 6),
        _ => random.between(1, world.spacing),
    }
}

/// An axis inside ±limit.
fn axis(random: &mut Random, centre: i64, limit: i64, world: World) -> Axis {
    loop {
        let size = spacing(random, world);
        let spacing = if random.percent(50) { size } else { -size };
        let count = random.between(2, world.count);
        let from = centre + random.between(-3, 3) * random.between(0, world.spacing.min(200_000) + 4);
        let (least, greatest) = reach(from, spacing, count);
        if -limit <= least && greatest <= limit {
            return (from, spacing, count);
        }
    }
}

/// A name that no other number gives: some differ in their last byte alone.
fn name(random: &mut Random, number: usize) -> Name {
    const BYTES: &[u8] = b"ABCXYZabcxyz0189_-";
    let shared = random.pick(&[0, 0, 1, 5, 21]);
    let mut text = if random.percent(50) {
        vec![b'n'; shared]
    } else {
        (0..shared).map(|_| random.pick(BYTES)).collect::<Vec<u8>>()
    };
    text.extend(format!("-{number:02}").bytes());
    Name::new(&text)
}

fn grid(random: &mut Random, axes: [Axis; 2], k: usize, parameters: i64) -> Grid {
    let [(lon, dlon, ni), (lat, dlat, nj)] = axes;
    let last = NODE_LIST - ni * nj * parameters;
    let start = match random.below(400) {
        0 => last,
        1 => random.between(0, last),
        _ => random.between(0, 60),
    };
    Grid { name: name(random, k), lon, lat, dlon, dlat, ni, nj, rank: random.between(1, 5), start }
}

/// A group that is accepted.
pub fn sound(random: &mut Random) -> Group {
    let world = world(random);
    let grids = random.pick(&[1, 1, 2, 2, 3, 3, 4, 5, 6, 8, 16, 64]);
    let wide = if random.percent(16) { 60 } else { 0 };
    of_grids(random, grids, |random, _| {
        if random.percent(wide) {
            let (spacing, count) = random.pick(&[A_TURN, A_TURN, A_COARSE_TURN[0], A_COARSE_TURN[1]]);
            let low = World { count: 2, ..world };
            return [around(random, spacing, count), axis(random, world.lat, LATITUDE, low)];
        }
        let centre = turned_at_times(random, world.lon);
        [axis(random, centre, TURN, world), axis(random, world.lat, LATITUDE, world)]
    })
}

/// An accepted group of so many grids, each along its two axes, which are made from its index. One that shares a coordinate and
/// its rank with an earlier one gets a greater rank.
pub fn of_grids(random: &mut Random, grids: usize, axes: impl Fn(&mut Random, usize) -> [Axis; 2]) -> Group {
    let functions = random.pick(&[0, 0, 1, 2, 3, 8]);
    let parameters = random.between(1, 3);
    let mut record = Group {
        name: name(random, 0),
        unit: random.between(0, 1),
        quantum: random.between(0, 20),
        parameters,
        functions: functions as i64,
        grids: grids as i64,
        ..Group::default()
    };
    for k in 0..functions {
        record.function[k] = functions::sound(random);
    }
    for k in 0..grids {
        let axes = axes(random, k);
        let mut next = grid(random, axes, k, parameters);
        while record.grid[..k].iter().any(|g| g.rank == next.rank && overlap(g, &next)) {
            next.rank += 1;
        }
        record.grid[k] = next;
    }
    record
}

/// The counts of functions and grids, at most their entries.
fn counts(record: &Group) -> (usize, usize) {
    (record.functions.clamp(0, 8) as usize, record.grids.clamp(1, 64) as usize)
}

/// Breaks a name: its length, one of its bytes, or a byte behind it.
fn break_name(random: &mut Random, name: &mut Name) {
    match random.below(3) {
        0 => name.len = random.pick(&[0, -1, 23, 24, 25, i64::MIN, i64::MAX, name.len - 1, name.len + 1]),
        1 => name.bytes[random.below(24)] = random.pick(&[0, b' ', b'.', b'\t', b'\n', b'@', b'[', b'`', b'{', 0xff]),
        _ => name.bytes[23] = random.pick(b"a\0\xff"),
    }
}

/// Sets one number of a grid to an odd one.
fn break_grid(random: &mut Random, grid: &mut Grid) {
    let odd = random.odd();
    let spacing = if random.percent(50) { odd } else { random.pick(&[SPACING + 1, -SPACING - 1, SPACING, 1_000_001]) };
    match random.below(9) {
        0 => grid.lon = odd,
        1 => grid.lat = odd,
        2 => grid.dlon = spacing,
        3 => grid.dlat = spacing,
        4 => grid.ni = odd,
        5 => grid.nj = odd,
        6 => grid.rank = odd,
        7 => grid.start = odd,
        _ => grid.name.len = odd,
    }
}

fn break_head(random: &mut Random, record: &mut Group) {
    let odd = random.odd();
    match random.below(5) {
        0 => record.unit = odd,
        1 => record.quantum = odd,
        2 => record.parameters = odd,
        3 => record.functions = odd,
        _ => record.grids = odd,
    }
}

/// Moves a grid so that it reaches, or just does not reach, beyond the limits of coordinates or nodes.
fn push_out(random: &mut Random, grid: &mut Grid, parameters: i64) {
    let beyond = random.between(0, 2);
    let across = |spacing: i64, count: i64| (count.clamp(2, 16_384) - 1) * spacing.clamp(-SPACING, SPACING);
    match random.below(3) {
        0 => {
            let width = across(grid.dlon, grid.ni);
            grid.lon = (TURN + beyond - width.abs()) * width.signum();
        }
        1 => {
            let height = across(grid.dlat, grid.nj);
            grid.lat = (LATITUDE + beyond - height.abs()) * height.signum();
        }
        _ => grid.start = NODE_LIST - grid.ni.clamp(2, 300) * grid.nj.clamp(2, 300) * parameters.clamp(1, 3) + beyond,
    }
}

/// Makes a grid a turn wide, a milliarcsecond less or more, or two turns.
fn widen(random: &mut Random, grid: &mut Grid) {
    let (spacing, count) = random.pick(&[A_TURN, A_COARSE_TURN[0], ONE_LESS, ONE_MORE, ONE_MORE, TWO_TURNS]);
    (grid.lon, grid.dlon, grid.ni) = around(random, spacing, count);
    grid.nj = grid.nj.min(2);
}

/// Gives grid k the rank of grid j and moves it over the east edge of j, onto it or just past it, or to where it is so by turns.
/// Now and then that edge is first moved to where the longitudes of points or of grids end.
fn clash(random: &mut Random, record: &mut Group, j: usize, k: usize) {
    let Grid { lon, dlon, ni, lat, rank, .. } = record.grid[j];
    let (_, mut east) = reach(lon, dlon, ni);
    if random.percent(25) {
        let end = random.pick(&[LONGITUDE, TURN]);
        record.grid[j].lon = lon.saturating_add(end.saturating_sub(east));
        east = end;
    }
    let grid = &mut record.grid[k];
    grid.rank = rank;
    grid.lat = lat;
    let beside = east.saturating_add(random.between(-1, 1));
    grid.lon = turned_at_times(random, beside);
    grid.dlon = grid.dlon.saturating_abs();
}

/// Damages a group in one place; now and then the damage is none.
pub fn damage(random: &mut Random, record: &mut Group) {
    let (functions, grids) = counts(record);
    let (k, later) = (random.below(grids), random.below(grids));
    match random.below(24) {
        0 | 1 => break_head(random, record),
        2 => break_name(random, &mut record.name),
        3 | 22 if functions > 0 => functions::damage(random, &mut record.function[k % functions]),
        4 | 23 if functions < 8 => functions::damage(random, &mut record.function[functions + k % (8 - functions)]),
        5 if grids < 64 => {
            let unused = &mut record.grid[grids + later % (64 - grids)];
            if random.percent(50) { break_grid(random, unused) } else { break_name(random, &mut unused.name) }
        }
        6 => record.grids += random.between(-1, 1),
        7 | 8 => break_grid(random, &mut record.grid[k]),
        9 => break_name(random, &mut record.grid[k].name),
        10..=12 => record.grid[later].name = record.grid[k].name,
        13..=15 => push_out(random, &mut record.grid[k], record.parameters),
        16 => widen(random, &mut record.grid[k]),
        _ => clash(random, record, k.min(later), k.max(later)),
    }
}
