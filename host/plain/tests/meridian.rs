//! Grids about the 180° meridian, with answers worked out by hand, from the plain program and from the second one.

use interface::{Area, Fix, Grid, Group, InForce, Name, Position, Timed, Uncovered};
use plain::Plain;
use reference::Reference;

const BOTH: [&dyn Timed; 2] = [&Plain, &Reference];

/// The last longitude of points; the first is less than 0.
const LAST: i64 = 648_000_000;

/// A grid of two rows from latitude 0 on.
fn grid(name: &[u8], lon: i64, dlon: i64, ni: i64) -> Grid {
    Grid { name: Name::new(name), lon, lat: 0, dlon, dlat: 10, ni, nj: 2, rank: 1, start: 0 }
}

fn group(grids: &[Grid]) -> Group {
    let mut record =
        Group { name: Name::new(b"straits"), parameters: 1, grids: grids.len() as i64, ..Group::default() };
    record.grid[..grids.len()].copy_from_slice(grids);
    record
}

/// The result of a lookup in the southern row of a grid whose nodes there are 0, 100, 200 and so on, or the refusal's number.
fn shift(calls: &dyn Timed, grid: Grid, lon: i64) -> Result<i64, u64> {
    let nodes: Vec<i32> = (0..2 * grid.ni as i32).map(|k| 100 * k).collect();
    let mut fix = Fix::default();
    match calls.lookup(&group(&[grid]), &nodes, Position { lon, lat: 0, day: 0 }, &mut fix, &mut 0) {
        0 => Ok(fix.result[0]),
        number => Err(number),
    }
}

/// The number of the judge's refusal and its place.
fn judged(calls: &dyn Timed, grids: &[Grid]) -> (u64, u64) {
    let mut place = 0;
    (calls.judge(&group(grids), &mut place), place)
}

/// From 179° to 181° by quarters of a degree: −179.5° is 180.5°, the seventh node.
#[test]
fn a_grid_from_179_to_181_degrees_holds_points_on_both_sides() {
    let strait = grid(b"strait", 644_400_000, 900_000, 9);
    for calls in BOTH {
        let at = |lon| shift(calls, strait, lon);
        assert_eq!([at(644_400_000), at(LAST), at(-LAST)], [Ok(0), Ok(400), Ok(400)]);
        assert_eq!([at(-646_200_000), at(-646_650_000), at(-644_400_000)], [Ok(600), Ok(550), Ok(800)]);
        assert_eq!([at(-644_399_999), at(LAST + 1), at(-LAST - 1), at(649_800_000)], [Err(7), Err(6), Err(6), Err(6)]);
    }
}

/// Its first and its last node stand at the same place of the earth.
#[test]
fn at_the_edges_of_a_grid_a_turn_wide_the_point_itself_comes_first() {
    for calls in BOTH {
        let at = |west, lon| shift(calls, grid(b"belt", west, 1_000_000, 1_297), lon);
        assert_eq!([at(-LAST, -LAST), at(-LAST, LAST)], [Ok(0), Ok(129_600)]);
        assert_eq!([at(0, 0), at(-2 * LAST, 0)], [Ok(0), Ok(129_600)]);
        assert_eq!([at(0, -1_000_000), at(-2 * LAST, 1_000_000)], [Ok(129_500), Ok(100)]);
    }
}

#[test]
fn a_grid_may_be_a_turn_wide_and_no_wider() {
    for calls in BOTH {
        assert_eq!(judged(calls, &[grid(b"a", -LAST, 1_000_000, 1_297)]), (0, 0));
        assert_eq!(judged(calls, &[grid(b"a", LAST, -1_000_000, 1_297)]), (0, 0));
        assert_eq!(judged(calls, &[grid(b"a", -LAST, 952_241, 1_362)]), (4, 1));
        assert_eq!(judged(calls, &[grid(b"a", 2 * LAST, -1_000_000, 2_593)]), (4, 1));
    }
}

/// In millions: 600 to 648 and −648 to −600 share both longitudes at the meridian, 1,200 to 1,296 and −1,296 to −1,200 longitude 0.
#[test]
fn grids_of_one_rank_clash_by_turning() {
    let millions =
        |west: i64, count| grid(if west < 0 { b"west" } else { b"east" }, west * 1_000_000, 1_000_000, count);
    for calls in BOTH {
        for (east, west, count) in
            [(600, -648, 49), (648, -700, 53), (1_200, -1_296, 97), (648, -648, 2), (1_290, -10, 7)]
        {
            assert_eq!(judged(calls, &[millions(east, count), millions(west, count)]), (5, 2), "{east} {west}");
        }
        for (east, west, count) in [(600, -648, 48), (648, -701, 53), (1_200, -1_296, 96), (1_290, -13, 7)] {
            assert_eq!(judged(calls, &[millions(east, count), millions(west, count)]), (0, 0), "{east} {west}");
        }
    }
}

/// What is found in an area one coordinate high.
fn found(calls: &dyn Timed, grid: Grid, west: i64, east: i64) -> ([i64; 4], [i64; 3]) {
    let (group, area) = (group(&[grid]), Area { west, east, south: 0, north: 0 });
    let (mut list, mut hole) = (InForce::default(), Uncovered::default());
    assert_eq!(calls.grids_in_force(&group, area, &mut list, &mut 0), 0);
    assert_eq!(calls.hole(&group, area, &mut hole, &mut 0), 0);
    let first = list.entry[0];
    ([list.count, first.grid, first.lon, first.lat], [hole.found, hole.lon, hole.lat])
}

/// A grid that ends at the meridian is in force at both of its longitudes, and each answer is one of the area's.
#[test]
fn both_longitudes_at_the_meridian_are_of_a_grid_that_ends_there() {
    let bay = grid(b"bay", LAST - 20, 10, 3);
    for calls in BOTH {
        assert_eq!(found(calls, bay, -LAST, -LAST), ([1, 1, -LAST, 0], [0, 0, 0]));
        assert_eq!(found(calls, bay, -LAST, 1 - LAST), ([1, 1, -LAST, 0], [1, 1 - LAST, 0]));
        assert_eq!(found(calls, bay, 1 - LAST, LAST), ([1, 1, LAST - 20, 0], [1, 1 - LAST, 0]));
        assert_eq!(found(calls, bay, LAST, LAST), ([1, 1, LAST, 0], [0, 0, 0]));
        assert_eq!(found(calls, grid(b"cape", LAST + 1, 10, 3), -LAST, LAST), ([1, 1, 1 - LAST, 0], [1, -LAST, 0]));
    }
}
