//! Groups of up to 64 grids: layouts that make the grids in force, or a hole, hard to find.

use interface::{Area, Grid, Group, MOST_GRIDS, Name, Timed};
use plain::{LONGITUDE, TURN};

/// A grid of 3 by 3 nodes: its west and south side, its width and height, both even, in milliarcseconds, and its rank.
#[derive(Clone, Copy)]
pub struct Rectangle {
    pub west: i64,
    pub south: i64,
    pub width: i64,
    pub height: i64,
    pub rank: i64,
}

/// The group of these rectangles.
pub fn group(rectangles: &[Rectangle]) -> Group {
    let mut record = Group { name: Name::new(b"layout"), parameters: 2, quantum: 10, ..Group::default() };
    for (k, &Rectangle { west, south, width, height, rank }) in rectangles.iter().enumerate() {
        let name = Name::new(format!("grid-{k}").as_bytes());
        let (dlon, dlat, start) = (width / 2, height / 2, k as i64 * 18);
        record.grid[k] = Grid { name, lon: west, lat: south, dlon, dlat, ni: 3, nj: 3, rank, start };
    }
    record.grids = rectangles.len() as i64;
    record
}

/// The least area that has all grids of a group in it.
pub fn bounds(group: &Group) -> Area {
    let around = |a: Area, b: Area| Area {
        west: a.west.min(b.west),
        east: a.east.max(b.east),
        south: a.south.min(b.south),
        north: a.north.max(b.north),
    };
    let grids = &group.grid[..group.grids as usize];
    grids.iter().map(plain::extent).reduce(around).expect("a layout has grids")
}

/// How far east a group is moved for its middle to lie on the 180° meridian.
pub fn to_the_meridian(group: &Group) -> i64 {
    let Area { west, east, .. } = bounds(group);
    LONGITUDE - (west + east) / 2
}

/// A group moved so that its middle lies on the meridian, which cuts the grids there in two.
pub fn across(mut group: Group) -> Group {
    let by = to_the_meridian(&group);
    group.grid[..group.grids as usize].iter_mut().for_each(|grid| grid.lon += by);
    group
}

/// A group with every distance so many times as long.
pub fn widened(mut group: Group, times: i64) -> Group {
    for grid in &mut group.grid {
        let distances = [&mut grid.lon, &mut grid.lat, &mut grid.dlon, &mut grid.dlat];
        distances.into_iter().for_each(|distance| *distance *= times);
    }
    group
}

/// A group across the meridian with a grid that goes around the earth from its east side to its west side, so that an area of
/// every longitude has no other holes than the group's bounds have. Of 64 grids it takes the place of the last. It is as short as
/// spacings of a million allow, and may end a few milliarcseconds within the bounds.
pub fn closed(mut group: Group) -> Group {
    if group.grids as usize == MOST_GRIDS {
        group.grids -= 1;
    }
    let mut group = across(group);
    let Area { west, east, south, north } = bounds(&group);
    let width = west - 1 - (east + 1 - TURN);
    let long_enough = |cells: i64| (cells, (width + cells - 1) / cells);
    let (cells, dlon) =
        (1_296..16_384).map(long_enough).min_by_key(|(cells, dlon)| cells * dlon).expect("there are some");
    let rank = group.grids + 1;
    let (name, lon, dlat) = (Name::new(b"around"), east + 1 - TURN, north - south);
    group.grid[group.grids as usize] = Grid { name, lon, lat: south, dlon, dlat, ni: cells + 1, nj: 2, rank, start: 0 };
    group.grids += 1;
    group
}

/// The rectangles of these west and south sides, widths and heights, the earlier ones ranking better.
fn ranked(rectangles: impl IntoIterator<Item = [i64; 4]>) -> Vec<Rectangle> {
    let one = |(rank, [west, south, width, height]): (i64, [i64; 4])| Rectangle { west, south, width, height, rank };
    (1..).zip(rectangles).map(one).collect()
}

/// 63 tiles, 9 by 7, that wholly hide a grid beneath them.
pub fn hidden() -> Group {
    let tiles = (0..63).map(|k| [k % 9 * 1_000, k / 9 * 1_000, 1_000, 1_000]);
    group(&ranked(tiles.chain([[0, 0, 9_000, 7_000]])))
}

/// The same tiles a step apart, so that the grid beneath shows in the narrow lanes only.
pub fn lanes() -> Group {
    let tiles = (0..63).map(|k| [k % 9 * 1_000, k / 9 * 1_000, 998, 998]);
    group(&ranked(tiles.chain([[0, 0, 9_000, 7_000]])))
}

/// Squares within squares, the smallest best.
pub fn nested() -> Group {
    group(&ranked((0..64).map(|k| [-10 * k, -10 * k, 20 * k + 20, 20 * k + 20])))
}

/// Long bars, every second one across, each hiding much of the later ones.
pub fn crossed() -> Group {
    group(&ranked((0..64).map(|k| if k % 2 == 0 { [k * 100, 0, 120, 10_000] } else { [0, k * 100, 10_000, 120] })))
}

/// Steps that rise to the east, each over the foot of the next.
pub fn stairs() -> Group {
    group(&ranked((0..64).map(|k| [k * 50, k * 50, 2_000, 2_000])))
}

/// The bricks of a wall of two courses over one base, listed from east to west. No two of the lower course end in the same
/// row, so that the base is looked for in as many rows as there are bricks in a course.
pub fn bricks() -> Group {
    group(&wall())
}

/// The rectangles of `bricks`.
pub fn wall() -> Vec<Rectangle> {
    const ACROSS: i64 = 31;
    let courses = (0..ACROSS).rev().flat_map(|k| {
        let joint = 1_000 + 10 * (k * 7 % ACROSS);
        [[k * 100, 0, 100, joint], [k * 100, joint, 100, 3_000 - joint]]
    });
    ranked(courses.chain([[0, 0, ACROSS * 100, 3_000]]))
}

/// The wall of `bricks` without its base. It covers all but the last coordinate: in place of the last brick stand two, moved a
/// step to the west and a step to the south.
pub fn corner() -> Group {
    let mut bricks = wall();
    let base = bricks.pop().expect("it stands last");
    let last = bricks[1];
    bricks[1].west -= 1;
    bricks.push(Rectangle { south: last.south - 1, rank: base.rank, ..last });
    group(&bricks)
}

/// Two stacks of flat bricks side by side. No two bricks end in the same row, so that however they are taken as many rows are to
/// be walked as there are bricks; the lower stack leaves a hole behind its last one.
pub fn stacks() -> Group {
    let west = (0..32).map(|k| [0, 100 * k, 1_000, 100]);
    let east = (1..32).map(|k| [1_000, 100 * k - 50, 1_000, 100]);
    group(&ranked(west.chain([[1_000, 0, 1_000, 50]]).chain(east)))
}

/// The worst layout that `bench --search` has found, as it printed it.
pub fn annealed() -> Group {
    let (mut group, mut place) = (Group::default(), 0);
    let number = plain::Plain.read_header(include_bytes!("../layouts/annealed.header"), &mut group, &mut place);
    assert_eq!((number, place), (0, 0), "the layout is an accepted header");
    group
}
