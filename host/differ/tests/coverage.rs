//! The second program's two ways to find the grids in force and the hole: by coordinate compression and by every coordinate.

use differ::{Random, area, cover, sound};
use interface::{Area, Group};
use reference::{Seen, by_compression, by_every_coordinate, judge};

/// Most coordinates that an area may have to be compared.
const SMALL: i128 = 5_000;

/// What an area shows, found in both ways; of a small area only.
fn compared(record: &Group, area: Area) -> Option<Seen> {
    assert_eq!(judge(record), Ok(()));
    let across = |from: i64, to: i64| (i128::from(to) - i128::from(from) + 1).max(0);
    if !(1..=SMALL).contains(&(across(area.west, area.east) * across(area.south, area.north))) {
        return None;
    }
    let grids = &record.grid[..record.grids as usize];
    let seen = by_compression(grids, area);
    assert_eq!(seen, by_every_coordinate(grids, area), "{area:?} {grids:?}");
    Some(seen)
}

#[test]
fn compression_finds_what_every_coordinate_shows() {
    let (mut areas, mut entries, mut hidden) = (0, 0, 0);
    for index in 0..8_000 {
        let mut random = Random::new("coverage", 0, index);
        let record = sound(&mut random);
        let area = area(&mut random, &record);
        if let Some(seen) = compared(&record, area) {
            areas += 1;
            entries += seen.in_force.len();
            hidden += record.grids as usize - seen.in_force.len();
        }
    }
    println!("{areas} areas, {entries} entries, {hidden} grids without one");
    assert!(areas > 2_000 && entries > 2_000 && hidden > 2_000);
}

#[test]
fn covers_have_holes_of_every_kind() {
    let (mut none, mut first, mut last, mut others) = (0, 0, 0, 0);
    for index in 0..3_000 {
        let (record, area) = cover(&mut Random::new("covers", 0, index));
        match compared(&record, area).map(|seen| seen.hole) {
            None => {}
            Some(None) => none += 1,
            Some(Some(hole)) if hole == (area.west, area.south) => first += 1,
            Some(Some(hole)) if hole == (area.east, area.north) => last += 1,
            Some(Some(_)) => others += 1,
        }
    }
    println!("{none} without a hole, {first} at the first coordinate, {last} at the last, {others} at others");
    assert!(none > 300 && first > 30 && last > 300 && others > 300);
}
