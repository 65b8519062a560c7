//! Groups whose grids cover an area, or all of it but a little.

use crate::groups::{A_TURN, Axis, LATITUDE, LONGITUDE, ONE_LESS, TURN, TWO_LESS, around, of_grids, turned};
use crate::random::Random;
use interface::{Area, Group};

/// A sound group and an area that its grids cover together, in one of four cases whole, in the others mostly but for its last
/// coordinate, another one or a slit; of some areas a side stands a milliarcsecond further in or out.
pub fn cover(random: &mut Random) -> (Group, Area) {
    if random.percent(8) {
        return belt(random);
    }
    let mut area = somewhere(random);
    let mut pieces = vec![area];
    for _ in 0..random.pick(&[0, 1, 2, 3, 5, 8, 30]) {
        cut(random, &mut pieces);
    }
    match random.below(4) {
        0 => {}
        1 => pierce(&mut pieces, area.east, area.north),
        2 => {
            let (lon, lat) = (random.between(area.west, area.east), random.between(area.south, area.north));
            pierce(&mut pieces, lon, lat);
        }
        _ => narrow(random, &mut pieces),
    }
    for k in 1..pieces.len() {
        pieces.swap(k, random.below(k + 1));
    }
    let axes = |random: &mut Random, k: usize| {
        let (west, east) = elsewhere(random, &pieces[k]);
        [axis(random, west, east), axis(random, pieces[k].south, pieces[k].north)]
    };
    let group = of_grids(random, pieces.len(), axes);
    if random.percent(25) {
        let by = random.pick(&[-1, 1]);
        match random.below(4) {
            0 => area.west += by,
            1 => area.east += by,
            2 => area.south += by,
            _ => area.north += by,
        }
    }
    (group, area)
}

/// An area once around the earth, and a group of two grids, one above the other, that cover it, now and then but for one
/// longitude or a row.
fn belt(random: &mut Random) -> (Group, Area) {
    let Area { south, north, .. } = somewhere(random);
    let middle = random.between(south + 1, north - 3);
    let begin = middle + random.pick(&[0, 1, 1, 1, 2]);
    let group = of_grids(random, 2, |random, k| {
        let (spacing, count) = random.pick(&[A_TURN, ONE_LESS, TWO_LESS]);
        let (south, north) = if k == 0 { (south, middle) } else { (begin, north) };
        [around(random, spacing, count), axis(random, south, north)]
    });
    (group, Area { west: -LONGITUDE, east: LONGITUDE, south, north })
}

/// The longitudes of a piece, at times turned, and at times on beyond the meridian where the piece ends there.
fn elsewhere(random: &mut Random, piece: &Area) -> (i64, i64) {
    let (mut west, mut east) = (piece.west, piece.east);
    if random.percent(50) && east - west < 900_000 {
        west -= if west == -LONGITUDE { random.between(0, 9) } else { 0 };
        east += if east == LONGITUDE { random.between(0, 9) } else { 0 };
    }
    let from = turned(random, west, TURN);
    if random.percent(50) && (-TURN..=TURN).contains(&(from + east - west)) {
        (from, from + east - west)
    } else {
        (west, east)
    }
}

/// An area of five coordinates or more along each axis, in the middle or at an end of the world.
fn somewhere(random: &mut Random) -> Area {
    let greatest = random.pick(&[6, 12, 40, 1_000_000]);
    let side = |random: &mut Random, limit: i64| {
        let width = random.between(4, greatest);
        let from = random.pick(&[0, -7, -limit, limit - width]);
        (from, from + width)
    };
    let ((west, east), (south, north)) = (side(random, LONGITUDE), side(random, LATITUDE));
    Area { west, east, south, north }
}

/// Whether a grid can have this extent: it has two nodes or more along each axis.
fn of_a_grid(piece: &Area) -> bool {
    piece.west < piece.east && piece.south < piece.north
}

/// Cuts a piece in two, which share a line or just don't; a piece that is too small stays.
fn cut(random: &mut Random, pieces: &mut Vec<Area>) {
    let k = random.below(pieces.len());
    let piece = pieces[k];
    let shared = random.between(0, 1);
    let (one, other) = if random.percent(50) {
        let east = random.between(piece.west, piece.east);
        (Area { east, ..piece }, Area { west: east + 1 - shared, ..piece })
    } else {
        let north = random.between(piece.south, piece.north);
        (Area { north, ..piece }, Area { south: north + 1 - shared, ..piece })
    };
    if of_a_grid(&one) && of_a_grid(&other) {
        pieces[k] = one;
        pieces.push(other);
    }
}

/// Takes a coordinate out of each piece that holds it: the parts beside it stay, as far as grids can have them.
fn pierce(pieces: &mut Vec<Area>, lon: i64, lat: i64) {
    let holds = |a: &Area| a.west <= lon && lon <= a.east && a.south <= lat && lat <= a.north;
    let (pierced, mut others): (Vec<Area>, Vec<Area>) = pieces.iter().partition(|piece| holds(piece));
    let beside = pierced.into_iter().flat_map(|piece| {
        [
            Area { east: lon - 1, ..piece },
            Area { west: lon + 1, ..piece },
            Area { north: lat - 1, ..piece },
            Area { south: lat + 1, ..piece },
        ]
    });
    others.extend(beside.filter(of_a_grid));
    *pieces = others;
}

/// Takes a milliarcsecond off a side of a piece.
fn narrow(random: &mut Random, pieces: &mut [Area]) {
    let k = random.below(pieces.len());
    let mut piece = pieces[k];
    match random.below(4) {
        0 => piece.west += 1,
        1 => piece.east -= 1,
        2 => piece.south += 1,
        _ => piece.north -= 1,
    }
    if of_a_grid(&piece) {
        pieces[k] = piece;
    }
}

/// An axis of just this extent.
fn axis(random: &mut Random, from: i64, to: i64) -> Axis {
    let steps = random.pick(&[1, 2, 3, 5]);
    let steps = if (to - from) % steps == 0 { steps } else { 1 };
    let size = (to - from) / steps;
    if random.percent(50) { (from, size, steps + 1) } else { (to, -size, steps + 1) }
}
