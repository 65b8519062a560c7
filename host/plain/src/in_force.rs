//! Grids in force: for each grid the first of its coordinates in the area that no better grid holds.

use crate::group::{meet, pieces};
use crate::judge::judge_area;
use interface::{Area, Entry, Group, Refusal};

/// The part of a rectangle in an area, if there is one.
fn part(rectangle: &Area, area: &Area) -> Option<Area> {
    meet(rectangle, area).then(|| Area {
        west: rectangle.west.max(area.west),
        east: rectangle.east.min(area.east),
        south: rectangle.south.max(area.south),
        north: rectangle.north.min(area.north),
    })
}

/// The southmost, then westmost coordinate of a grid's pieces that no blocker holds; the blockers rise by west side.
fn first_free(pieces: &[Area], blockers: &[Area]) -> Option<(i64, i64)> {
    let &Area { south, north, .. } = pieces.first()?;
    let mut rows: Vec<i64> = blockers.iter().map(|b| b.north + 1).collect();
    rows.push(south);
    rows.sort_unstable();
    rows.into_iter().filter(|&lat| south <= lat && lat <= north).find_map(|lat| {
        let free = pieces.iter().map(|piece| (first_free_in_row(piece.west, lat, blockers), piece.east));
        free.filter(|(lon, east)| lon <= east).map(|(lon, _)| (lon, lat)).min()
    })
}

/// The westmost longitude of a row, from `lon` on, that no blocker holds.
fn first_free_in_row(mut lon: i64, lat: i64, blockers: &[Area]) -> i64 {
    for b in blockers {
        if b.west > lon {
            break;
        }
        if b.south <= lat && lat <= b.north && b.east >= lon {
            lon = b.east + 1;
        }
    }
    lon
}

/// The grids in force in an area.
pub fn in_force(group: &Group, area: Area) -> Result<Vec<Entry>, Refusal> {
    let extents = judge_area(group, &area)?;
    let grids = &group.grid[..group.grids as usize];
    let mut order: Vec<(i64, usize)> = grids.iter().enumerate().map(|(k, grid)| (grid.rank, k)).collect();
    order.sort_unstable();
    let mut better: Vec<Area> = Vec::new();
    let mut list = Vec::new();
    for same_rank in order.chunk_by(|a, b| a.0 == b.0) {
        let mut seen = Vec::new();
        for &(_, k) in same_rank {
            let earlier = seen.len();
            seen.extend(pieces(&extents[k]).filter_map(|(piece, _)| part(&piece, &area)));
            if let Some((lon, lat)) = first_free(&seen[earlier..], &better) {
                list.push(Entry { grid: k as i64 + 1, lon, lat });
            }
        }
        better.extend(seen);
        better.sort_unstable_by_key(|b| b.west);
    }
    Ok(list)
}
