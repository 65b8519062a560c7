//! Grids in force in an area and its hole, by coordinate compression and, for small areas, by trying every coordinate.

use crate::geometry::{chosen, extent, grids, turned};
use crate::judge::judge;
use crate::limits;
use crate::refusal::refuse;
use interface::{Area, Entry, Grid, Group, Refusal};

/// The grids in force, by rank and then by number: refusals 2 to 5, then 10.
pub fn grids_in_force(record: &Group, area: Area) -> Result<Vec<Entry>, Refusal> {
    Ok(seen(record, area)?.in_force)
}

/// Longitude and latitude of the southmost, then westmost coordinate at which no grid is chosen; refusals as of the grids in
/// force.
pub fn hole(record: &Group, area: Area) -> Result<Option<(i64, i64)>, Refusal> {
    Ok(seen(record, area)?.hole)
}

/// What an area shows to whoever goes through its coordinates.
#[derive(Debug, PartialEq, Eq)]
pub struct Seen {
    pub in_force: Vec<Entry>,
    pub hole: Option<(i64, i64)>,
}

fn seen(record: &Group, area: Area) -> Result<Seen, Refusal> {
    judge(record)?;
    let [west, east, south, north] = [area.west, area.east, area.south, area.north].map(i128::from);
    let sides =
        limits::longitude(west) && limits::longitude(east) && limits::latitude(south) && limits::latitude(north);
    if !sides || west > east || south > north {
        return refuse(10, 0);
    }
    Ok(by_compression(grids(record), area))
}

/// Looks only at longitudes and latitudes where some grid, turned or not, or the area begins, or just past where a grid ends:
/// between two neighbours of these the choice is the same all along.
pub fn by_compression(grids: &[Grid], area: Area) -> Seen {
    let extents: Vec<_> = grids.iter().map(extent).collect();
    let cuts = |from: i64, to: i64, edges: Vec<i128>| {
        let mut all: Vec<i64> = edges.into_iter().map(|e| e as i64).filter(|&e| from < e && e <= to).collect();
        all.push(from);
        all.sort_unstable();
        all.dedup();
        all
    };
    let ends = extents.iter().flat_map(|e| turned(e.west).into_iter().chain(turned(e.east + 1)));
    let lons = cuts(area.west, area.east, ends.collect());
    let lats = cuts(area.south, area.north, extents.iter().flat_map(|e| [e.south, e.north + 1]).collect());
    seen_at(grids, lons.into_iter(), lats.into_iter())
}

/// Looks at every coordinate of the area.
pub fn by_every_coordinate(grids: &[Grid], area: Area) -> Seen {
    seen_at(grids, area.west..=area.east, area.south..=area.north)
}

/// What these longitudes and latitudes show, both rising: the grids chosen at some of them, each with the first such
/// coordinate, and the first one at which none is.
fn seen_at(grids: &[Grid], lons: impl Iterator<Item = i64> + Clone, lats: impl Iterator<Item = i64>) -> Seen {
    let mut first: Vec<Option<Entry>> = vec![None; grids.len()];
    let mut hole = None;
    for lat in lats {
        for lon in lons.clone() {
            match chosen(grids, i128::from(lon), i128::from(lat)) {
                Some(k) => {
                    first[k].get_or_insert(Entry { grid: k as i64 + 1, lon, lat });
                }
                None => {
                    hole.get_or_insert((lon, lat));
                }
            }
        }
    }
    let mut in_force: Vec<Entry> = first.into_iter().flatten().collect();
    in_force.sort_by_key(|entry| (grids[entry.grid as usize - 1].rank, entry.grid));
    Seen { in_force, hole }
}
