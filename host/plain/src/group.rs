//! The rectangles of a group's grids, and the ranges of their nodes.

use interface::{Area, Grid};

/// Once around the earth, the most that a grid may be wide; longitudes of points and areas go half of it either way.
pub const TURN: i64 = 1_296_000_000;
pub const LONGITUDE: i64 = TURN / 2;

/// The extent of a grid.
pub fn extent(grid: &Grid) -> Area {
    let (lon, lat) = (grid.lon + (grid.ni - 1) * grid.dlon, grid.lat + (grid.nj - 1) * grid.dlat);
    Area { west: grid.lon.min(lon), east: grid.lon.max(lon), south: grid.lat.min(lat), north: grid.lat.max(lat) }
}

/// Place behind a grid's last node.
pub fn end(grid: &Grid, parameters: i64) -> i64 {
    grid.start + grid.ni * grid.nj * parameters
}

/// Whether a point lies in an area.
pub fn holds(area: &Area, lon: i64, lat: i64) -> bool {
    area.west <= lon && lon <= area.east && area.south <= lat && lat <= area.north
}

/// Whether two areas share a coordinate.
pub fn meet(a: &Area, b: &Area) -> bool {
    a.west <= b.east && b.west <= a.east && a.south <= b.north && b.south <= a.north
}

/// Whether grids of two extents hold a common point: one of them begins, on the way east, before the other ends.
pub fn share(a: &Area, b: &Area) -> bool {
    let ahead = (b.west - a.west).rem_euclid(TURN);
    (ahead <= a.east - a.west || TURN - ahead <= b.east - b.west) && a.south <= b.north && b.south <= a.north
}

/// Where a grid has a point of this longitude, if it holds it: at the longitude itself or a turn from it.
pub fn longitude_used(extent: &Area, lon: i64) -> i64 {
    if lon < extent.west {
        lon + TURN
    } else if lon > extent.east {
        lon - TURN
    } else {
        lon
    }
}

/// The points that a grid holds, as rectangles within the longitudes of points, each with the turn from there to the grid. A
/// point in two of them belongs to the first.
pub fn pieces(extent: &Area) -> impl Iterator<Item = (Area, i64)> {
    let &Area { west, east, south, north } = extent;
    let turns: &[i64] = if -LONGITUDE < west && east < LONGITUDE { &[0] } else { &[0, TURN, -TURN] };
    let turned = move |&turn: &i64| {
        let (west, east) = ((west - turn).max(-LONGITUDE), (east - turn).min(LONGITUDE));
        (Area { west, east, south, north }, turn)
    };
    turns.iter().map(turned).filter(|(piece, _)| piece.west <= piece.east)
}
