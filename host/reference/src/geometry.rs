//! Extents of grids, the points that they hold and the ranges of their nodes.

use crate::limits;
use interface::{Grid, Group};

/// Once around the earth, and the most that a grid may be wide.
pub const TURN: i128 = 1_296_000_000;

/// A rectangle of whole coordinates, sides included.
#[derive(Clone, Copy, Debug, PartialEq, Eq)]
pub struct Extent {
    pub west: i128,
    pub east: i128,
    pub south: i128,
    pub north: i128,
}

impl Extent {
    pub fn width(&self) -> i128 {
        self.east - self.west
    }

    /// The longitude that a grid of this extent uses for a point at `lon`: the point's own, it plus a turn or it minus a turn,
    /// the first that lies in the extent; none if it doesn't hold the point.
    pub fn longitude_used(&self, lon: i128) -> Option<i128> {
        [lon, lon + TURN, lon - TURN].into_iter().find(|x| (self.west..=self.east).contains(x))
    }

    pub fn holds(&self, lon: i128, lat: i128) -> bool {
        self.longitude_used(lon).is_some() && (self.south..=self.north).contains(&lat)
    }

    /// Whether grids of both extents hold some admitted point. Of such points the westmost longitude is the least one admitted,
    /// or one at which either grid begins, turned or not; and either grid begins at their southmost latitude.
    pub fn meets(&self, other: &Extent) -> bool {
        let wests = [self, other].into_iter().flat_map(|e| turned(e.west)).chain([-limits::LONGITUDE]);
        let souths = [self.south, other.south];
        let both = |lon: i128, lat: i128| self.holds(lon, lat) && other.holds(lon, lat);
        wests.filter(|&lon| limits::longitude(lon)).any(|lon| souths.iter().any(|&lat| both(lon, lat)))
    }
}

/// Where a point may stand that a grid has at `lon`.
pub fn turned(lon: i128) -> [i128; 3] {
    [lon, lon - TURN, lon + TURN]
}

/// Longitude and latitude of the last node.
pub fn far_edge(g: &Grid) -> (i128, i128) {
    let last = |from: i64, spacing: i64, count: i64| i128::from(from) + (i128::from(count) - 1) * i128::from(spacing);
    (last(g.lon, g.dlon, g.ni), last(g.lat, g.dlat, g.nj))
}

/// From least to greatest in each direction.
pub fn extent(g: &Grid) -> Extent {
    let (lon, lat) = (i128::from(g.lon), i128::from(g.lat));
    let (far_lon, far_lat) = far_edge(g);
    Extent { west: lon.min(far_lon), east: lon.max(far_lon), south: lat.min(far_lat), north: lat.max(far_lat) }
}

/// Place in the node list just behind the grid's last node: START + NI·NJ·NP.
pub fn range_end(g: &Grid, parameters: i64) -> i128 {
    i128::from(g.start) + i128::from(g.ni) * i128::from(g.nj) * i128::from(parameters)
}

/// The counted grids of an accepted group.
pub fn grids(record: &Group) -> &[Grid] {
    &record.grid[..record.grids as usize]
}

/// Of the grids that hold the point, the index of the one with the lowest rank number.
pub fn chosen(grids: &[Grid], lon: i128, lat: i128) -> Option<usize> {
    (0..grids.len()).filter(|&k| extent(&grids[k]).holds(lon, lat)).min_by_key(|&k| grids[k].rank)
}
