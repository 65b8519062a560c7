//! The hole of an area: row by row, from grid to grid along each.

use crate::group::{meet, pieces};
use crate::judge::judge_area;
use interface::{Area, Group, Refusal};

/// The southmost, then westmost coordinate of an area that no grid holds. Behind a row that grids cover together comes the one
/// above the lowest of their north sides.
pub fn hole(group: &Group, area: Area) -> Result<Option<(i64, i64)>, Refusal> {
    let extents = judge_area(group, &area)?;
    let grids = &extents[..group.grids as usize];
    let mut cover: Vec<Area> = Vec::with_capacity(grids.len());
    for grid in grids {
        cover.extend(pieces(grid).map(|(piece, _)| piece).filter(|piece| meet(piece, &area)));
    }
    cover.sort_unstable_by_key(|piece| piece.west);
    let mut lat = area.south;
    while lat <= area.north {
        let (lon, north) = along(&cover, area.west, lat);
        if lon <= area.east {
            return Ok(Some((lon, lat)));
        }
        lat = north + 1;
    }
    Ok(None)
}

/// The westmost longitude of a row, from `lon` on, that no grid holds, and the lowest north side of those that were passed; their
/// pieces rise by west side.
fn along(cover: &[Area], mut lon: i64, lat: i64) -> (i64, i64) {
    let mut north = i64::MAX;
    for piece in cover {
        if piece.west > lon {
            break;
        }
        if piece.south <= lat && lat <= piece.north && lon <= piece.east {
            (lon, north) = (piece.east + 1, north.min(piece.north));
        }
    }
    (lon, north)
}
