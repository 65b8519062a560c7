//! Longitudes as headers and areas write them, and those that points have: a grid from 179 to 181 degrees holds a point at -179
//! degrees, since a whole turn on it is at 181.

/// A whole turn of longitude, in milliarcseconds: the widest grid, and the greatest longitude of a grid's edge.
pub const TURN: i64 = 1_296_000_000;

/// The greatest longitude of a point, and the greatest latitude.
pub const HALF_TURN: i64 = TURN / 2;
pub const POLE: i64 = TURN / 4;

/// The least and the greatest of a grid's coordinates along an axis.
pub fn extent(first: i64, spacing: i64, count: i64) -> [i64; 2] {
    let last = first + spacing * (count - 1);
    [first.min(last), first.max(last)]
}

/// Whether a number is at most so great in size.
pub fn within(most: i64, number: i64) -> bool {
    (-most..=most).contains(&number)
}

/// The longitudes of points that a grid of an extent holds, a whole turn on or back too: one run or two, from its west edge on.
pub fn of_points([west, east]: [i64; 2]) -> Vec<[i64; 2]> {
    if east - west >= TURN - 1 {
        return vec![[-HALF_TURN, HALF_TURN]];
    }
    let run = |turn: i64| [(west - turn).max(-HALF_TURN), (east - turn).min(HALF_TURN)];
    [-TURN, 0, TURN].map(run).into_iter().filter(|[from, to]| from <= to).collect()
}

/// The longitude that a point can have at this one: itself, or a turn back or on.
pub fn turned(lon: i64) -> Option<i64> {
    [lon, lon.saturating_sub(TURN), lon.saturating_add(TURN)].into_iter().find(|&turned| within(HALF_TURN, turned))
}

/// The longitudes of points from the west side of an area on to its east side: one run, or two across the 180 degree meridian.
pub fn eastward(west: i64, east: i64) -> Option<Vec<[i64; 2]>> {
    let (from, to) = (turned(west)?, turned(east)?);
    Some(if east - west >= TURN {
        vec![[-HALF_TURN, HALF_TURN]]
    } else if from <= to {
        vec![[from, to]]
    } else {
        vec![[from, HALF_TURN], [-HALF_TURN, to]]
    })
}

/// By how much longitudes have to be raised, if at all, for an extent to meet another: 0 where they meet as they are written.
pub fn raised_to_meet(one: [i64; 2], other: [i64; 2]) -> Option<i64> {
    let turns = [0, TURN, -TURN, 2 * TURN, -2 * TURN];
    turns.into_iter().find(|turn| one[0] + turn <= other[1] && other[0] <= one[1] + turn)
}

#[cfg(test)]
mod tests {
    use super::{HALF_TURN, TURN, eastward, of_points, raised_to_meet, turned};

    const DEGREE: i64 = 3_600_000;

    #[test]
    fn the_longitudes_of_points_are_those_that_a_turn_leads_into_the_extent() {
        let degrees = |[west, east]: [i64; 2]| -> Vec<[i64; 2]> {
            of_points([west * DEGREE, east * DEGREE]).into_iter().map(|run| run.map(|mas| mas / DEGREE)).collect()
        };
        assert_eq!(degrees([-10, 10]), [[-10, 10]]);
        assert_eq!(degrees([179, 181]), [[179, 180], [-180, -179]]);
        assert_eq!(degrees([-181, -179]), [[179, 180], [-180, -179]]);
        assert_eq!(degrees([181, 190]), [[-179, -170]]);
        assert_eq!(degrees([170, 180]), [[170, 180], [-180, -180]]);
        assert_eq!(degrees([-180, -170]), [[180, 180], [-180, -170]]);
        assert_eq!(degrees([350, 360]), [[-10, 0]]);
        assert_eq!(degrees([-360, -350]), [[0, 10]]);
        for whole in [[-180, 180], [-200, 160], [0, 360], [-360, 0]] {
            assert_eq!(degrees(whole), [[-180, 180]]);
        }
        for extent in
            [[-7, TURN - 9], [-HALF_TURN - 5, HALF_TURN - 7], [3, TURN], [HALF_TURN, TURN], [-TURN, -HALF_TURN]]
        {
            let runs = of_points(extent);
            for lon in [-HALF_TURN, -HALF_TURN + 1, -9, -8, -7, -6, -1, 0, 1, 2, 3, 4, HALF_TURN - 6, HALF_TURN] {
                let held = [lon, lon + TURN, lon - TURN].iter().any(|turn| (extent[0]..=extent[1]).contains(turn));
                assert_eq!(runs.iter().any(|[from, to]| (from..=to).contains(&&lon)), held, "{lon} in {extent:?}");
            }
        }
    }

    #[test]
    fn a_longitude_beyond_half_a_turn_is_turned_if_a_turn_is_enough() {
        assert_eq!(turned(HALF_TURN + 1), Some(1 - HALF_TURN));
        assert_eq!(turned(-181 * DEGREE), Some(179 * DEGREE));
        assert_eq!(turned(3 * HALF_TURN), Some(HALF_TURN));
        for lon in [0, HALF_TURN, -HALF_TURN] {
            assert_eq!(turned(lon), Some(lon));
        }
        for lon in [3 * HALF_TURN + 1, i64::MAX, i64::MIN] {
            assert_eq!(turned(lon), None, "{lon}");
        }
    }

    #[test]
    fn an_area_goes_eastward_from_its_west_side() {
        let degrees = |west: i64, east: i64| {
            let runs = eastward(west * DEGREE, east * DEGREE)?;
            Some(runs.into_iter().map(|run| run.map(|mas| mas / DEGREE)).collect::<Vec<_>>())
        };
        for (west, east) in [(179, 181), (179, -179), (-181, -179)] {
            assert_eq!(degrees(west, east), Some(vec![[179, 180], [-180, -179]]), "{west} to {east}");
        }
        assert_eq!(degrees(181, 190), Some(vec![[-179, -170]]));
        assert_eq!(degrees(350, 10), Some(vec![[-10, 10]]));
        for (west, east) in [(0, 360), (-200, 160), (-190, 190)] {
            assert_eq!(degrees(west, east), Some(vec![[-180, 180]]), "{west} to {east}");
        }
        assert_eq!(degrees(0, 541), None);
        assert_eq!(eastward(i64::MIN, i64::MAX), None);
    }

    #[test]
    fn extents_meet_as_written_or_some_turns_apart() {
        let raised =
            |one: [i64; 2], other: [i64; 2]| raised_to_meet(one.map(|x| x * DEGREE), other.map(|x| x * DEGREE));
        assert_eq!(raised([0, 10], [10, 20]), Some(0));
        assert_eq!(raised([0, 10], [11, 20]), None);
        assert_eq!(raised([-180, -170], [170, 180]), Some(TURN));
        assert_eq!(raised([170, 180], [-180, -170]), Some(-TURN));
        assert_eq!(raised([-360, -350], [350, 360]), Some(2 * TURN));
        assert_eq!(raised([170, 180], [-179, -170]), None);
    }
}
