//! The nodes of examples/world.txt: heights of a made-up geoid at every whole degree, in steps of 2 to the power -20 metre.
//!
//! With `arc`, a wave of two parabolas in place of the sine, the height at longitude L and latitude B, in degrees, is
//!
//!     arc(B + 90) * arc(2 L + 110)  +  arc(2 B) * arc(3 L)  +  3000 * arc(B)
//!
//! A wave of two crests round the equator with a low in the Indian Ocean, one of three crests which has its sign from the
//! hemisphere, and a slope from pole to pole. All of it is whole-number arithmetic, so that no two machines can differ. At
//! the poles the first two are 0, so that each has one height; and every wave goes whole into 360 degrees, so that the heights
//! at -180 and at 180 degrees are the same.

/// Columns from -180 to 180 degrees, rows from -90 to 90.
const COLUMNS: i64 = 361;
const ROWS: i64 = 181;

/// A wave of 360 degrees that goes from 0 up to 8,100 at 90 degrees, and down to -8,100 at 270.
fn arc(degrees: i64) -> i64 {
    let along = degrees.rem_euclid(180);
    let size = along * (180 - along);
    if degrees.rem_euclid(360) < 180 { size } else { -size }
}

/// The height at a longitude and a latitude in whole degrees, in steps.
fn height(lon: i64, lat: i64) -> i32 {
    let steps = arc(lat + 90) * arc(2 * lon + 110) + arc(2 * lat) * arc(3 * lon) + 3_000 * arc(lat);
    i32::try_from(steps).expect("a height is at most 2 * 8,100 * 8,100 + 3,000 * 8,100 steps")
}

/// The node file: rows from south to north, each from west to east, as 32-bit numbers, least byte first.
pub fn nodes() -> Vec<u8> {
    let rows = (0..ROWS).map(|j| j - 90);
    rows.flat_map(|lat| (0..COLUMNS).flat_map(move |i| height(i - 180, lat).to_le_bytes())).collect()
}

#[cfg(test)]
mod tests {
    use super::{COLUMNS, ROWS, arc, height, nodes};

    fn values() -> Vec<i32> {
        nodes().chunks_exact(4).map(|bytes| i32::from_le_bytes(bytes.try_into().unwrap())).collect()
    }

    #[test]
    fn arcs() {
        assert_eq!([0, 30, 90, 180, 210, 270, 360].map(arc), [0, 4_500, 8_100, 0, -4_500, -8_100, 0]);
        assert_eq!([-1, -90, -180, -270, 359, 450].map(arc), [-179, -8_100, 0, 8_100, -179, 8_100]);
    }

    #[test]
    fn heights_worked_out_by_hand() {
        // 8100 * arc(110) = 8100 * 7700
        assert_eq!(height(0, 0), 62_370_000);
        // arc(95) * arc(270) + arc(10) * arc(240) + 3000 * arc(5) = -8075 * 8100 - 1700 * 7200 + 3000 * 875
        assert_eq!(height(80, 5), -75_022_500);
        // arc(50) * arc(-90) + arc(-80) * arc(-300) - 3000 * arc(40) = -6500 * 8100 - 8000 * 7200 - 3000 * 5600
        assert_eq!(height(-100, -40), -127_050_000);
        // the poles: 3000 * arc(90) and 3000 * arc(-90)
        assert_eq!((height(17, 90), height(-101, -90)), (24_300_000, -24_300_000));
    }

    #[test]
    fn a_row_ends_as_it_begins() {
        for row in values().chunks(COLUMNS as usize) {
            assert_eq!(row.first(), row.last());
        }
    }

    #[test]
    fn a_pole_has_one_height() {
        let values = values();
        for pole in [&values[..COLUMNS as usize], &values[values.len() - COLUMNS as usize..]] {
            assert!(pole.iter().all(|value| value == &pole[0]));
        }
    }

    #[test]
    fn every_height_is_a_value() {
        let values = values();
        assert_eq!(values.len(), (COLUMNS * ROWS) as usize);
        assert!(values.iter().all(|&value| value != i32::MIN));
        assert_eq!(values.iter().min().zip(values.iter().max()), Some((&-132_328_000, &126_600_000)));
    }

    #[test]
    fn they_are_the_nodes_of_the_header() {
        let header = include_str!("../../../examples/world.txt");
        let grid = format!("\t-648000000\t-324000000\t3600000\t3600000\t{COLUMNS}\t{ROWS}\t1\t0\n");
        assert!(header.starts_with("group\tworld\tmetre\t20\t1\t0\t1\ngrid\t") && header.ends_with(&grid), "{header}");
    }
}
