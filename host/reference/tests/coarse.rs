//! Coarse world grids and the greatest node values (order 6), with answers worked out by hand.

use interface::{Group, MARK, Position, Refusal};
use reference::{judge, judge_log, load_nodes, lookup, read_header, write_log_line};

/// The greatest node value.
const MOST: i32 = 2_147_483_647;

/// A group of one grid with these spacings in both directions, its first node at 0, 0, with as many nodes and ramps.
fn header(spacing: i64, nodes: i64, parameters: i64, ramps: usize) -> String {
    let ramp = "ramp\t0\t10000000\t1\t10000000\n".repeat(ramps);
    let grid = format!("grid\tworld\t0\t0\t{spacing}\t{spacing}\t{nodes}\t{nodes}\t1\t0\n");
    format!("group\tcoarse\tmetre\t0\t{parameters}\t{ramps}\t1\n{ramp}{grid}")
}

fn group(text: &str) -> Group {
    read_header(text.as_bytes()).expect("an accepted header")
}

/// The first result of a lookup in a cell of the greatest spacing, or the number of its refusal.
fn result(corners: [i32; 4], lon: i64, lat: i64) -> Result<i64, u64> {
    let found = lookup(&group(&header(36_000_000, 2, 1, 0)), &corners, Position { lon, lat, day: 0 });
    found.map(|fix| fix.result[0]).map_err(|refusal| refusal.number)
}

#[test]
fn spacings_go_to_36_million() {
    for spacing in [1, -1, 1_000_001, 3_600_000, 36_000_000, -36_000_000] {
        let record = group(&header(spacing, 2, 1, 0));
        assert_eq!(judge(&record), Ok(()), "{spacing}");
    }
    for spacing in [0, 36_000_001, -36_000_001] {
        let text = header(spacing, 2, 1, 0);
        assert_eq!(
            read_header(text.as_bytes()).expect_err("it is refused"),
            Refusal { number: 2, place: 2 },
            "{spacing}"
        );
        let mut record = group(&header(1, 2, 1, 0));
        record.grid[0].dlat = spacing;
        assert_eq!(judge(&record), Err(Refusal { number: 2, place: 2 }), "{spacing}");
    }
    let degrees = "grid\tearth\t-648000000\t-324000000\t3600000\t3600000\t361\t181\t1\t0\n";
    assert_eq!(judge(&group(&format!("group\tgeoid\tmetre\t10\t1\t0\t1\n{degrees}"))), Ok(()));
}

/// In the middle of a cell all weights are alike, so that the value is the mean of the corners.
#[test]
fn the_mean_of_the_greatest_corners_is_rounded_to_even() {
    let middle = |corners| result(corners, 18_000_000, 18_000_000);
    assert_eq!(middle([MOST; 4]), Ok(2_147_483_647));
    assert_eq!(middle([-MOST; 4]), Ok(-2_147_483_647));
    assert_eq!(middle([MOST, -MOST, MOST, -MOST]), Ok(0));
    // 1,073,741,823.5
    assert_eq!(middle([MOST, MOST, MOST, -MOST]), Ok(1_073_741_824));
    assert_eq!(middle([-MOST, -MOST, -MOST, MOST]), Ok(-1_073_741_824));
    // 2,147,483,646.5 and 2,147,483,645.5
    assert_eq!(middle([MOST, MOST, MOST - 1, MOST - 1]), Ok(2_147_483_646));
    assert_eq!(middle([MOST - 1, MOST - 2, MOST - 2, MOST - 1]), Ok(2_147_483_646));
    assert_eq!(middle([-MOST, -MOST, 1 - MOST, 1 - MOST]), Ok(-2_147_483_646));
    // a quarter and three quarters beside them
    assert_eq!(middle([MOST, MOST, MOST, MOST - 1]), Ok(2_147_483_647));
    assert_eq!(middle([MOST, MOST - 1, MOST - 1, MOST - 1]), Ok(2_147_483_646));
}

#[test]
fn off_the_middle_the_weights_count() {
    // 2,147,483,647 less 4,294,967,294 over 36,000,000, which is 119.30..
    assert_eq!(result([MOST, -MOST, 0, 0], 1, 0), Ok(2_147_483_528));
    assert_eq!(result([-MOST, MOST, 0, 0], 1, 0), Ok(-2_147_483_528));
    // 1 away from the last node in both directions: 2,147,483,647 less 71,999,999 · 4,294,967,294 over 36,000,000², 238.60..
    assert_eq!(result([-MOST, -MOST, -MOST, MOST], 35_999_999, 35_999_999), Ok(2_147_483_408));
    assert_eq!(result([-MOST, -MOST, -MOST, MOST], 36_000_000, 36_000_000), Ok(2_147_483_647));
    assert_eq!(result([MOST, -MOST, -MOST, -MOST], 1, 36_000_000), Ok(-2_147_483_647));
    assert_eq!(result([0, 1, 0, 1], 18_000_000, 7), Ok(0));
    assert_eq!(result([0, 1, 0, 1], 18_000_001, 7), Ok(1));
    assert_eq!(result([1, 2, 1, 2], 18_000_000, 7), Ok(2));
}

#[test]
fn a_used_corner_is_the_mark_or_a_value() {
    assert_eq!(result([5, MARK, 7, MARK], 0, 18_000_000), Ok(6));
    assert_eq!(result([5, MARK, 7, MARK], 1, 18_000_000), Err(8));
    assert_eq!(result([1 - MOST, MARK, -MOST, MARK], 0, 18_000_000), Ok(-2_147_483_646));
    assert_eq!(result([4_000_001, -4_000_001, MARK, MARK], 0, 0), Ok(4_000_001));
    assert_eq!(result([4_000_001, -4_000_001, MARK, MARK], 36_000_000, 0), Ok(-4_000_001));
}

#[test]
fn the_greatest_result_is_80_times_the_greatest_value() {
    let record = group(&header(36_000_000, 2, 3, 8));
    let (least, at) = (-171_798_691_760, Position { lon: 0, lat: 0, day: -1_000_000 });
    let nodes = [-MOST; 12];
    assert_eq!(lookup(&record, &nodes, at).map(|fix| fix.result), Ok([least; 3]));
    assert_eq!(lookup(&record, &[MOST; 12], at).map(|fix| fix.result), Ok([-least; 3]));
    let line = b"fix\t0\t0\t-1000000\tworld\t-171798691760\t-171798691760\t-171798691760\n";
    let mut out = vec![7; line.len()];
    assert_eq!(write_log_line(&record, &nodes, at, &mut out), Ok(line.len()));
    assert_eq!(out, line);
    assert_eq!(judge_log(&record, &nodes, line).map(|fault| fault.kind), Ok(0));
}

/// Floats below 2 to the power 31 are 128 apart.
#[test]
fn floats_load_up_to_the_greatest_value() {
    for quantum in [0, 7, 20] {
        let step = 0.5f32.powi(quantum as i32);
        let load = |float: f32, flag: f32| {
            let mut node = [7];
            let loaded = load_nodes(&[float * step], flag * step, quantum, &mut node);
            loaded.map(|()| node[0]).map_err(|refusal| (refusal.number, refusal.place))
        };
        assert_eq!(load(2_147_483_520.0, 1.0), Ok(2_147_483_520));
        assert_eq!(load(-2_147_483_520.0, 1.0), Ok(-2_147_483_520));
        assert_eq!(load(4_000_001.0, 1.0), Ok(4_000_001));
        for beyond in [2_147_483_648.0, -2_147_483_648.0, -2_147_483_904.0, f32::INFINITY, f32::NEG_INFINITY] {
            assert_eq!(load(beyond, 1.0), Err((11, 1)), "{beyond}");
            assert_eq!(load(beyond, beyond), Ok(MARK), "{beyond}");
        }
    }
}
