//! The 180 degree meridian: points on both sides of it, areas across it, and how grids that reach beyond it are shown.

use crate::program::{Answer, Folder, accepted, failed, refused, refused_at, with_example, words};

const OUTSIDE: &str = "the point is outside longitude ±648000000 or latitude ±324000000";

#[test]
fn a_grid_is_used_on_both_sides() {
    let folder = with_example("meridian-points", "pacific");
    let lines = "fix\t646200000\t-60300000\t0\tlagoon\t1984\nfix\t-646200000\t-60300000\t0\tlagoon\t3520\n\
        fix\t648000000\t-60300000\t0\tlagoon\t2752\nfix\t-648000000\t-60300000\t0\tlagoon\t2752\n\
        fix\t642600000\t-60300000\t0\tsea\t1280\nfix\t-642600000\t-60300000\t0\tsea\t2816\n\
        refused\t7\t0\t-640799999\t-60300000\t0\nrefused\t6\t0\t649800000\t-60300000\t0\n";
    let said = "bulhyemik: point 7 refused: no grid holds the point\n";
    let turn = format!("bulhyemik: point 8 refused: {OUTSIDE}; for longitude 649800000 write -646200000\n");
    let answer = folder.shell("\"$PROGRAM\" lookup txt nodes < points");
    assert_eq!(answer, Answer { status: 1, out: lines.into(), err: format!("{said}{turn}") });
}

#[test]
fn the_screen_shows_the_degrees_of_the_point_as_given() {
    let folder = with_example("meridian-screen", "pacific");
    for (lon, degrees, level) in
        [(646_200_000, "179.5", 1.9375), (-646_200_000, "-179.5", 3.4375), (-648_000_000, "-180", 2.6875)]
    {
        let line = format!("shown\t{degrees}\t-16.75\t0\tlagoon\t{level}\n");
        assert_eq!(folder.run(&format!("screen txt nodes {lon} -60300000 0")), accepted(&line));
    }
}

/// A folder with a grid of two rows from a longitude on, as wide as a turn, with 5 in the first column, 9 in the last and 0 between.
fn turn_wide(name: &str, from: i64) -> Folder {
    let folder = Folder::new(name);
    let header = format!("group\tearth\tmetre\t0\t1\t0\t1\ngrid\tall\t{from}\t0\t1000000\t10\t1297\t2\t1\t0\n");
    folder.put("earth.txt", header.as_bytes());
    let mut row = [0i32; 1297];
    (row[0], row[1296]) = (5, 9);
    folder.put("earth.nodes", &words(&[row, row].concat().iter().map(|node| node.to_le_bytes()).collect::<Vec<_>>()));
    folder
}

#[test]
fn where_a_grid_holds_a_place_twice_the_longitude_as_given_is_used() {
    for (from, lon, value) in [
        (-648_000_000, -648_000_000, 5),
        (-648_000_000, 648_000_000, 9),
        (0, 0, 5),
        (-1_296_000_000, 0, 9),
        (-1_000_000_000, 296_000_000, 9),
        (-296_000_000, -296_000_000, 5),
    ] {
        let folder = turn_wide("meridian-turn", from);
        let fix = format!("fix\t{lon}\t0\t0\tall\t{value}\n");
        assert_eq!(folder.run(&format!("lookup earth.txt earth.nodes {lon} 0 0")), accepted(&fix), "from {from}");
    }
    let folder = turn_wide("meridian-earth", -720_000_000);
    assert_eq!(folder.run("lookup earth.txt earth.nodes 576000000 0 0"), accepted("fix\t576000000\t0\t0\tall\t9\n"));
    assert_eq!(folder.run("hole earth.txt -648000000 648000000 0 10"), accepted("none\n"));
}

#[test]
fn a_grid_that_ends_at_the_meridian_holds_it_from_both_sides() {
    let folder = Folder::new("meridian-edge");
    let header = "group\tedge\tmetre\t0\t1\t0\t1\ngrid\twest\t647999990\t0\t10\t10\t2\t2\t1\t0\n";
    folder.put("edge.txt", header.as_bytes());
    folder.put("edge.nodes", &words(&[1, 2, 3, 4].map(i32::to_le_bytes)));
    for lon in [648_000_000, -648_000_000] {
        let fix = format!("fix\t{lon}\t0\t0\twest\t2\n");
        assert_eq!(folder.run(&format!("lookup edge.txt edge.nodes {lon} 0 0")), accepted(&fix));
    }
    let beyond = folder.run("lookup edge.txt edge.nodes -647999999 0 0");
    assert_eq!(beyond, refused_at(7, 0, [-647_999_999, 0, 0], "no grid holds the point"));
    assert_eq!(folder.run("inforce edge.txt -648000000 648000000 0 0"), accepted("1\twest\t-648000000\t0\n"));
    assert_eq!(folder.run("hole edge.txt -648000000 648000000 0 0"), accepted("hole\t-647999999\t0\n"));
}

#[test]
fn a_longitude_that_has_to_be_turned_is_named_with_the_one_to_write() {
    let folder = Folder::new("meridian-limits");
    for (lon, write) in
        [(648_000_001, "-647999999"), (-648_000_001, "647999999"), (1_296_000_000, "0"), (-1_296_000_000, "0")]
    {
        let words = format!("{OUTSIDE}; for longitude {lon} write {write}");
        let point = format!("dock.txt dock.nodes {lon} 0 0");
        assert_eq!(folder.run(&format!("lookup {point}")), refused_at(6, 0, [lon, 0, 0], &words));
        assert_eq!(folder.run(&format!("screen {point}")), refused_at(6, 0, [lon, 0, 0], &words));
        let object = folder.run(&format!("lookup --json {point}")).out;
        assert!(object.ends_with(&format!(",\"refused\":6,\"place\":0,\"words\":\"{words}\"}}\n")), "{object}");
        let log = format!("fix\t{lon}\t0\t0\tbasin\t0\n");
        let judged = folder.run_with(&["judge", "dock.txt", "dock.nodes", "-"], log.as_bytes());
        assert_eq!(judged, failed(1, "lookup refused", &format!("line 1: the lookup is refused: {words}")));
    }
    let far = folder.run("lookup dock.txt dock.nodes 1944000001 0 0");
    assert_eq!(far, refused_at(6, 0, [1_944_000_001, 0, 0], OUTSIDE));
}

#[test]
fn an_area_across_the_meridian_is_asked_for_in_two_calls() {
    let folder = with_example("meridian-areas", "pacific");
    let west = accepted("1\tlagoon\t644400000\t-61200000\n2\tsea\t640800000\t-62100000\n");
    let east = accepted("1\tlagoon\t-648000000\t-61200000\n2\tsea\t-648000000\t-62100000\n");
    assert_eq!(folder.run("inforce txt 640800000 648000000 -62100000 -58500000"), west);
    assert_eq!(folder.run("inforce txt -648000000 -640800000 -62100000 -58500000"), east);
    assert_eq!(folder.run("inforce txt -648000000 648000000 -324000000 324000000"), east, "the whole width");
    assert_eq!(folder.run("hole txt 640800000 648000000 -62100000 -58500000"), accepted("none\n"));
    assert_eq!(folder.run("hole txt -648000000 -640800000 -62100000 -58500000"), accepted("none\n"));
    let whole = folder.run("hole txt -648000000 648000000 -62100000 -58500000");
    assert_eq!(whole, accepted("hole\t-640799999\t-62100000\n"));
}

#[test]
fn an_area_that_is_refused_is_told_how_to_ask() {
    let folder = Folder::new("meridian-refused");
    let two = "an area across the 180° meridian needs two calls";
    let outside = "a side is outside longitude ±648000000";
    for (area, words) in [
        (
            "644400000 -644400000 -3 5",
            format!(
                "west is 644400000, above east, which is -644400000; \
                 {two}: 644400000 648000000 -3 5 and -648000000 -644400000 -3 5"
            ),
        ),
        ("1 0 0 0", format!("west is 1, above east, which is 0; {two}: 1 648000000 0 0 and -648000000 0 0 0")),
        (
            "644400000 651600000 -3 5",
            format!("{outside}; {two}: 644400000 648000000 -3 5 and -648000000 -644400000 -3 5"),
        ),
        (
            "-651600000 -644400000 -3 5",
            format!("{outside}; {two}: 644400000 648000000 -3 5 and -648000000 -644400000 -3 5"),
        ),
        ("651600000 684000000 0 0", format!("{outside}; ask for -644400000 -612000000 0 0")),
        ("1260000000 36000000 0 0", format!("{outside}; ask for -36000000 36000000 0 0")),
        ("0 1296000000 0 0", format!("{outside}; ask for -648000000 648000000 0 0")),
        ("-99999999999999999999 99999999999999999999 0 0", outside.into()),
        ("1 0 2 1", "south is 2, above north, which is 1".into()),
        ("1 0 0 324000001", "a side is outside latitude ±324000000".into()),
    ] {
        for command in ["inforce", "hole"] {
            assert_eq!(folder.run(&format!("{command} dock.txt {area}")), refused(10, 0, &words), "{command} {area}");
        }
    }
}

#[test]
fn grids_shows_extents_as_written_and_the_longitudes_of_points_below() {
    let folder = with_example("meridian-grids", "pacific");
    let table = "   \
        grid    rank  axis         from mas      to mas  from degrees    to degrees  spacing  nodes  first value  last\n\
        1  lagoon     1  longitude   644400000   651600000   179.0000000   181.0000000   600000     13            0    51\n                 \
        points      644400000   648000000   179.0000000   180.0000000\n                 \
        points     -648000000  -644400000  -180.0000000  -179.0000000\n                 \
        latitude    -61200000   -59400000   -17.0000000   -16.5000000   600000      4\n\
        2  sea        2  longitude  -655200000  -640800000  -182.0000000  -178.0000000   900000     17           52   136\n                 \
        points      640800000   648000000   178.0000000   180.0000000\n                 \
        points     -648000000  -640800000  -180.0000000  -178.0000000\n                 \
        latitude    -62100000   -58500000   -17.2500000   -16.2500000   900000      5\n";
    assert_eq!(folder.run("grids txt"), accepted(table));
    let lines = "1\tlagoon\t1\t644400000\t651600000\t-61200000\t-59400000\t600000\t600000\t13\t4\t0\t51\n\
        2\tsea\t2\t-655200000\t-640800000\t-62100000\t-58500000\t900000\t900000\t17\t5\t52\t136\n";
    assert_eq!(folder.run("grids --tsv txt"), accepted(lines));
}
