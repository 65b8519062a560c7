//! What is said of a header that is refused by 1, 2, 4 or 5: the words tell what stands in it; number and place are the library's.

use crate::program::{Folder, HEADER, accepted, refused};

/// The header with one part replaced must be refused so.
fn refuses(folder: &Folder, part: &str, by: &str, number: u64, place: u64, words: &str) {
    assert!(HEADER.contains(part), "{part:?}");
    let text = HEADER.replacen(part, by, 1);
    assert_eq!(folder.run_with(&["check", "-"], text.as_bytes()), refused(number, place, words), "{text:?}");
}

#[test]
fn refusal_1_says_what_is_not_of_the_form() {
    let folder = Folder::new("hints-1");
    let whole = "a whole number, as 12, 0 or -5, without plus or leading zero";
    let name = "1 to 24 of A to Z, a to z, 0 to 9, _ and -";
    for (part, by, place, words) in [
        ("group", "\u{feff}group", 1, "the file begins with a byte order mark; save it as plain ASCII".to_string()),
        ("000000\n", "000000\r\n", 2, "line 2 ends in CR: lines are closed by a line feed alone".into()),
        ("1\t0\n", "1\t0\r\n", 3, "line 3 ends in CR: lines are closed by a line feed alone".into()),
        ("1\t0\n", "1\t0", 3, "line 3 is not closed by a line feed".into()),
        ("1\t0\n", "1\t0\n\n", 4, "bytes stand behind the last grid line: line 1 counts 1 function and 1 grid".into()),
        ("1\t0\n", "1\t0\n#", 4, "bytes stand behind the last grid line: line 1 counts 1 function and 1 grid".into()),
        (
            "1\t1\t1",
            "1\t1\t2",
            4,
            "the header ends before line 4, a grid line: line 1 counts 1 function and 2 grids".into(),
        ),
        ("ramp", "\nramp", 2, "line 2 is empty, but must be a ramp, step or ramp2 line".into()),
        (
            "1\t1\t1",
            "1\t0\t1",
            2,
            "line 2 begins with 'ramp', but must begin with 'grid'; line 1 counts 0 functions and 1 grid".into(),
        ),
        (
            "ramp\t100\t0\t200\t",
            "ramp 100 0 200 ",
            2,
            "line 2 begins with 'ramp 100 0 200 1000000', but must begin with 'ramp', 'step' or 'ramp2'; \
             fields are parted by tabs"
                .into(),
        ),
        ("group", "grid", 1, "line 1 begins with 'grid', but must begin with 'group'".into()),
        ("\t200", "", 2, "line 2 has 4 fields parted by tabs, but a ramp line has 5: ramp A S0 B S1".into()),
        ("metre", "meter", 1, "line 1: UNIT is 'meter', but must be arc-second or metre".into()),
        ("dock", "the dock", 1, format!("line 1: NAME is 'the dock', but must be {name}")),
        (
            "basin",
            "basin-with-a-name-of-25-by",
            3,
            format!("line 3: NAME is 'basin-with-a-name-of-25-by', but must be {name}"),
        ),
        ("13", "013", 1, format!("line 1: Q is '013', but must be {whole}")),
        ("200", "+200", 2, format!("line 2: B is '+200', but must be {whole}")),
    ] {
        refuses(&folder, part, by, 1, place, &words);
    }
    let utf16 = [0xff, 0xfe, b'g', 0, b'r', 0];
    let words = "the file begins with a byte order mark of UTF-16; save it as plain ASCII";
    assert_eq!(folder.run_with(&["check", "-"], &utf16), refused(1, 1, words));
}

#[test]
fn refusal_1_says_that_a_function_stands_behind_the_grids() {
    let folder = Folder::new("hints-behind");
    let counted = "line 1 counts 1 function and 1 grid";
    for (word, line) in [
        ("step", "step\t300\t0\t1000000\n"),
        ("ramp", "ramp\t100\t0\t200\t1000000\n"),
        ("ramp2", "ramp2\t100\t200\t150\t1000000"),
    ] {
        let words =
            format!("a {word} line stands behind the last grid line: {counted}; functions stand before the grids");
        refuses(&folder, "1\t0\n", &format!("1\t0\n{line}"), 1, 4, &words);
    }
    for line in ["steps\t300\t0\t1000000\n", "step 300 0 1000000\n", "grid\tpier\t90\t0\t10\t10\t3\t2\t1\t0\n"] {
        let words = format!("bytes stand behind the last grid line: {counted}");
        refuses(&folder, "1\t0\n", &format!("1\t0\n{line}"), 1, 4, &words);
    }
}

#[test]
fn refusal_1_says_what_line_1_counts_where_a_grid_is_due() {
    let folder = Folder::new("hints-due");
    for word in ["ramp", "ramps", "Grid"] {
        let text = HEADER.replacen("1\t1\t1", "1\t0\t1", 1).replacen("ramp", word, 1);
        let words =
            format!("line 2 begins with '{word}', but must begin with 'grid'; line 1 counts 0 functions and 1 grid");
        assert_eq!(folder.run_with(&["check", "-"], text.as_bytes()), refused(1, 2, &words));
    }
    refuses(&folder, "group", "groups", 1, 1, "line 1 begins with 'groups', but must begin with 'group'");
}

#[test]
fn refusal_1_writes_the_fields_of_a_group_as_the_rules_do() {
    let folder = Folder::new("hints-group");
    let words = "line 1 has 6 fields parted by tabs, but a group line has 7: group NAME UNIT Q NP FUNCTIONS GRIDS";
    refuses(&folder, "1\t1\t1", "1\t1", 1, 1, words);
}

#[test]
fn refusal_2_names_the_number_and_its_limit() {
    let folder = Folder::new("hints-2");
    for (part, by, place, words) in [
        ("13", "21", 1, "line 1: Q is 21, its limit is 0 to 20"),
        ("13", "-1", 1, "line 1: Q is -1, its limit is 0 to 20"),
        ("13\t1", "13\t4", 1, "line 1: NP is 4, its limit is 1 to 3"),
        ("1\t1\t1", "1\t9\t1", 1, "line 1: the count of functions is 9, its limit is 0 to 8"),
        ("1\t1\t1", "1\t1\t0", 1, "line 1: the count of grids is 0, its limit is 1 to 64"),
        ("\t100\t", "\t1000001\t", 2, "line 2: A is 1000001, its limit is -1000000 to 1000000"),
        ("\t100\t", "\t201\t", 2, "line 2: A is 201, above B, which is 200"),
        ("1000000", "10000001", 2, "line 2: S1 is 10000001, its limit is -10000000 to 10000000"),
        ("basin\t0", "basin\t1296000001", 3, "line 3: LON is 1296000001, its limit is -1296000000 to 1296000000"),
        ("10\t10", "0\t10", 3, "line 3: DLON is 0, its limit is 1 to 36000000 in size"),
        ("10\t10", "10\t-36000001", 3, "line 3: DLAT is -36000001, its limit is 1 to 36000000 in size"),
        ("3\t2\t1\t0", "1\t2\t1\t0", 3, "line 3: NI is 1, its limit is 2 to 16384"),
        ("3\t2\t1\t0", "3\t2\t1001\t0", 3, "line 3: RANK is 1001, its limit is 1 to 1000"),
        ("3\t2\t1\t0", "3\t2\t1\t16777216", 3, "line 3: START is 16777216, its limit is 0 to 16777215"),
    ] {
        refuses(&folder, part, by, 2, place, words);
    }
}

#[test]
fn refusal_4_says_how_far_the_grid_reaches() {
    let folder = Folder::new("hints-4");
    for (part, by, words) in [
        (
            "basin\t0",
            "basin\t1295999990",
            "reaches from longitude 1295999990 to 1296000010, beyond ±1296000000; check LON, DLON and NI",
        ),
        (
            "basin\t0\t0",
            "basin\t0\t323999995",
            "reaches from latitude 323999995 to 324000005, beyond ±324000000; check LAT, DLAT and NJ",
        ),
        (
            "3\t2\t1\t0",
            "3\t2\t1\t16777215",
            "needs 16777221 values in the node list, which has at most 16777216; check START, NI and NJ",
        ),
    ] {
        refuses(&folder, part, by, 4, 1, &format!("grid 1 (basin) {words}"));
    }
}

#[test]
fn refusal_4_says_how_a_grid_that_is_too_wide_is_cut() {
    let folder = Folder::new("hints-wide");
    for (by, width, most) in [
        ("-700000000\t0\t1000000\t10\t1401", 1_400_000_000, 1297),
        ("648000001\t0\t-999999\t10\t1298", 1_296_998_703, 1297),
        ("-648000000\t0\t100001\t10\t12961", 1_296_012_960, 12960),
    ] {
        let words = format!(
            "grid 1 (basin) is {width} wide, more than a whole turn, 1296000000; \
             cut it: with this DLON NI is at most {most}"
        );
        refuses(&folder, "0\t0\t10\t10\t3", by, 4, 1, &words);
    }
}

/// Two grids of rank 7 from these longitudes on, each 20 wide, at the same latitudes.
fn two_grids(west: i64, east: i64) -> String {
    format!(
        "group\ttwo\tmetre\t0\t1\t0\t3\ngrid\tnone\t0\t300\t10\t10\t2\t2\t7\t0\n\
        grid\twest\t{west}\t0\t10\t10\t3\t2\t7\t0\ngrid\teast\t{east}\t10\t10\t10\t3\t2\t7\t0\n"
    )
}

#[test]
fn refusal_5_names_both_grids() {
    let folder = Folder::new("hints-5");
    let words = "grid 3 (east) meets grid 2 (west), and both have rank 7; give one of them another";
    for east in [0, 20, -20] {
        assert_eq!(folder.run_with(&["check", "-"], two_grids(0, east).as_bytes()), refused(5, 3, words), "{east}");
    }
    assert_eq!(folder.run_with(&["check", "-"], two_grids(0, 21).as_bytes()), accepted("accepted\n"));
}

#[test]
fn refusal_5_says_so_where_grids_meet_across_the_meridian() {
    let folder = Folder::new("hints-across");
    let checked = |west: i64, east: i64| folder.run_with(&["check", "-"], two_grids(west, east).as_bytes());
    for (west, east, raised) in [
        (-648_000_000, 647_999_980, "-1296000000"),
        (647_999_980, -648_000_000, "+1296000000"),
        (0, 1_295_999_980, "-1296000000"),
        (1_295_999_980, -1_296_000_000, "+2592000000"),
    ] {
        let words = format!(
            "grid 3 (east) meets grid 2 (west) across the 180° meridian (its longitudes {raised}), \
             and both have rank 7; give one of them another"
        );
        assert_eq!(checked(west, east), refused(5, 3, &words), "{west} {east}");
    }
    assert_eq!(checked(-648_000_000, 647_999_979), accepted("accepted\n"));
}
