//! `judge`: logs that pass, the first bad line of those that don't, and what is said of it.

use crate::program::{Folder, accepted, example, failed, with_example, words};
use interface::{Calls, Group, LOG_LINE_BYTES, Position, Timed};
use reference::Reference;

const GOOD: &str = "fix\t5\t5\t200\tbasin\t55\n";

const WHOLE: &str = "a whole number, as 12, 0 or -5, without plus or leading zero";
const NAME: &str = "1 to 24 of A to Z, a to z, 0 to 9, _ and -";

/// A log of the dock with this line, between two good ones, must fail there.
fn fails(folder: &Folder, line: &str, kind: &str, words: &str) {
    let log = format!("{GOOD}{line}{GOOD}");
    let answer = folder.run_with(&["judge", "dock.txt", "dock.nodes", "-"], log.as_bytes());
    assert_eq!(answer, failed(2, kind, words), "{line:?}");
}

#[test]
fn a_log_passes_from_a_file_and_from_standard_input() {
    let folder = Folder::new("logs");
    let log = GOOD.repeat(2) + "fix\t20\t10\t200\tbasin\t120\nfix\t20\t10\t-1000000\tbasin\t0\n";
    folder.put("dock.log", log.as_bytes());
    assert_eq!(folder.run("judge dock.txt dock.nodes dock.log"), accepted("passed\t4\n"));
    assert_eq!(folder.run_with(&["judge", "dock.txt", "dock.nodes", "-"], log.as_bytes()), accepted("passed\t4\n"));
    let nodes = folder.get("dock.nodes");
    assert_eq!(folder.run_with(&["judge", "dock.txt", "-", "dock.log"], &nodes), accepted("passed\t4\n"));
    assert_eq!(folder.run("judge dock.txt dock.nodes -"), accepted("passed\t0\n"), "an empty log");
}

#[test]
fn what_lookup_prints_of_accepted_points_passes() {
    for (name, count) in [("harbour", 11), ("canyon", 5), ("pacific", 6)] {
        let folder = with_example(&format!("logs-{name}"), name);
        let line = "\"$PROGRAM\" lookup txt nodes < points 2> words | grep ^fix | \"$PROGRAM\" judge txt nodes -";
        assert_eq!(folder.shell(line), accepted(&format!("passed\t{count}\n")), "{name}");
        // the line of a refused point is none of a log
        let line = "\"$PROGRAM\" lookup txt nodes < points 2> words | \"$PROGRAM\" judge txt nodes -";
        let seen = "begins with 'refused', but must begin with 'fix'";
        let first = if name == "harbour" { 11 } else { count + 1 };
        assert_eq!(folder.shell(line), failed(first, "form", &format!("line {first} {seen}")), "{name}");
    }
}

#[test]
fn what_lookup_prints_is_what_the_writer_writes() {
    for name in ["harbour", "canyon", "pacific"] {
        let folder = with_example(&format!("logs-written-{name}"), name);
        let (mut group, mut place) = (Group::default(), 0);
        assert_eq!(Reference.read_header(&folder.get("txt"), &mut group, &mut place), 0);
        let nodes: Vec<i32> =
            folder.get("nodes").chunks(4).map(|b| i32::from_le_bytes([b[0], b[1], b[2], b[3]])).collect();
        let points = String::from_utf8(folder.get("points")).expect("they are text");
        let mut written = Vec::new();
        for point in points.lines() {
            let numbers: Vec<i64> = point.split('\t').map(|word| word.parse().expect("a number")).collect();
            let at = Position { lon: numbers[0], lat: numbers[1], day: numbers[2] };
            let (mut line, mut count) = ([0; LOG_LINE_BYTES], 0);
            let number = Reference.write_log_line(&group, &nodes, at, &mut line, &mut count, &mut place);
            written.extend_from_slice(&line[..if number == 0 { count as usize } else { 0 }]);
        }
        let printed = folder.shell("\"$PROGRAM\" lookup txt nodes < points 2> words | grep ^fix").out;
        assert_eq!(printed.as_bytes(), written, "{name}");
        assert!(printed.lines().count() >= 5);
        if name == "harbour" {
            assert_eq!(written, example("harbour.log"), "examples/harbour.log is this log");
        }
    }
}

#[test]
fn the_logs_of_the_examples() {
    let folder = with_example("logs-examples", "harbour");
    let judged = |name: &str| folder.run_with(&["judge", "txt", "nodes", "-"], &example(name));
    assert_eq!(judged("harbour.log"), accepted("passed\t11\n"));
    for (name, line, kind, words) in [
        ("harbour-form.log", 2, "form", format!("V1 is '401.28', but must be {WHOLE}")),
        (
            "harbour-refused.log",
            3,
            "lookup refused",
            "the lookup is refused: a node that the point needs is the no-data mark".into(),
        ),
        ("harbour-grid.log", 2, "other grid", "the lookup chooses west-basin, but the log has bay".into()),
        ("harbour-shift.log", 3, "other shift", "the lookup finds 730 for V1, but the log has 729".into()),
    ] {
        assert_eq!(judged(name), failed(line, kind, &format!("line {line}: {words}")), "{name}");
    }
}

#[test]
fn a_line_not_of_the_form_says_why() {
    let folder = Folder::new("logs-form");
    let (ends, fields) = ("ends in CR: lines are closed by a line feed alone", "but a fix line of this group has 6");
    for (line, words) in [
        ("\n", "line 2 is empty, but must be a fix line".to_string()),
        ("fix\t5\t5\t200\tbasin\t55\r\n", format!("line 2 {ends}")),
        ("\r\n", format!("line 2 {ends}")),
        ("Fix\t5\t5\t200\tbasin\t55\n", "line 2 begins with 'Fix', but must begin with 'fix'".into()),
        (
            "fix 5 5 200 basin 55\n",
            "line 2 begins with 'fix 5 5 200 basin 55', but must begin with 'fix'; fields are parted by tabs".into(),
        ),
        ("fix\t5\t5\t200\tbasin\n", format!("line 2 has 5 fields parted by tabs, {fields}")),
        ("fix\t5\t5\t200\tbasin\t55\t0\t0\n", format!("line 2 has 8 fields parted by tabs, {fields}")),
        ("fix\t5.0\t5\t200\tbasin\t55\n", format!("line 2: LON is '5.0', but must be {WHOLE}")),
        ("fix\t5\t+5\t200\tbasin\t55\n", format!("line 2: LAT is '+5', but must be {WHOLE}")),
        ("fix\t5\t5\t0200\tbasin\t55\n", format!("line 2: DAY is '0200', but must be {WHOLE}")),
        ("fix\t5\t5\t200\tthe basin\t55\n", format!("line 2: GRID is 'the basin', but must be {NAME}")),
        ("fix\t5\t5\t200\t\t55\n", format!("line 2: GRID is '', but must be {NAME}")),
        ("fix\t5\t5\t200\tbasin\t-0\n", format!("line 2: V1 is '-0', but must be {WHOLE}")),
        ("fix\t5\t5\t200\tbasin\t\n", format!("line 2: V1 is '', but must be {WHOLE}")),
        ("fix\t5\t5\t200\tbasin\t55 \n", format!("line 2: V1 is '55 ', but must be {WHOLE}")),
    ] {
        fails(&folder, line, "form", &words);
    }
    let judged = |log: &[u8]| folder.run_with(&["judge", "dock.txt", "dock.nodes", "-"], log);
    let open = |line| failed(line, "form", &format!("line {line} is not closed by a line feed"));
    assert_eq!(judged(GOOD.trim_end().as_bytes()), open(1));
    assert_eq!(judged((GOOD.repeat(3) + "fix").as_bytes()), open(4));
    assert_eq!(judged(b"\0"), open(1));
    let mark = |what: &str| failed(1, "form", &format!("the file begins with {what}; save it as plain ASCII"));
    assert_eq!(judged(format!("\u{feff}{GOOD}").as_bytes()), mark("a byte order mark"));
    assert_eq!(judged(b"\xff\xfef\0i\0x\0\n\0"), mark("a byte order mark of UTF-16"));
}

#[test]
fn what_the_lookup_says_stands_beside_what_the_log_says() {
    let folder = Folder::new("logs-lookup");
    let digits = "9".repeat(1_000);
    let shown = format!("{}..", "9".repeat(60));
    let outside = "line 2: the lookup is refused: the point is outside longitude ±648000000 or latitude ±324000000";
    let day = "line 2: the lookup is refused: the day is outside ±1000000";
    for (line, kind, words) in [
        ("fix\t21\t10\t0\tbasin\t0\n", "lookup refused", "line 2: the lookup is refused: no grid holds the point"),
        ("fix\t0\t-324000001\t0\tbasin\t0\n", "lookup refused", outside),
        (&format!("fix\t-{digits}\t0\t0\tbasin\t0\n"), "lookup refused", outside),
        (
            "fix\t-648000001\t0\t0\tbasin\t0\n",
            "lookup refused",
            &format!("{outside}; for longitude -648000001 write 647999999"),
        ),
        ("fix\t0\t0\t1000001\tbasin\t0\n", "lookup refused", day),
        (&format!("fix\t0\t0\t{digits}\tbasin\t0\n"), "lookup refused", day),
        (
            "fix\t5\t5\t200\tquay\t55\n",
            "other grid",
            "line 2: the lookup chooses basin, but the log has quay, which is no grid's name",
        ),
        ("fix\t5\t5\t200\tbasin\t-55\n", "other shift", "line 2: the lookup finds 55 for V1, but the log has -55"),
        (
            &format!("fix\t5\t5\t200\tbasin\t{digits}\n"),
            "other shift",
            &format!("line 2: the lookup finds 55 for V1, but the log has {shown}"),
        ),
        // where several are wrong, the first kind is told
        ("fix\t21\t10\t0\tquay\t1\n", "lookup refused", "line 2: the lookup is refused: no grid holds the point"),
        (
            "fix\t5\t5\t200\tquay\t1\n",
            "other grid",
            "line 2: the lookup chooses basin, but the log has quay, which is no grid's name",
        ),
        ("fix\t21\t10\t0\tquay\t01\n", "form", &format!("line 2: V1 is '01', but must be {WHOLE}")),
    ] {
        fails(&folder, line, kind, words);
    }
}

#[test]
fn a_group_of_several_parameters_and_grids() {
    let folder = Folder::new("logs-three");
    let header = "group\tport\tmetre\t0\t3\t0\t2\n\
        grid\tbasin\t0\t0\t10\t10\t2\t2\t1\t0\ngrid\troads\t0\t0\t100\t100\t2\t2\t2\t0\n";
    folder.put("port.txt", header.as_bytes());
    folder.put("port.nodes", &words(&[7, -8, 9, 7, -8, 9, 7, -8, 9, 7, -8, 9].map(i32::to_le_bytes)));
    let judged = |log: &str| folder.run_with(&["judge", "port.txt", "port.nodes", "-"], log.as_bytes());
    let good = "fix\t5\t5\t0\tbasin\t7\t-8\t9\nfix\t11\t5\t0\troads\t7\t-8\t9\n";
    assert_eq!(judged(good), accepted("passed\t2\n"));
    let grid = "line 1: the lookup chooses basin, but the log has roads";
    assert_eq!(judged(&good.replacen("basin", "roads", 1)), failed(1, "other grid", grid));
    let shift = "line 2: the lookup finds -8 for V2, but the log has 8";
    assert_eq!(judged(&good.replace("roads\t7\t-8\t9", "roads\t7\t8\t0")), failed(2, "other shift", shift));
    let count = "line 1 has 7 fields parted by tabs, but a fix line of this group has 8";
    assert_eq!(judged(&good.replacen("\t9", "", 1)), failed(1, "form", count));
}

#[test]
fn one_damaged_byte_fails_at_its_line() {
    let folder = with_example("logs-damaged", "harbour");
    let log = example("harbour.log");
    for k in (0..log.len()).step_by(7) {
        let mut damaged = log.clone();
        damaged[k] = b'#';
        let line = 1 + log[..k].iter().filter(|&&c| c == b'\n').count();
        let answer = folder.run_with(&["judge", "txt", "nodes", "-"], &damaged);
        assert_eq!((answer.status, answer.out), (1, format!("failed\t{line}\tform\n")), "byte {k}");
    }
}

#[test]
fn long_logs_and_long_lines_work() {
    let folder = Folder::new("logs-long");
    let mut log = GOOD.repeat(1_000_000).into_bytes();
    folder.put("long.log", &log);
    assert_eq!(folder.run("judge dock.txt dock.nodes long.log"), accepted("passed\t1000000\n"));
    log.extend_from_slice(b"fix\t5\t5\t200\tbasin\t56\n");
    folder.put("long.log", &log);
    let words = "line 1000001: the lookup finds 55 for V1, but the log has 56";
    assert_eq!(folder.run("judge dock.txt dock.nodes long.log"), failed(1_000_001, "other shift", words));
    let line = [b"fix\t5\t5\t200\tbasin\t".as_slice(), &vec![b'1'; 1 << 25], b"\n"].concat();
    folder.put("long.log", &line);
    let words = format!("line 1: the lookup finds 55 for V1, but the log has {}..", "1".repeat(60));
    assert_eq!(folder.run("judge dock.txt dock.nodes long.log"), failed(1, "other shift", &words));
    folder.put("long.log", b"");
}
