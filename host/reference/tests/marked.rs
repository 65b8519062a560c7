//! The marked cases of document 01, M1 to M12 and the others it names, the holes of their groups and logs of their lookups.

use interface::{Area, Entry, Fault, Fix, Function, Grid, Group, MARK, Name, Position, Refusal};
use reference::{day_factor, grids_in_force, hole, judge, judge_log, load_nodes, lookup, write_log_line};

const RAMP: Function = Function::ramp(100, 0, 200, 1_000_000);

fn grid(name: &str, lon: i64, ni: i64, rank: i64) -> Grid {
    Grid { name: Name::new(name.as_bytes()), lon, lat: 0, dlon: 10, dlat: 10, ni, nj: 2, rank, start: 0 }
}

fn group(grids: &[Grid]) -> Group {
    let mut record = Group {
        name: Name::new(b"dock"),
        unit: 1,
        quantum: 13,
        parameters: 1,
        grids: grids.len() as i64,
        ..Group::default()
    };
    record.grid[..grids.len()].copy_from_slice(grids);
    record
}

/// The result of a lookup in grid `basin`, or the number of its refusal.
fn basin(nodes: [i32; 6], lon: i64, lat: i64) -> Result<i64, u64> {
    let record = group(&[grid("basin", 0, 3, 1)]);
    match lookup(&record, &nodes, Position { lon, lat, day: 0 }) {
        Ok(Fix { grid: 1, result: [result, 0, 0] }) => Ok(result),
        Ok(fix) => panic!("{fix:?}"),
        Err(Refusal { number, place: 0 }) => Err(number),
        Err(refusal) => panic!("{refusal:?}"),
    }
}

/// The corners of the first cell; the third column is not used.
fn corners(row: [i32; 2]) -> [i32; 6] {
    [row[0], row[1], MARK, row[0], row[1], MARK]
}

fn in_force(grids: &[Grid], area: Area) -> Vec<(i64, i64, i64)> {
    let list = grids_in_force(&group(grids), area).expect("an accepted group");
    list.into_iter().map(|Entry { grid, lon, lat }| (grid, lon, lat)).collect()
}

#[test]
fn m1_to_m9_are_lookups() {
    let nodes = [0, 10, 20, 100, 110, 120];
    assert_eq!(basin(nodes, 5, 5), Ok(55));
    assert_eq!(basin(nodes, 20, 10), Ok(120));
    assert_eq!(basin(nodes, 21, 10), Err(7));
    assert_eq!(basin(corners([0, 1]), 5, 5), Ok(0));
    assert_eq!(basin(corners([1, 2]), 5, 5), Ok(2));
    assert_eq!(basin(corners([0, -1]), 5, 5), Ok(0));
    assert_eq!(basin(corners([-1, -2]), 5, 5), Ok(-2));
    let marked = [0, MARK, 20, 100, 110, 120];
    assert_eq!(basin(marked, 0, 5), Ok(50));
    assert_eq!(basin(marked, 1, 5), Err(8));
    assert_eq!(basin(nodes, 0, 324_000_001), Err(6));
}

#[test]
fn m10_is_the_day_factor() {
    assert_eq!([99, 133, 200].map(|day| day_factor(&[RAMP], day)), [0, 330_000, 1_000_000]);
    assert_eq!(day_factor(&[], 5), 1_000_000);
    assert_eq!(day_factor(&[Function::ramp(100, 0, 100, 1_000_000)], 100), 1_000_000);
}

#[test]
fn m11_and_m12_are_grids_in_force() {
    let area = Area { west: 0, east: 20, south: 0, north: 10 };
    let m11 = [grid("G1", 0, 3, 3), grid("G2", 0, 2, 1), grid("G3", 10, 2, 2)];
    assert_eq!(in_force(&m11, area), [(2, 0, 0), (3, 11, 0)]);
    assert_eq!(in_force(&m11, Area::EARTH), [(2, 0, 0), (3, 11, 0)]);
    let m12 = [m11[0], m11[1], grid("G3", 12, 2, 2)];
    assert_eq!(in_force(&m12, area), [(2, 0, 0), (3, 12, 0), (1, 11, 0)]);
    let touching = [m11[0], m11[1], grid("G3", 10, 2, 1)];
    assert_eq!(judge(&group(&touching)), Err(Refusal { number: 5, place: 3 }));
}

#[test]
fn the_holes_of_m11_lie_beside_its_grids() {
    let m11 = [grid("G1", 0, 3, 3), grid("G2", 0, 2, 1), grid("G3", 10, 2, 2)];
    let within = |grids: &[Grid], east, north| hole(&group(grids), Area { west: 0, east, south: 0, north });
    assert_eq!(within(&m11, 20, 10), Ok(None));
    assert_eq!(within(&m11, 21, 10), Ok(Some((21, 0))));
    assert_eq!(within(&m11, 20, 11), Ok(Some((0, 11))));
    assert_eq!(within(&m11, -1, 10), Err(Refusal { number: 10, place: 0 }));
    assert_eq!(hole(&group(&m11), Area::EARTH), Ok(Some((-648_000_000, -324_000_000))));
    let apart = [m11[1], grid("G3", 12, 2, 2)];
    assert_eq!(within(&apart, 22, 10), Ok(Some((11, 0))));
    let same_rank = [m11[1], grid("G3", 10, 2, 1)];
    assert_eq!(within(&same_rank, -1, 10), Err(Refusal { number: 5, place: 2 }));
}

#[test]
fn halves_load_as_even_steps() {
    let mut nodes = [7; 2];
    assert_eq!(load_nodes(&[0.5, 1.5], f32::NAN, 0, &mut nodes), Ok(()));
    assert_eq!(nodes, [0, 2]);
}

#[test]
fn logs_of_m1_and_m8_are_judged_line_by_line() {
    let record = group(&[grid("basin", 0, 3, 1)]);
    let nodes = [0, MARK, 20, 100, 110, 120];
    let judged = |log: &str| judge_log(&record, &nodes, log.as_bytes()).map(|fault| (fault.line, fault.kind));
    let good = "fix\t0\t5\t0\tbasin\t50\n";
    assert_eq!(judged(""), Ok((0, 0)));
    assert_eq!(judged(&good.repeat(3)), Ok((0, 0)));
    let second = |line: &str| judged(&format!("{good}{line}{good}"));
    for form in ["\n", "fix\t0\t5\t0\tbasin\t50\r\n", "fix\t0\t5\t0\tbasin\t50\t0\n", "fix\t0\t5\t-0\tbasin\t050\n"] {
        assert_eq!(second(form), Ok((2, Fault::FORM)), "{form:?}");
    }
    assert_eq!(judged(&format!("{good}x")), Ok((2, Fault::FORM)));
    assert_eq!(judged(good.trim_end()), Ok((1, Fault::FORM)));
    for refused in ["fix\t1\t5\t0\tbasin\t50\n", "fix\t21\t5\t0\tother\t50\n", "fix\t0\t5\t1000001\tbasin\t50\n"] {
        assert_eq!(second(refused), Ok((2, Fault::REFUSED)), "{refused:?}");
    }
    let digits = "9".repeat(1_000);
    assert_eq!(second(&format!("fix\t{digits}\t5\t0\tbasin\t50\n")), Ok((2, Fault::REFUSED)));
    assert_eq!(second("fix\t0\t5\t0\tBasin\t51\n"), Ok((2, Fault::GRID)));
    assert_eq!(second("fix\t0\t5\t0\tbasin\t51\n"), Ok((2, Fault::SHIFT)));
    assert_eq!(second(&format!("fix\t0\t5\t0\tbasin\t{digits}\n")), Ok((2, Fault::SHIFT)));
    assert_eq!(judge_log(&record, &nodes[1..], b"\n"), Err(Refusal { number: 13, place: 1 }));
}

#[test]
fn a_log_line_is_written_whole_or_not_at_all() {
    let record = group(&[grid("basin", 0, 3, 1)]);
    let nodes = [0, 10, 20, 100, 110, 120];
    let line = b"fix\t5\t5\t0\tbasin\t55\n";
    let written = |lon, len| {
        let mut out = [7; 32];
        let count = write_log_line(&record, &nodes, Position { lon, lat: 5, day: 0 }, &mut out[..len]);
        (count.map_err(|refusal| refusal.number), out)
    };
    let mut whole = [7; 32];
    whole[..line.len()].copy_from_slice(line);
    assert_eq!(written(5, 32), (Ok(line.len()), whole));
    assert_eq!(written(5, line.len()), (Ok(line.len()), whole));
    assert_eq!(written(5, line.len() - 1), (Err(12), [7; 32]));
    assert_eq!(written(21, 0), (Err(7), [7; 32]));
    assert_eq!(judge_log(&record, &nodes, line), Ok(Fault::default()));
}
