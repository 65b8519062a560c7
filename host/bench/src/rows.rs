//! The rows of the table: which work is done on which inputs.

use crate::quotients::{Quotient, ramp_factor, result, value, wide_value};
use crate::work::{Row, Work};
use crate::works::{
    Exercise, Hole, InForceEverywhere, Judge, JudgeLog, Load, Lookups, Read, Rounding, WideRounding, Write,
    great_nodes, nodes,
};
use crate::{layouts, logs};
use differ::Random;
use interface::{Area, Function, Grid, Group, HEADER_BYTES, MOST_FUNCTIONS, Name, Position, Timed};
use plain::{LONGITUDE, TURN};

/// How many points, digits and floats the long works have, and how many lines, digits and tabs the logs.
#[derive(Clone, Copy)]
pub struct Sizes {
    pub points: i64,
    pub digits: usize,
    pub floats: usize,
    pub log_lines: i64,
    pub log_digits: usize,
    pub log_tabs: usize,
}

/// The table's sizes.
pub const WHOLE: Sizes = Sizes {
    points: 10_000,
    digits: 1_000_000,
    floats: 1 << 24,
    log_lines: 1_000_000,
    log_digits: 100_000_000,
    log_tabs: 1_000_000,
};

/// One grid of 1,000 by 1,000 nodes with two parameters and two ramps.
fn one_grid() -> Group {
    let mut record =
        Group { name: Name::new(b"one"), parameters: 2, quantum: 10, functions: 2, grids: 1, ..Group::default() };
    for (k, function) in record.function[..2].iter_mut().enumerate() {
        *function = Function::ramp(0, 1_000_000, 1_000 + k as i64, 2_000_000);
    }
    record.grid[0] =
        Grid { name: Name::new(b"sea"), dlon: 3_600, dlat: 3_600, ni: 1_000, nj: 1_000, rank: 1, ..Grid::default() };
    record
}

/// The whole earth by degrees, else as the one grid.
fn world() -> Group {
    let mut record = one_grid();
    let (lon, lat, spacing) = (-LONGITUDE, -LONGITUDE / 2, 3_600_000);
    record.grid[0] = Grid { lon, lat, dlon: spacing, dlat: spacing, ni: 361, nj: 181, ..record.grid[0] };
    record
}

/// The squares in squares, so wide that the greatest has a spacing of nine degrees.
fn wide_nested() -> Group {
    layouts::widened(layouts::nested(), 50_000)
}

/// A track of steps of this width to the east and less to the north, begun again at the edge of a square of 1,000 steps.
fn track(count: i64, step: i64) -> Vec<Position> {
    let at = |k| Position { lon: k * step % (1_000 * step), lat: k * (step * 5 / 8) % (1_000 * step), day: k / 5 };
    (1..=count).map(at).collect()
}

/// The last of the days on which points are looked up; the first is 0.
const LAST_DAY: i64 = 10_000;

/// The functions of time that a group has: none, or as many as there may be, ramps alone or all kinds mixed. Each ramp and ramp2
/// changes the factor from day to day, and each step on a day of its own.
type Functions = &'static [Function];

const NONE: Functions = &[];
const RAMP: Function = Function::ramp(-1, 100_000, LAST_DAY + 1, 200_000);
const RAMPS: Functions = &[RAMP; MOST_FUNCTIONS];
const RAMP2: Function = Function::ramp2(-1, LAST_DAY + 1, LAST_DAY / 2, 100_000);
const MIXED: Functions = &[
    RAMP,
    RAMP2,
    Function::step(LAST_DAY / 3, 0, 100_000),
    RAMP,
    RAMP2,
    Function::step(LAST_DAY / 2, LAST_DAY, 100_000),
    RAMP,
    RAMP2,
];

/// A group with these functions of time in place of its own.
fn with(functions: Functions, group: Group) -> Group {
    let mut function = [Function::default(); MOST_FUNCTIONS];
    function[..functions.len()].copy_from_slice(functions);
    Group { functions: functions.len() as i64, function, ..group }
}

/// A square of points that a group's grids hold, and how far a ship goes from one point to the next, in milliarcseconds.
#[derive(Clone, Copy)]
struct Waters {
    group: fn() -> Group,
    nodes: fn(&Group) -> Vec<i32>,
    west_and_south: i64,
    width: i64,
    step: i64,
}

const ONE_GRID: Waters = Waters { group: one_grid, nodes, west_and_south: 0, width: 3_596_400, step: 97 };
const NESTED: Waters = Waters { group: layouts::nested, nodes, west_and_south: -630, width: 1_280, step: 1 };

/// Coarse waters, in which most sums pass one word.
const WORLD: Waters =
    Waters { group: world, nodes: great_nodes, west_and_south: -324_000_000, width: 648_000_000, step: 97_001 };
const WIDE_NESTED: Waters =
    Waters { group: wide_nested, nodes: great_nodes, west_and_south: -31_500_000, width: 64_000_000, step: 50_021 };

/// Neighbouring points of one day.
fn neighbours(waters: Waters, count: i64) -> Vec<Position> {
    let Waters { west_and_south, width, step, .. } = waters;
    let on = |way: i64| west_and_south + way % width;
    (0..count).map(|k| Position { lon: on(k * step), lat: on(k * step * 5 / 8), day: LAST_DAY / 3 }).collect()
}

/// Neighbouring points, a hundred of each day.
fn voyage(waters: Waters, count: i64) -> Vec<Position> {
    let mut points = neighbours(waters, count);
    (0..).zip(&mut points).for_each(|(k, at)| at.day = k / 100 % LAST_DAY);
    points
}

/// Points anywhere, each on a day of its own.
fn scattered(waters: Waters, count: i64) -> Vec<Position> {
    let Waters { west_and_south, width, .. } = waters;
    let mut random = Random::new("points", 0, 0);
    let mut on = || west_and_south + random.between(0, width);
    (0..count).map(|k| Position { lon: on(), lat: on(), day: k * 7_919 % LAST_DAY }).collect()
}

/// The text of a group's header, as plain Rust writes it.
pub fn text(group: &Group) -> Vec<u8> {
    let (mut out, mut count, mut place) = (vec![0; HEADER_BYTES], 0, 0);
    plain::Plain.write_header(group, &mut out, &mut count, &mut place);
    out.truncate(count as usize);
    out
}

/// A header whose first line has a number of so many digits.
fn digits(count: usize) -> Vec<u8> {
    [b"group\tdock\tmetre\t", "7".repeat(count).as_bytes(), b"\t1\t0\t1\n"].concat()
}

fn floats(count: usize) -> Vec<f32> {
    (0..count).map(|k| (k % 100_003) as f32 / 1_024.0 - 40.0).collect()
}

fn row<W: Work + 'static>(name: &str, repeats: u32, make: impl Fn() -> W + 'static) -> Row {
    Row { name: name.to_string(), repeats, make: Box::new(move || Box::new(make())) }
}

/// A layout and its name.
type Layout = (&'static str, fn() -> Group);

/// The layouts in which grids in force and holes are looked for.
const LAYOUTS: [Layout; 6] = [
    ("63 tiles hide one grid", layouts::hidden),
    ("narrow lanes", layouts::lanes),
    ("squares in squares", layouts::nested),
    ("crossed bars", layouts::crossed),
    ("stairs", layouts::stairs),
    ("bricks from east to west", layouts::bricks),
];

/// What a search has found, for grids in force alone.
const ANNEALED: Layout = ("annealed", layouts::annealed);

/// Layouts for holes alone, in which many rows are to be walked.
const COVERS: [Layout; 2] =
    [("bricks but for the last coordinate", layouts::corner), ("two stacks of bricks", layouts::stacks)];

/// Layouts whose holes are looked for across the meridian: the squares in squares, which are all cut in two, and the bricks, in
/// which many rows are to be walked.
const CLOSED: [Layout; 4] = [LAYOUTS[2], LAYOUTS[5], COVERS[0], COVERS[1]];

fn in_force((name, layout): Layout) -> Row {
    row(&format!("grids in force, {name}"), 20, move || InForceEverywhere::new(layout()))
}

fn in_force_across((name, layout): Layout) -> Row {
    let name = format!("grids in force across the meridian, {name}");
    row(&name, 20, move || InForceEverywhere::new(layouts::across(layout())))
}

/// The hole of the area that a layout's grids fill.
fn hole((name, layout): Layout) -> Row {
    row(&format!("hole, {name}"), 20, move || {
        let group = layout();
        let area = layouts::bounds(&group);
        Hole::new(group, area)
    })
}

/// The same across the meridian: of all longitudes, with a grid around the earth where the layout is not.
fn hole_across((name, layout): Layout) -> Row {
    row(&format!("hole across the meridian, {name}"), 20, move || {
        let group = layouts::closed(layout());
        let area = layouts::bounds(&group);
        Hole::new(group, Area { west: -LONGITUDE, east: LONGITUDE, ..area })
    })
}

/// Points looked up one by one in the grids of some waters.
fn lookups(name: &str, repeats: u32, waters: Waters, points: impl Fn() -> Vec<Position> + 'static) -> Row {
    row(name, repeats, move || {
        let group = (waters.group)();
        let nodes = (waters.nodes)(&group);
        Lookups::new(group, nodes, points())
    })
}

/// Points of some waters looked up by one call.
fn exercise(
    name: &str,
    count: i64,
    waters: Waters,
    points: fn(Waters, i64) -> Vec<Position>,
    functions: Functions,
) -> Row {
    row(name, 5, move || {
        let group = with(functions, (waters.group)());
        let nodes = (waters.nodes)(&group);
        Exercise::new(group, nodes, points(waters, count))
    })
}

/// The same without functions of time, with the middle of the waters on the meridian.
fn exercise_across(name: &str, count: i64, waters: Waters, points: fn(Waters, i64) -> Vec<Position>) -> Row {
    row(name, 5, move || {
        let group = with(NONE, (waters.group)());
        let by = layouts::to_the_meridian(&group);
        let mut points = points(waters, count);
        for at in &mut points {
            at.lon += if at.lon + by > LONGITUDE { by - TURN } else { by };
        }
        let nodes = (waters.nodes)(&group);
        Exercise::new(layouts::across(group), nodes, points)
    })
}

/// The log of points of some waters, with 8 ramps.
fn log(name: &str, count: i64, waters: Waters, points: fn(Waters, i64) -> Vec<Position>) -> Row {
    row(name, 1, move || {
        let group = with(RAMPS, (waters.group)());
        let nodes = (waters.nodes)(&group);
        let log = logs::log(&group, &nodes, &points(waters, count));
        JudgeLog::new(group, nodes, log)
    })
}

/// A log of one line that is hard to read.
fn hard_line(name: &str, repeats: u32, size: usize, line: fn(usize) -> Vec<u8>) -> Row {
    row(name, repeats, move || JudgeLog::new(one_grid(), nodes(&one_grid()), line(size)))
}

/// The rounding alone of one quotient of each lookup of random points in one grid with 8 ramps.
fn rounding(name: &str, count: i64, quotient: fn(&Group, &[i32], &Position) -> Quotient) -> Row {
    row(name, 20, move || {
        let group = with(RAMPS, one_grid());
        let nodes = nodes(&group);
        Rounding::new(scattered(ONE_GRID, count).iter().map(|at| quotient(&group, &nodes, at)))
    })
}

/// The rounding alone of the value of each lookup of random points in the world's coarse grid.
fn wide_rounding(name: &str, count: i64) -> Row {
    row(name, 20, move || {
        let group = (WORLD.group)();
        let nodes = (WORLD.nodes)(&group);
        WideRounding::new(scattered(WORLD, count).iter().map(|at| wide_value(&group, &nodes, at)))
    })
}

/// Every row, in the order of the table.
pub fn all(sizes: Sizes) -> Vec<Row> {
    let Sizes { points, .. } = sizes;
    let mut rows = vec![
        row("judge of 64 grids", 100, || Judge::new(layouts::nested())),
        lookups("one lookup, 1 grid", 500, ONE_GRID, move || track(1, 3_000)),
        lookups("one lookup, 64 grids", 100, NESTED, move || track(1, 1)),
        lookups("one lookup, coarse, 1 grid", 500, WORLD, move || scattered(WORLD, 1)),
        lookups("10,000 lookups on a track, 1 grid", 1, ONE_GRID, move || track(points, 3_000)),
        lookups("10,000 lookups on a track, 64 grids", 1, NESTED, move || track(points, 1)),
        exercise("10,000 points at once, a track, 1 grid", points, ONE_GRID, neighbours, NONE),
        exercise("10,000 points at once, a track, 1 grid, 8 ramps", points, ONE_GRID, neighbours, RAMPS),
        exercise("10,000 points at once, random, 1 grid", points, ONE_GRID, scattered, NONE),
        exercise("10,000 points at once, random, 1 grid, 8 ramps", points, ONE_GRID, scattered, RAMPS),
        exercise("10,000 points at once, random, 1 grid, 8 functions", points, ONE_GRID, scattered, MIXED),
        exercise("10,000 points at once, a track, 64 grids", points, NESTED, neighbours, NONE),
        exercise("10,000 points at once, a track, 64 grids, 8 ramps", points, NESTED, neighbours, RAMPS),
        exercise("10,000 points at once, random, 64 grids", points, NESTED, scattered, NONE),
        exercise("10,000 points at once, random, 64 grids, 8 ramps", points, NESTED, scattered, RAMPS),
        exercise("10,000 points at once, coarse, a track, 1 grid", points, WORLD, neighbours, NONE),
        exercise("10,000 points at once, coarse, random, 1 grid", points, WORLD, scattered, NONE),
        exercise("10,000 points at once, coarse, a track, 64 grids", points, WIDE_NESTED, neighbours, NONE),
        exercise("10,000 points at once, coarse, random, 64 grids", points, WIDE_NESTED, scattered, NONE),
        exercise_across("10,000 points at once across the meridian, a track, 1 grid", points, ONE_GRID, neighbours),
        exercise_across("10,000 points at once across the meridian, random, 1 grid", points, ONE_GRID, scattered),
        exercise_across("10,000 points at once across the meridian, a track, 64 grids", points, NESTED, neighbours),
        exercise_across("10,000 points at once across the meridian, random, 64 grids", points, NESTED, scattered),
        rounding("the rounding alone, 10,000 values", points, value),
        rounding("the rounding alone, 10,000 ramp factors", points, ramp_factor),
        rounding("the rounding alone, 10,000 results", points, result),
        wide_rounding("the rounding alone, 10,000 two-word values", points),
    ];
    rows.extend(LAYOUTS.map(in_force));
    rows.push(in_force(ANNEALED));
    rows.extend(LAYOUTS.map(in_force_across));
    rows.push(in_force_across(ANNEALED));
    rows.push(row("hole, the whole earth", 20, || Hole::new(layouts::nested(), Area::EARTH)));
    rows.extend(LAYOUTS.map(hole));
    rows.extend(COVERS.map(hole));
    rows.extend(CLOSED.map(hole_across));
    let Sizes { log_lines, log_digits, log_tabs, .. } = sizes;
    rows.extend([
        log("a log of a million lines, a track, 1 grid", log_lines, ONE_GRID, voyage),
        log("a log of a million lines, random, 1 grid", log_lines, ONE_GRID, scattered),
        log("a log of a million lines, a track, 64 grids", log_lines, NESTED, voyage),
        log("a log of a million lines, random, 64 grids", log_lines, NESTED, scattered),
        hard_line("a log of one line, 100 million digits", 1, log_digits, logs::digits),
        hard_line("a log of one line, a million tabs", 50, log_tabs, logs::tabs),
        row("read a header of 64 grids", 50, || Read::new(text(&layouts::nested()))),
        row("write a header of 64 grids", 50, || Write::new(layouts::nested())),
        row("read a line of a million digits", 1, move || Read::new(digits(sizes.digits))),
        row("load 16 million floats", 1, move || Load::new(floats(sizes.floats))),
    ]);
    rows
}

/// The indices of the rows with one of these words in their name, of all rows if there are no words. Words that no name has
/// are an error.
pub fn named(rows: &[Row], words: &[&str]) -> Result<Vec<usize>, String> {
    let has = |row: &Row, word: &str| row.name.contains(word);
    if let Some(word) = words.iter().find(|word| !rows.iter().any(|row| has(row, word))) {
        let names: String = rows.iter().map(|row| format!("\n  {}", row.name)).collect();
        return Err(format!("no row has '{word}' in its name; the rows are{names}"));
    }
    let asked = |&k: &usize| words.is_empty() || words.iter().any(|word| has(&rows[k], word));
    Ok((0..rows.len()).filter(asked).collect())
}

#[cfg(test)]
mod tests {
    use super::{Sizes, WHOLE, WIDE_NESTED, WORLD, all, named};
    use crate::measure::answers;
    use crate::round::Round;
    use crate::{back_end, layouts};
    use interface::{Answer, Area, Fault, Group, Timed, Uncovered};
    use plain::LONGITUDE;
    use reference::{Reference, round_each, round_pairs};

    const ROUND: Round = Round { one_word: round_each, two_words: round_pairs };

    const SMALL: Sizes =
        Sizes { points: 30, digits: 1_000, floats: 1_000, log_lines: 500, log_digits: 1_000, log_tabs: 1_000 };

    /// Every work once, on small inputs: the plain versions answer as the second program does, and so that the work is done whole.
    #[test]
    fn every_back_end_answers_alike() {
        let back_ends = back_end::all(&Reference, ROUND);
        for row in all(SMALL) {
            let answers = answers(&row.make, &back_ends);
            for (answer, back_end) in answers.iter().zip(&back_ends) {
                assert!(*answer == answers[0], "{}: {} differs from {}", row.name, back_end.name, back_ends[0].name);
            }
            if row.name.contains("rounding") {
                assert!(answers[0].len() == 30 && answers[0].iter().all(|&rounded| rounded > 0), "{}", row.name);
                continue;
            }
            let refused = if row.name.contains("read a line") { 2 } else { 0 };
            assert_eq!(answers[0][0], refused, "{}", row.name);
            if row.name.contains("a log") {
                let digits = row.name.contains("digits").then_some([1, Fault::REFUSED as i64]);
                let tabs = row.name.contains("tabs").then_some([1, Fault::FORM as i64]);
                assert_eq!(answers[0][1..], digits.or(tabs).unwrap_or_default(), "{}", row.name);
            }
            if row.name.contains("at once") {
                let points = answers[0][1..].chunks(size_of::<Answer>() / size_of::<i64>());
                assert!(points.len() == 30 && points.into_iter().all(|point| point[0] == 0), "{}", row.name);
            }
        }
    }

    /// In every grid of coarse waters the weights' sum times a node of mean size passes one word.
    #[test]
    fn coarse_waters_are_beyond_one_word() {
        for waters in [WORLD, WIDE_NESTED] {
            let group = (waters.group)();
            let sizes: Vec<i128> = (waters.nodes)(&group).iter().map(|&node| i128::from(node).abs()).collect();
            let mean = sizes.iter().sum::<i128>() / sizes.len() as i128;
            let totals = group.grid[..group.grids as usize].iter().map(|grid| i128::from(grid.dlon * grid.dlat));
            assert!(totals.into_iter().all(|total| total * mean > 1 << 63), "{:?}", group.name);
        }
    }

    /// What is rounded alone is what lookups round: the first result of each point, without functions of time the value, is found
    /// again.
    #[test]
    fn the_roundings_alone_are_those_of_lookups() {
        let (rows, back_ends) = (all(SMALL), back_end::all(&Reference, ROUND));
        let answer = |name: &str| {
            let row = rows.iter().find(|row| row.name == name).expect("it is a row");
            answers(&row.make, &back_ends).remove(0)
        };
        for (lookups, roundings, raised) in [
            ("10,000 points at once, random, 1 grid", "the rounding alone, 10,000 values", 4_000_000),
            ("10,000 points at once, random, 1 grid, 8 ramps", "the rounding alone, 10,000 results", 320_000_000),
            ("10,000 points at once, coarse, random, 1 grid", "the rounding alone, 10,000 two-word values", 1 << 31),
        ] {
            let points = answer(lookups);
            let found = points[1..].chunks(size_of::<Answer>() / size_of::<i64>()).map(|point| point[3] + raised);
            assert_eq!(answer(roundings), found.collect::<Vec<_>>(), "{roundings}");
        }
    }

    /// The hole of a group in an area.
    fn found(group: &Group, area: Area) -> Uncovered {
        let mut uncovered = Uncovered::default();
        assert_eq!(Reference.hole(group, area, &mut uncovered, &mut 0), 0);
        uncovered
    }

    /// Of the layouts for holes all rows are to be walked: the hole is at the end. Four of the others have none.
    #[test]
    fn the_hardest_holes_come_last() {
        let within = |group: Group| found(&group, layouts::bounds(&group));
        for covered in [layouts::hidden, layouts::lanes, layouts::nested, layouts::bricks] {
            assert_eq!(within(covered()), Uncovered::default());
        }
        let Area { east, north, .. } = layouts::bounds(&layouts::corner());
        assert_eq!(within(layouts::corner()), Uncovered { found: 1, lon: east, lat: north });
        assert_eq!(within(layouts::stacks()), Uncovered { found: 1, lon: 1_001, lat: 3_151 });
    }

    /// Across the meridian too, where of the stacks the last brick is left out.
    #[test]
    fn the_hardest_holes_across_the_meridian_come_last() {
        let within = |layout: fn() -> Group| {
            let group = layouts::closed(layout());
            found(&group, Area { west: -LONGITUDE, east: LONGITUDE, ..layouts::bounds(&group) })
        };
        assert_eq!([layouts::nested, layouts::bricks].map(within), [Uncovered::default(); 2]);
        let hole = |lon, lat| Uncovered { found: 1, lon: lon - LONGITUDE, lat };
        assert_eq!([layouts::corner, layouts::stacks].map(within), [hole(1_550, 3_000), hole(1, 3_051)]);
    }

    #[test]
    fn words_choose_the_rows_that_have_one_of_them() {
        let rows = all(WHOLE);
        let chosen = |words: &[&str]| -> Vec<&str> {
            named(&rows, words).expect("each is in a name").into_iter().map(|k| rows[k].name.as_str()).collect()
        };
        assert_eq!(chosen(&[]).len(), rows.len());
        let lookups = ["one lookup, 1 grid", "one lookup, 64 grids", "one lookup, coarse, 1 grid"];
        assert_eq!(chosen(&["one lookup"]), lookups);
        assert_eq!(chosen(&["e, stairs", "judge"]), ["judge of 64 grids", "grids in force, stairs", "hole, stairs"]);
        let layouts = chosen(&["grids in force", "force, stairs"]);
        assert!(layouts.len() > 1 && layouts.iter().all(|name| name.starts_with("grids in force")));
        let why = named(&rows, &["stairs", "stares"]).expect_err("no name has it");
        assert!(why.starts_with("no row has 'stares' in its name; the rows are\n  judge of 64 grids\n"), "{why}");
    }
}
