//! An exercise from start to end, as in ../c/exercise.c, by the safe layer of src/bulhyemik.rs.
//!
//!     cargo build --release
//!     target/release/exercise ../harbour.txt ../harbour.nodes ../harbour.points
//!
//! The first command links the installed library: the shared one, or the static one where BULHYEMIK_STATIC is set.
//! The second prints what ../callers.expected holds. Its status is 1 after a refusal and 2 if a file can't be used.

mod bulhyemik;

use bulhyemik::{Function, Group, Position, Refused};
use std::error::Error;
use std::fs;
use std::path::{Path, PathBuf};
use std::process::ExitCode;

fn main() -> ExitCode {
    match run() {
        Ok(()) => ExitCode::SUCCESS,
        Err(why) => {
            eprintln!("exercise: {why}");
            ExitCode::from(if why.is::<Refused>() { 1 } else { 2 })
        }
    }
}

/// A function of time by its kind; factors are in millionths.
fn said(function: &Function) -> String {
    match function {
        Function::Ramp { a, s0, b, s1 } => format!("ramp, {s0} until day {a}, {s1} from day {b} on"),
        Function::Step { event, reference, mult } => {
            format!("step, {mult} on day {event}, counted from day {reference}")
        }
        Function::Ramp2 { start, end, reference, mult } => {
            format!("ramp2, {mult} from day {start} to day {end}, counted from day {reference}")
        }
    }
}

fn run() -> Result<(), Box<dyn Error>> {
    let files: Vec<PathBuf> = std::env::args_os().skip(1).map(PathBuf::from).collect();
    let [header, nodes, points] = &files[..] else {
        return Err("usage: exercise HEADER NODES POINTS".into());
    };

    // The header once; the group answers everything else.
    let text = read_file(header)?;
    let group = Group::read(&text)?;
    let nodes = read_nodes(nodes)?;
    let unit = group.unit();
    println!("group {}: {} grids, steps of 2 to the power -{} {unit}", group.name(), group.grids, group.quantum);
    for (k, function) in (1..).zip(group.functions()) {
        println!("function {k}: {}", said(&function));
    }

    // One point, in steps, and what a screen shows of it.
    let one = Position { lon: -14395000, lat: 180005000, day: 133 };
    let fix = group.lookup(&nodes, &one)?;
    let shown = group.screen(&one, &fix)?;
    let (grid, shift) = (group.grid_name(fix.grid), shown.shift[0]);
    print!("one point: grid {grid}, {} steps, {shift:.10} {unit} ", fix.result[0]);
    println!("at {:.7}, {:.7}", shown.longitude, shown.latitude);

    // A list of points by one call. A point that is refused has its number there and does not stop the others.
    let track = read_points(points)?;
    let mut log = Vec::new();
    for (k, (at, answer)) in (1..).zip(track.iter().zip(group.replay(&nodes, &track)?)) {
        match answer.number {
            0 => {
                println!("point {k}: grid {}, {} steps", group.grid_name(answer.fix.grid), answer.fix.result[0]);
                log.extend(group.log_line(&nodes, at)?);
            }
            number => println!("point {k}: refused by {number}"),
        }
    }

    // A log has a line for each accepted point; anybody's is judged line by line. Here the last line is cut off.
    let fails = group.judge_log(&nodes, &log)?.is_some();
    println!("the log of these points {}", if fails { "fails" } else { "passes" });
    log.pop();
    if let Some(fault) = group.judge_log(&nodes, &log)? {
        println!("without its last byte it fails at line {}, by kind {}", fault.line, fault.kind);
    }

    // The grids that an area uses, and the first point of a wider one that no grid holds.
    for entry in group.in_force(-14390000..=-14370000, 180010000..=180020000)? {
        println!("in force: grid {}, first at {}, {}", group.grid_name(entry.grid), entry.lon, entry.lat);
    }
    if let Some((lon, lat)) = group.hole(-14400000..=-14359999, 180000000..=180030000)? {
        println!("no grid holds {lon}, {lat}");
    }

    // A refusal says what is wrong, and where: this text is cut off in its second line.
    if let Err(Refused { number, place }) = Group::read(&text[..40]) {
        println!("a header that is cut off: refused by {number} at line {place}");
    }
    Ok(())
}

fn read_file(path: &Path) -> Result<Vec<u8>, String> {
    fs::read(path).map_err(|why| format!("{}: {why}", path.display()))
}

/// The nodes of a file of 32-bit numbers, least byte first.
fn read_nodes(path: &Path) -> Result<Vec<i32>, String> {
    let bytes = read_file(path)?;
    let size = bytes.len();
    if size % 4 != 0 {
        return Err(format!("{}: {size} bytes are no list of 32-bit numbers: give a node file", path.display()));
    }
    Ok(bytes.chunks_exact(4).map(|node| i32::from_le_bytes([node[0], node[1], node[2], node[3]])).collect())
}

/// The points of a file, one a line: longitude, latitude and day.
fn read_points(path: &Path) -> Result<Vec<Position>, String> {
    let text = String::from_utf8_lossy(&read_file(path)?).into_owned();
    let points = text.lines().map(read_point).collect::<Option<_>>();
    points.ok_or_else(|| format!("{}: a line is not longitude, latitude and day", path.display()))
}

fn read_point(line: &str) -> Option<Position> {
    let numbers = line.split_whitespace().map(|field| field.parse().ok()).collect::<Option<Vec<i64>>>()?;
    let [lon, lat, day] = numbers[..] else { return None };
    Some(Position { lon, lat, day })
}
