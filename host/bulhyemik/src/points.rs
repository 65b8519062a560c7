//! Points of the command line or of standard input, each with its line of output as soon as it is known. Those of standard input
//! are looked up in blocks: a block is what is there when its first line has been read, so that nothing waits for more.

use crate::arguments::Arguments;
use crate::files::not_read;
use crate::model::Model;
use crate::number::decimal;
use crate::output::Output;
use crate::printed::Printed;
use crate::shown::bytes;
use crate::stop::Stop;
use interface::{Calls, Position};
use progress::Progress;
use std::ffi::OsStr;
use std::io::{self, BufRead, BufReader, Read};

/// A longer line of standard input is no point.
const LONGEST: usize = 1 << 16;

/// Answers LON LAT DAY, the third to fifth argument, or without them each point of standard input.
pub fn answer(calls: &dyn Calls, arguments: &Arguments, out: &mut Output, printed: &Printed) -> Result<(), Stop> {
    if arguments.count(&[2, 5], "HEADER NODES, or HEADER NODES LON LAT DAY")? == 2 {
        return answer_all(calls, arguments, out, printed);
    }
    let [lon, lat] = [arguments.number(2, "LON")?, arguments.number(3, "LAT")?];
    let at = Position { lon, lat, day: arguments.number(4, "DAY")? };
    let model = Model::read(calls, arguments)?;
    out.put(printed.heading(out.format, &model.group))?;
    match (printed.line)(calls, &model, out.format, at, &model.look(calls, at)) {
        Ok(line) => out.put(line),
        Err(refusal) => printed.refuse(out, &model, at, refusal, "").and(Err(Stop::PointsRefused)),
    }
}

fn answer_all(calls: &dyn Calls, arguments: &Arguments, out: &mut Output, printed: &Printed) -> Result<(), Stop> {
    if arguments.is_standard_input(0) || arguments.is_standard_input(1) {
        return Err(arguments.usage("standard input holds the points, so HEADER and NODES must be files".into()));
    }
    let model = Model::read(calls, arguments)?;
    out.put(printed.heading(out.format, &model.group))?;
    let mut progress = Progress::counting("points");
    let mut lines = Lines::new();
    let mut points = Vec::new();
    let mut all_accepted = true;
    let mut k = 0;
    loop {
        out.flush()?;
        let behind = lines.block(&mut points)?;
        for (&at, found) in points.iter().zip(model.look_many(calls, &points)) {
            k += 1;
            match (printed.line)(calls, &model, out.format, at, &found) {
                Ok(line) => out.put(line)?,
                Err(refusal) => {
                    all_accepted = false;
                    progress.clear();
                    printed.refuse(out, &model, at, refusal, &format!("point {k} "))?;
                }
            }
            progress.at(k);
        }
        match behind {
            Behind::Wait => {}
            Behind::BadLine(line) => return Err(bad_line(arguments, k + 1, line)),
            Behind::End => return if all_accepted { Ok(()) } else { Err(Stop::PointsRefused) },
        }
    }
}

/// What stands behind the points of a block: nothing yet, a line that is no point, or the end of standard input.
enum Behind<'a> {
    Wait,
    BadLine(&'a [u8]),
    End,
}

/// The lines of standard input.
struct Lines {
    input: BufReader<io::StdinLock<'static>>,
    line: Vec<u8>,
}

impl Lines {
    fn new() -> Lines {
        Lines { input: BufReader::with_capacity(LONGEST, io::stdin().lock()), line: Vec::new() }
    }

    /// The points of the next line, which is waited for, and of all lines that are there behind it.
    fn block(&mut self, points: &mut Vec<Position>) -> Result<Behind<'_>, Stop> {
        points.clear();
        loop {
            self.read()?;
            if self.line.is_empty() {
                return Ok(Behind::End);
            }
            match point(self.line()) {
                Some(at) => points.push(at),
                None => return Ok(Behind::BadLine(self.line())),
            }
            if !self.input.buffer().contains(&b'\n') {
                return Ok(Behind::Wait);
            }
        }
    }

    /// Reads a line, or nothing at the end of standard input.
    fn read(&mut self) -> Result<(), Stop> {
        self.line.clear();
        let mut within = self.input.by_ref().take(LONGEST as u64);
        within.read_until(b'\n', &mut self.line).map_err(|error| not_read(OsStr::new("-"), &error))?;
        Ok(())
    }

    /// The line that was read without its line feed, which the last one need not have.
    fn line(&self) -> &[u8] {
        self.line.strip_suffix(b"\n").unwrap_or(&self.line)
    }
}

/// The position of a line.
fn point(line: &[u8]) -> Option<Position> {
    if line.len() >= LONGEST {
        return None;
    }
    let numbers: Option<Vec<i64>> = line.split(|&c| c == b'\t').map(decimal).collect();
    let [lon, lat, day] = numbers?.try_into().ok()?;
    Some(Position { lon, lat, day })
}

fn bad_line(arguments: &Arguments, number: usize, line: &[u8]) -> Stop {
    let wanted = "must be LON, LAT and DAY, whole numbers parted by tabs";
    arguments.usage(format!("line {number} of standard input is '{}', but {wanted}", bytes(line)))
}
