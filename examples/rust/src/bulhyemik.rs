//! A safe layer over the calls of bulhyemik.h that the exercise makes: slices go in, answers or refusals come out.
//! Units, limits and the meaning of every answer are as bulhyemik.h has them.

use std::fmt;
use std::mem::{size_of, MaybeUninit};
use std::ops::RangeInclusive;

/// A refused call: the refusal's number and its place.
#[derive(Debug)]
pub struct Refused {
    pub number: u64,
    pub place: u64,
}

impl fmt::Display for Refused {
    fn fmt(&self, f: &mut fmt::Formatter) -> fmt::Result {
        write!(f, "refused by {} at {}", self.number, self.place)
    }
}

impl std::error::Error for Refused {}

/// A name, in C two fields of the struct that has it.
#[repr(C)]
struct Name {
    bytes: [u8; 24],
    length: i64,
}

#[repr(C)]
struct Grid {
    name: Name,
    lon: i64,
    lat: i64,
    dlon: i64,
    dlat: i64,
    ni: i64,
    nj: i64,
    rank: i64,
    start: i64,
}

/// A function of time as C has it: its kind, and four numbers, a union of one struct for each kind.
#[repr(C)]
struct Numbers {
    kind: i64,
    numbers: [i64; 4],
}

/// A function of time; factors and MULT are in millionths.
pub enum Function {
    Ramp { a: i64, s0: i64, b: i64, s1: i64 },
    Step { event: i64, reference: i64, mult: i64 },
    Ramp2 { start: i64, end: i64, reference: i64, mult: i64 },
}

/// An accepted group, made by `read` alone.
#[repr(C)]
pub struct Group {
    name: Name,
    unit: i64,
    pub quantum: i64,
    parameters: i64,
    functions: i64,
    pub grids: i64,
    function: [Numbers; 8],
    grid: [Grid; 64],
}

#[repr(C)]
#[derive(Clone, Default)]
pub struct Fix {
    pub grid: i64,
    pub result: [i64; 3],
}

#[repr(C)]
pub struct Position {
    pub lon: i64,
    pub lat: i64,
    pub day: i64,
}

#[repr(C)]
#[derive(Clone, Default)]
pub struct Answer {
    pub number: u64,
    pub place: u64,
    pub fix: Fix,
}

#[repr(C)]
#[derive(Clone)]
pub struct Entry {
    pub grid: i64,
    pub lon: i64,
    pub lat: i64,
}

#[repr(C)]
struct InForce {
    count: i64,
    entry: [Entry; 64],
}

#[repr(C)]
struct Uncovered {
    found: i64,
    lon: i64,
    lat: i64,
}

/// The first bad line of a log, from 1, and its kind; zeros where the log passes.
#[repr(C)]
pub struct Fault {
    pub line: u64,
    pub kind: u64,
}

#[repr(C)]
pub struct Screen {
    pub longitude: f64,
    pub latitude: f64,
    pub shift: [f64; 3],
}

/// Holds every line of a log.
const LOG_LINE_BYTES: usize = 128;

// The counts of 64-bit words that bulhyemik.h gives.
const _: () = assert!(size_of::<Group>() == 8 * 817 && size_of::<InForce>() == 8 * 193);

extern "C" {
    fn bulhyemik_read_header(text: *const u8, text_len: usize, group: *mut Group, place: &mut u64) -> u64;
    fn bulhyemik_lookup(
        group: &Group, nodes: *const i32, nodes_len: usize, lon: i64, lat: i64, day: i64, fix: *mut Fix,
        place: &mut u64,
    ) -> u64;
    fn bulhyemik_lookup_many(
        group: &Group, nodes: *const i32, nodes_len: usize, points: *const Position, points_len: usize,
        results: *mut Answer, results_len: usize, place: &mut u64,
    ) -> u64;
    fn bulhyemik_grids_in_force(
        group: &Group, west: i64, east: i64, south: i64, north: i64, list: *mut InForce, place: &mut u64,
    ) -> u64;
    fn bulhyemik_hole(
        group: &Group, west: i64, east: i64, south: i64, north: i64, uncovered: *mut Uncovered, place: &mut u64,
    ) -> u64;
    fn bulhyemik_judge_log(
        group: &Group, nodes: *const i32, nodes_len: usize, log: *const u8, log_len: usize, fault: *mut Fault,
        place: &mut u64,
    ) -> u64;
    fn bulhyemik_write_log_line(
        group: &Group, nodes: *const i32, nodes_len: usize, position: &Position, out: *mut u8, out_len: usize,
        count: *mut u64, place: &mut u64,
    ) -> u64;
    fn bulhyemik_screen_record(
        lon: i64, lat: i64, quantum: i64, parameters: i64, number: u64, at: u64, fix: &Fix, screen: *mut Screen,
        place: &mut u64,
    ) -> u64;
}

/// Makes a call, which is lent memory for its answer and for its place.
///
/// # Safety
/// The call fills its answer whole where it returns 0.
unsafe fn ask<T>(call: impl FnOnce(*mut T, &mut u64) -> u64) -> Result<T, Refused> {
    let (mut answer, mut place) = (MaybeUninit::uninit(), 0);
    match call(answer.as_mut_ptr(), &mut place) {
        0 => Ok(answer.assume_init()),
        number => Err(Refused { number, place }),
    }
}

impl Name {
    fn text(&self) -> &str {
        std::str::from_utf8(&self.bytes[..self.length as usize]).unwrap_or_default()
    }
}

impl Group {
    /// Reads a header text.
    pub fn read(text: &[u8]) -> Result<Group, Refused> {
        // SAFETY: the text is a slice, and an accepted group is filled whole.
        unsafe { ask(|group, place| bulhyemik_read_header(text.as_ptr(), text.len(), group, place)) }
    }

    pub fn name(&self) -> &str {
        self.name.text()
    }

    pub fn unit(&self) -> &str {
        if self.unit == 1 {
            "metre"
        } else {
            "arc-second"
        }
    }

    /// The functions of time, as they were written.
    pub fn functions(&self) -> impl Iterator<Item = Function> + '_ {
        self.function[..self.functions as usize].iter().map(|function| match (function.kind, function.numbers) {
            (1, [event, reference, mult, _]) => Function::Step { event, reference, mult },
            (2, [start, end, reference, mult]) => Function::Ramp2 { start, end, reference, mult },
            (_, [a, s0, b, s1]) => Function::Ramp { a, s0, b, s1 },
        })
    }

    /// The name of a grid by its number, from 1 as in an answer; empty if there is none, as beside a refusal.
    pub fn grid_name(&self, number: i64) -> &str {
        let grid = usize::try_from(number).ok().and_then(|number| self.grid.get(number.wrapping_sub(1)));
        grid.map_or("", |grid| grid.name.text())
    }

    /// What a lookup finds, in steps.
    pub fn lookup(&self, nodes: &[i32], at: &Position) -> Result<Fix, Refused> {
        let &Position { lon, lat, day } = at;
        // SAFETY: the nodes are a slice, and a fix is always filled whole.
        unsafe { ask(|fix, place| bulhyemik_lookup(self, nodes.as_ptr(), nodes.len(), lon, lat, day, fix, place)) }
    }

    /// What the screen shows of a point and of what its lookup found, in degrees and units.
    pub fn screen(&self, at: &Position, fix: &Fix) -> Result<Screen, Refused> {
        let (lon, lat, q, np) = (at.lon, at.lat, self.quantum, self.parameters);
        // SAFETY: a screen is always filled whole.
        unsafe { ask(|screen, place| bulhyemik_screen_record(lon, lat, q, np, 0, 0, fix, screen, place)) }
    }

    /// The answers to all points, in their order. A point that is refused has its number there.
    pub fn replay(&self, nodes: &[i32], points: &[Position]) -> Result<Vec<Answer>, Refused> {
        let mut results = vec![Answer::default(); points.len()];
        let (from, lent, count) = (points.as_ptr(), results.as_mut_ptr(), points.len());
        // SAFETY: nodes and points are slices, there are as many results as points, and no other answer.
        unsafe {
            ask(|_: *mut (), place| {
                bulhyemik_lookup_many(self, nodes.as_ptr(), nodes.len(), from, count, lent, count, place)
            })?;
        }
        Ok(results)
    }

    /// The grids that an area uses, best rank first.
    pub fn in_force(&self, lon: RangeInclusive<i64>, lat: RangeInclusive<i64>) -> Result<Vec<Entry>, Refused> {
        let ((west, east), (south, north)) = (lon.into_inner(), lat.into_inner());
        // SAFETY: a list is always filled whole.
        let list = unsafe { ask(|list, place| bulhyemik_grids_in_force(self, west, east, south, north, list, place)) }?;
        Ok(list.entry[..list.count as usize].to_vec())
    }

    /// Longitude and latitude of the southmost, then westmost point of an area that no grid holds, if there is one.
    pub fn hole(&self, lon: RangeInclusive<i64>, lat: RangeInclusive<i64>) -> Result<Option<(i64, i64)>, Refused> {
        let ((west, east), (south, north)) = (lon.into_inner(), lat.into_inner());
        // SAFETY: what is uncovered is always filled whole.
        let hole = unsafe { ask(|hole, place| bulhyemik_hole(self, west, east, south, north, hole, place)) }?;
        Ok((hole.found != 0).then_some((hole.lon, hole.lat)))
    }

    /// The line of a log for a point and a day, with its line feed. Such lines pass.
    pub fn log_line(&self, nodes: &[i32], at: &Position) -> Result<Vec<u8>, Refused> {
        let mut line = vec![0; LOG_LINE_BYTES];
        let (lent, room) = (line.as_mut_ptr(), line.len());
        // SAFETY: the nodes are a slice, the line has as many bytes as are lent, and a count is always filled.
        let count = unsafe {
            ask(|count, place| {
                bulhyemik_write_log_line(self, nodes.as_ptr(), nodes.len(), at, lent, room, count, place)
            })
        }?;
        line.truncate(count as usize);
        Ok(line)
    }

    /// The first bad line of a log, if it does not pass.
    pub fn judge_log(&self, nodes: &[i32], log: &[u8]) -> Result<Option<Fault>, Refused> {
        let (from, count) = (log.as_ptr(), log.len());
        // SAFETY: nodes and log are slices, and a fault is always filled whole.
        let fault: Fault = unsafe {
            ask(|fault, place| bulhyemik_judge_log(self, nodes.as_ptr(), nodes.len(), from, count, fault, place))
        }?;
        Ok(Some(fault).filter(|fault| fault.line != 0))
    }
}
