//! The calls of the C interface as traits: one method for each function of include/bulhyemik.h, a slice for pointer and length.

use crate::{Answer, Area, Fault, Fix, Found, Group, InForce, MOST_PARAMETERS, Part, Position, Screen, Uncovered};

/// The calls that the benchmark times, which plain programs answer too.
///
/// Every method answers the number of the refusal, 0 if accepted, and leaves its place in `place`. After a refusal `group`,
/// `out`, `nodes` and `results` are as they were; every other lent number is 0.
pub trait Timed {
    /// Judges a group: refusals 2 to 5.
    fn judge(&self, group: &Group, place: &mut u64) -> u64;

    /// Reads a header text into a group: refusals 1 to 5.
    fn read_header(&self, text: &[u8], group: &mut Group, place: &mut u64) -> u64;

    /// Writes a group's header text and counts its bytes: refusals 2 to 5, 12.
    fn write_header(&self, group: &Group, out: &mut [u8], count: &mut u64, place: &mut u64) -> u64;

    /// Looks a point up on a day: refusals 2 to 9, 13.
    fn lookup(&self, group: &Group, nodes: &[i32], at: Position, fix: &mut Fix, place: &mut u64) -> u64;

    /// Looks points up, each on its own day: refusals 2 to 5, 12, 13; a point's own are in its result: 6 to 9.
    fn lookup_many(
        &self,
        group: &Group,
        nodes: &[i32],
        points: &[Position],
        results: &mut [Answer],
        place: &mut u64,
    ) -> u64;

    /// Lists the grids in force in an area: refusals 2 to 5, 10.
    fn grids_in_force(&self, group: &Group, area: Area, list: &mut InForce, place: &mut u64) -> u64;

    /// Finds the southmost, then westmost coordinate of an area that no grid holds: refusals 2 to 5, 10.
    fn hole(&self, group: &Group, area: Area, uncovered: &mut Uncovered, place: &mut u64) -> u64;

    /// Judges a log: refusals 2 to 5, 13; its first bad line is in the fault.
    fn judge_log(&self, group: &Group, nodes: &[i32], log: &[u8], fault: &mut Fault, place: &mut u64) -> u64;

    /// Loads floats as nodes: refusals 2, 11, 12.
    fn load_nodes(&self, floats: &[f32], flag: f32, quantum: i64, nodes: &mut [i32], place: &mut u64) -> u64;
}

/// All calls. `version` and `field` are never refused; the others answer as those of `Timed` do.
pub trait Calls: Timed {
    /// The version of the interface.
    fn version(&self) -> u64;

    /// Finds where field `number` of a line begins and ends.
    fn field(&self, line: &[u8], number: u64, part: &mut Part);

    /// Writes the line of a log for a point on a day and counts its bytes: refusals 2 to 9, 12, 13.
    fn write_log_line(
        &self,
        group: &Group,
        nodes: &[i32],
        at: Position,
        out: &mut [u8],
        count: &mut u64,
        place: &mut u64,
    ) -> u64;

    /// Turns what a lookup left into shifts in floats, or hands its refusal on; refusal 2 before it.
    fn screen_answer(&self, found: &Found, shifts: &mut [f64; MOST_PARAMETERS], place: &mut u64) -> u64;

    /// Turns a point and what a lookup left into the screen record; refusals as of `screen_answer`.
    fn screen_record(&self, lon: i64, lat: i64, found: &Found, screen: &mut Screen, place: &mut u64) -> u64;
}
