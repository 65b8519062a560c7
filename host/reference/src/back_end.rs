//! The second program as a back end.

use crate::coverage::{grids_in_force, hole};
use crate::field::field;
use crate::header::{read_header, write_header};
use crate::judge::judge;
use crate::load::load_nodes;
use crate::log::{judge_log, write_log_line};
use crate::lookup::{lookup, lookup_many};
use crate::screen::{screen_answer, screen_record};
use interface::{Answers, Calls, Found, Group, MOST_PARAMETERS, Part, Position, Program, Screen, VERSION, hand_back};

/// The reference as a back end.
pub struct Reference;

impl Program for Reference {
    const ANSWERS: Answers =
        Answers { judge, read_header, write_header, lookup, lookup_many, grids_in_force, hole, judge_log, load_nodes };
}

impl Calls for Reference {
    fn version(&self) -> u64 {
        VERSION
    }

    fn field(&self, line: &[u8], number: u64, part: &mut Part) {
        let found = field(line, number);
        *part = Part { from: found.start as u64, to: found.end as u64 };
    }

    fn write_log_line(
        &self,
        group: &Group,
        nodes: &[i32],
        at: Position,
        out: &mut [u8],
        count: &mut u64,
        place: &mut u64,
    ) -> u64 {
        hand_back(write_log_line(group, nodes, at, out).map(|written| written as u64), count, place)
    }

    fn screen_answer(&self, found: &Found, shifts: &mut [f64; MOST_PARAMETERS], place: &mut u64) -> u64 {
        hand_back(screen_answer(found), shifts, place)
    }

    fn screen_record(&self, lon: i64, lat: i64, found: &Found, screen: &mut Screen, place: &mut u64) -> u64 {
        hand_back(screen_record(lon, lat, found), screen, place)
    }
}
