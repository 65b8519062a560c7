//! The static library behind the calls: the declarations of include/bulhyemik.h and nothing more.

use interface::{Calls, Fix, Found, Group, MOST_PARAMETERS, Part, Position, Screen};

mod c {
    use super::{Fix, Group, MOST_PARAMETERS, Part, Position, Screen};

    unsafe extern "C" {
        pub fn bulhyemik_version() -> u64;
        pub fn bulhyemik_field(line: *const u8, line_len: usize, number: u64, part: &mut Part);
        pub fn bulhyemik_write_log_line(
            group: &Group,
            nodes: *const i32,
            nodes_len: usize,
            position: &Position,
            out: *mut u8,
            out_len: usize,
            count: &mut u64,
            place: &mut u64,
        ) -> u64;
        pub fn bulhyemik_screen_answer(
            quantum: i64,
            parameters: i64,
            number: u64,
            at: u64,
            fix: &Fix,
            shifts: &mut [f64; MOST_PARAMETERS],
            place: &mut u64,
        ) -> u64;
        pub fn bulhyemik_screen_record(
            lon: i64,
            lat: i64,
            quantum: i64,
            parameters: i64,
            number: u64,
            at: u64,
            fix: &Fix,
            screen: &mut Screen,
            place: &mut u64,
        ) -> u64;
    }
}

/// The product's static library as a back end. Every function is total, and references and slices are valid memory that does
/// not overlap where it is written, which is all that the header asks of a caller.
pub struct Library;

interface::timed_in_c!(Library, "bulhyemik_");

impl Calls for Library {
    fn version(&self) -> u64 {
        unsafe { c::bulhyemik_version() }
    }

    fn field(&self, line: &[u8], number: u64, part: &mut Part) {
        unsafe { c::bulhyemik_field(line.as_ptr(), line.len(), number, part) }
    }

    fn write_log_line(
        &self,
        group: &Group,
        nodes: &[i32],
        at: Position,
        out: &mut [u8],
        count: &mut u64,
        place: &mut u64,
    ) -> u64 {
        let (from, into, len) = (nodes.as_ptr(), out.as_mut_ptr(), out.len());
        unsafe { c::bulhyemik_write_log_line(group, from, nodes.len(), &at, into, len, count, place) }
    }

    fn screen_answer(&self, found: &Found, shifts: &mut [f64; MOST_PARAMETERS], place: &mut u64) -> u64 {
        let &Found { quantum, parameters, number, at, ref fix } = found;
        unsafe { c::bulhyemik_screen_answer(quantum, parameters, number, at, fix, shifts, place) }
    }

    fn screen_record(&self, lon: i64, lat: i64, found: &Found, screen: &mut Screen, place: &mut u64) -> u64 {
        let &Found { quantum, parameters, number, at, ref fix } = found;
        unsafe { c::bulhyemik_screen_record(lon, lat, quantum, parameters, number, at, fix, screen, place) }
    }
}
