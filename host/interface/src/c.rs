//! The timed calls over a program written in C.

/// Declares C functions whose names are a prefix and the call's name, each of the shape that its call has in
/// include/bulhyemik.h, and answers the timed calls of a back end by them: a slice goes as pointer and length.
///
/// The functions must be total; references and slices are valid memory that does not overlap where it is written, which is all
/// that the header asks of a caller.
#[macro_export]
macro_rules! timed_in_c {
    ($back_end:ident, $prefix:literal) => {
        const _: () = {
            use $crate::{Answer, Area, Fault, Fix, Group, InForce, Position, Uncovered};

            unsafe extern "C" {
                #[link_name = concat!($prefix, "judge")]
                fn judge(group: &Group, place: &mut u64) -> u64;
                #[link_name = concat!($prefix, "read_header")]
                fn read_header(text: *const u8, text_len: usize, group: &mut Group, place: &mut u64) -> u64;
                #[link_name = concat!($prefix, "write_header")]
                fn write_header(group: &Group, out: *mut u8, out_len: usize, count: &mut u64, place: &mut u64) -> u64;
                #[link_name = concat!($prefix, "lookup")]
                fn lookup(
                    group: &Group,
                    nodes: *const i32,
                    nodes_len: usize,
                    lon: i64,
                    lat: i64,
                    day: i64,
                    fix: &mut Fix,
                    place: &mut u64,
                ) -> u64;
                #[link_name = concat!($prefix, "lookup_many")]
                fn lookup_many(
                    group: &Group,
                    nodes: *const i32,
                    nodes_len: usize,
                    points: *const Position,
                    points_len: usize,
                    results: *mut Answer,
                    results_len: usize,
                    place: &mut u64,
                ) -> u64;
                #[link_name = concat!($prefix, "grids_in_force")]
                fn grids_in_force(
                    group: &Group,
                    west: i64,
                    east: i64,
                    south: i64,
                    north: i64,
                    list: &mut InForce,
                    place: &mut u64,
                ) -> u64;
                #[link_name = concat!($prefix, "hole")]
                fn hole(
                    group: &Group,
                    west: i64,
                    east: i64,
                    south: i64,
                    north: i64,
                    uncovered: &mut Uncovered,
                    place: &mut u64,
                ) -> u64;
                #[link_name = concat!($prefix, "judge_log")]
                fn judge_log(
                    group: &Group,
                    nodes: *const i32,
                    nodes_len: usize,
                    log: *const u8,
                    log_len: usize,
                    fault: &mut Fault,
                    place: &mut u64,
                ) -> u64;
                #[link_name = concat!($prefix, "load_nodes")]
                fn load_nodes(
                    floats: *const f32,
                    floats_len: usize,
                    flag: f32,
                    quantum: i64,
                    nodes: *mut i32,
                    nodes_len: usize,
                    place: &mut u64,
                ) -> u64;
            }

            impl $crate::Timed for $back_end {
                fn judge(&self, group: &Group, place: &mut u64) -> u64 {
                    unsafe { judge(group, place) }
                }

                fn read_header(&self, text: &[u8], group: &mut Group, place: &mut u64) -> u64 {
                    unsafe { read_header(text.as_ptr(), text.len(), group, place) }
                }

                fn write_header(&self, group: &Group, out: &mut [u8], count: &mut u64, place: &mut u64) -> u64 {
                    unsafe { write_header(group, out.as_mut_ptr(), out.len(), count, place) }
                }

                fn lookup(&self, group: &Group, nodes: &[i32], at: Position, fix: &mut Fix, place: &mut u64) -> u64 {
                    let Position { lon, lat, day } = at;
                    unsafe { lookup(group, nodes.as_ptr(), nodes.len(), lon, lat, day, fix, place) }
                }

                fn lookup_many(
                    &self,
                    group: &Group,
                    nodes: &[i32],
                    points: &[Position],
                    results: &mut [Answer],
                    place: &mut u64,
                ) -> u64 {
                    let (at, from, into) = (nodes.as_ptr(), points.as_ptr(), results.as_mut_ptr());
                    unsafe { lookup_many(group, at, nodes.len(), from, points.len(), into, results.len(), place) }
                }

                fn grids_in_force(&self, group: &Group, area: Area, list: &mut InForce, place: &mut u64) -> u64 {
                    let Area { west, east, south, north } = area;
                    unsafe { grids_in_force(group, west, east, south, north, list, place) }
                }

                fn hole(&self, group: &Group, area: Area, uncovered: &mut Uncovered, place: &mut u64) -> u64 {
                    let Area { west, east, south, north } = area;
                    unsafe { hole(group, west, east, south, north, uncovered, place) }
                }

                fn judge_log(
                    &self,
                    group: &Group,
                    nodes: &[i32],
                    log: &[u8],
                    fault: &mut Fault,
                    place: &mut u64,
                ) -> u64 {
                    let (at, from) = (nodes.as_ptr(), log.as_ptr());
                    unsafe { judge_log(group, at, nodes.len(), from, log.len(), fault, place) }
                }

                fn load_nodes(
                    &self,
                    floats: &[f32],
                    flag: f32,
                    quantum: i64,
                    nodes: &mut [i32],
                    place: &mut u64,
                ) -> u64 {
                    let (from, into) = (floats.as_ptr(), nodes.as_mut_ptr());
                    unsafe { load_nodes(from, floats.len(), flag, quantum, into, nodes.len(), place) }
                }
            }
        };
    };
}
