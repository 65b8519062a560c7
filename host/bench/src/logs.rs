//! Logs to be judged: long ones that pass, and single lines that are hard on a reader.

use interface::{Answer, Group, Position, Timed};
use std::io::Write;

/// The log of these points, which are all accepted, as plain Rust looks them up.
pub fn log(group: &Group, nodes: &[i32], points: &[Position]) -> Vec<u8> {
    let mut results = vec![Answer::default(); points.len()];
    plain::Plain.lookup_many(group, nodes, points, &mut results, &mut 0);
    let mut log = Vec::new();
    for (Position { lon, lat, day }, Answer { fix, .. }) in points.iter().zip(&results) {
        let name = group.grid[fix.grid as usize - 1].name;
        let _ = write!(log, "fix\t{lon}\t{lat}\t{day}\t{}", String::from_utf8_lossy(name.text()));
        for value in &fix.result[..group.parameters as usize] {
            let _ = write!(log, "\t{value}");
        }
        log.push(b'\n');
    }
    log
}

/// A line whose longitude has so many digits.
pub fn digits(count: usize) -> Vec<u8> {
    [b"fix\t", "7".repeat(count).as_bytes(), b"\t0\t0\tsea\t0\t0\n"].concat()
}

/// A line of so many empty fields.
pub fn tabs(count: usize) -> Vec<u8> {
    [b"fix", "\t".repeat(count).as_bytes(), b"\n"].concat()
}
