//! The fields of a line: all the bytes lent, parted at tabs alone.

use std::ops::Range;

/// Where field `number`, counted from 0, stands; past the last field the empty part at the line's end.
pub fn field(line: &[u8], number: u64) -> Range<usize> {
    let mut from = 0;
    for (k, part) in line.split(|&c| c == b'\t').enumerate() {
        if k as u64 == number {
            return from..from + part.len();
        }
        from += part.len() + 1;
    }
    line.len()..line.len()
}
