//! The writer of a header text.

use crate::judge::{judge, refusal};
use interface::{Function, Group, Name, Refusal};

/// No accepted group has a longer header text.
const LONGEST: usize = 6_732;

/// Header text in a buffer that holds the longest.
struct Text {
    bytes: [u8; LONGEST],
    len: usize,
}

impl Text {
    fn put(&mut self, bytes: &[u8]) {
        self.bytes[self.len..self.len + bytes.len()].copy_from_slice(bytes);
        self.len += bytes.len();
    }

    fn name(&mut self, name: &Name) {
        self.put(b"\t");
        self.put(name.text());
    }

    fn numbers(&mut self, numbers: &[i64]) {
        for &number in numbers {
            self.put(if number < 0 { b"\t-" } else { b"\t" });
            let mut digits = [0; 20];
            let (mut at, mut size) = (digits.len(), number.unsigned_abs());
            loop {
                at -= 1;
                digits[at] = b'0' + (size % 10) as u8;
                size /= 10;
                if size == 0 {
                    break;
                }
            }
            self.put(&digits[at..]);
        }
        self.put(b"\n");
    }
}

/// Writes the header of a group into `out` and answers the count of bytes.
pub fn write(group: &Group, out: &mut [u8]) -> Result<usize, Refusal> {
    judge(group)?;
    let mut text = Text { bytes: [0; LONGEST], len: 0 };
    text.put(b"group");
    text.name(&group.name);
    text.put(if group.unit == 0 { b"\tarc-second" } else { b"\tmetre" });
    text.numbers(&[group.quantum, group.parameters, group.functions, group.grids]);
    for (word, numbers) in group.function[..group.functions as usize].iter().filter_map(Function::line) {
        text.put(word.as_bytes());
        text.numbers(numbers);
    }
    for g in &group.grid[..group.grids as usize] {
        text.put(b"grid");
        text.name(&g.name);
        text.numbers(&[g.lon, g.lat, g.dlon, g.dlat, g.ni, g.nj, g.rank, g.start]);
    }
    if out.len() < text.len {
        return Err(refusal(12, 0));
    }
    out[..text.len].copy_from_slice(&text.bytes[..text.len]);
    Ok(text.len)
}
