//! A group as the C interface passes it: plain signed numbers, so that it can hold any number that a caller may hand over.

use crate::{MOST_FUNCTIONS, MOST_GRIDS, NAME_BYTES};

/// A name: its bytes, zero behind its length, and its length. In C these are two fields of the struct that has the name.
#[repr(C)]
#[derive(Clone, Copy, Debug, Default, PartialEq, Eq)]
pub struct Name {
    pub bytes: [u8; NAME_BYTES],
    pub len: i64,
}

impl Name {
    /// The name of these bytes; only the first 24 are kept.
    pub fn new(text: &[u8]) -> Name {
        let mut bytes = [0; NAME_BYTES];
        let len = text.len().min(NAME_BYTES);
        bytes[..len].copy_from_slice(&text[..len]);
        Name { bytes, len: len as i64 }
    }

    /// The bytes that the length counts; all 24 where the length is none of a name.
    pub fn text(&self) -> &[u8] {
        match usize::try_from(self.len) {
            Ok(len) if len <= NAME_BYTES => &self.bytes[..len],
            _ => &self.bytes,
        }
    }
}

/// A function of time: its kind and four numbers, in the order of its line. In C the numbers are a union of one struct for each
/// kind. The function of zeros is a ramp.
#[repr(C)]
#[derive(Clone, Copy, Debug, Default, PartialEq, Eq)]
pub struct Function {
    pub kind: i64,
    pub numbers: [i64; 4],
}

impl Function {
    pub const RAMP: i64 = 0;
    pub const STEP: i64 = 1;
    pub const RAMP2: i64 = 2;

    /// The word of each kind's line and the count of its numbers, by kind; a number that a kind hasn't got is 0.
    pub const KINDS: [(&str, usize); 3] = [("ramp", 4), ("step", 3), ("ramp2", 4)];

    /// Factor S0 at and before day A, S1 at and after day B, in millionths.
    pub const fn ramp(a: i64, s0: i64, b: i64, s1: i64) -> Function {
        Function { kind: Function::RAMP, numbers: [a, s0, b, s1] }
    }

    /// MULT millionths times f(day) less f(REF), where f is 0 before EVENT and 1 from it on.
    pub const fn step(event: i64, reference: i64, mult: i64) -> Function {
        Function { kind: Function::STEP, numbers: [event, reference, mult, 0] }
    }

    /// MULT millionths times f(day) less f(REF), where f is 0 up to START, 1 from END on, and linear between.
    pub const fn ramp2(start: i64, end: i64, reference: i64, mult: i64) -> Function {
        Function { kind: Function::RAMP2, numbers: [start, end, reference, mult] }
    }

    /// The word of the function's line and the numbers behind it; none for a kind that is none.
    pub fn line(&self) -> Option<(&'static str, &[i64])> {
        let (word, count) = *Function::KINDS.get(usize::try_from(self.kind).ok()?)?;
        Some((word, &self.numbers[..count]))
    }
}

/// A grid: positions and spacings in milliarcseconds, node counts, rank, and its first place in the node list.
#[repr(C)]
#[derive(Clone, Copy, Debug, Default, PartialEq, Eq)]
pub struct Grid {
    pub name: Name,
    pub lon: i64,
    pub lat: i64,
    pub dlon: i64,
    pub dlat: i64,
    pub ni: i64,
    pub nj: i64,
    pub rank: i64,
    pub start: i64,
}

/// A whole group; the entries behind the two counts are unused.
#[repr(C)]
#[derive(Clone, Debug, PartialEq, Eq)]
pub struct Group {
    pub name: Name,
    pub unit: i64,
    pub quantum: i64,
    pub parameters: i64,
    pub functions: i64,
    pub grids: i64,
    pub function: [Function; MOST_FUNCTIONS],
    pub grid: [Grid; MOST_GRIDS],
}

impl Default for Group {
    /// The group of zeros: no names, unit arc-second, nothing counted.
    fn default() -> Group {
        Group {
            name: Name::default(),
            unit: 0,
            quantum: 0,
            parameters: 0,
            functions: 0,
            grids: 0,
            function: [Function::default(); MOST_FUNCTIONS],
            grid: [Grid::default(); MOST_GRIDS],
        }
    }
}
