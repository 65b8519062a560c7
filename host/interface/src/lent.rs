//! Lent output for tests: filled with a pattern before a call, and compared bit by bit after it.

use crate::{Answer, Fault, Fix, Group, InForce, Part, Screen, Uncovered};
use std::fmt::Debug;
use std::slice::{from_mut, from_raw_parts, from_raw_parts_mut, from_ref};

/// An element that lent output is made of.
pub trait Element: Copy + Debug {
    /// What stands at place k before the call.
    fn pattern(k: usize) -> Self;

    /// The element's bits.
    fn bits(self) -> u64;
}

impl Element for i64 {
    fn pattern(k: usize) -> i64 {
        -7_000_000_001 - k as i64
    }

    fn bits(self) -> u64 {
        self as u64
    }
}

impl Element for u64 {
    fn pattern(k: usize) -> u64 {
        7_000_000_000_000_000_001 + k as u64
    }

    fn bits(self) -> u64 {
        self
    }
}

impl Element for i32 {
    fn pattern(k: usize) -> i32 {
        -70_001 - (k % 1000) as i32
    }

    fn bits(self) -> u64 {
        self as u64
    }
}

impl Element for u8 {
    fn pattern(k: usize) -> u8 {
        0xa5 ^ (k % 251) as u8
    }

    fn bits(self) -> u64 {
        self.into()
    }
}

impl Element for f64 {
    fn pattern(k: usize) -> f64 {
        -7.5 - k as f64
    }

    fn bits(self) -> u64 {
        self.to_bits()
    }
}

/// A struct of the header as the 64-bit words that it is made of.
///
/// # Safety
/// The struct is `repr(C)`, is made of whole words alone (a name of 24 bytes is three), and all bits are admitted in each.
pub unsafe trait Words: Clone + Default {
    type Word: Element;

    /// All words of the struct, in their order.
    fn words(&self) -> &[Self::Word] {
        Self::words_of(from_ref(self))
    }

    /// The struct with the pattern in every word.
    fn patterned() -> Self {
        let mut lent = Self::default();
        Self::fill(from_mut(&mut lent));
        lent
    }

    /// All words of a list, in their order.
    fn words_of(list: &[Self]) -> &[Self::Word] {
        unsafe { from_raw_parts(list.as_ptr().cast(), size_of_val(list) / size_of::<Self::Word>()) }
    }

    /// A list of so many with the pattern in every word.
    fn patterned_list(len: usize) -> Vec<Self> {
        let mut lent = vec![Self::default(); len];
        Self::fill(&mut lent);
        lent
    }

    /// Puts the pattern into every word of a list.
    fn fill(list: &mut [Self]) {
        let words: &mut [Self::Word] =
            unsafe { from_raw_parts_mut(list.as_mut_ptr().cast(), size_of_val(list) / size_of::<Self::Word>()) };
        words.iter_mut().enumerate().for_each(|(k, word)| *word = Element::pattern(k));
    }
}

unsafe impl Words for Group {
    type Word = i64;
}

unsafe impl Words for Fix {
    type Word = i64;
}

unsafe impl Words for Answer {
    type Word = i64;
}

unsafe impl Words for InForce {
    type Word = i64;
}

unsafe impl Words for Uncovered {
    type Word = i64;
}

unsafe impl Words for Fault {
    type Word = u64;
}

unsafe impl Words for Part {
    type Word = u64;
}

unsafe impl Words for Screen {
    type Word = f64;
}

/// `len` elements of the pattern.
pub fn patterned<T: Element>(len: usize) -> Vec<T> {
    (0..len).map(T::pattern).collect()
}

/// Says where `got`, of the same length, is not `expected`, if anywhere.
pub fn compare<T: Element>(what: &str, got: &[T], expected: &[T]) -> Result<(), String> {
    match (0..expected.len()).find(|&k| got[k].bits() != expected[k].bits()) {
        Some(k) => Err(format!("{what}[{k}] is {:?} instead of {:?}", got[k], expected[k])),
        None => Ok(()),
    }
}
