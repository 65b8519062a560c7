//! What a call left behind: the returned number and the bits of all lent memory.

use interface::lent::Element;

#[derive(Clone, Debug, PartialEq, Eq)]
pub struct Outcome {
    pub number: u64,
    lent: Vec<(&'static str, Vec<u64>)>,
}

impl Outcome {
    pub fn new(number: u64) -> Outcome {
        Outcome { number, lent: Vec::new() }
    }

    /// The outcome with a lent array more.
    pub fn with<T: Element>(mut self, what: &'static str, lent: &[T]) -> Outcome {
        self.lent.push((what, lent.iter().map(|x| x.bits()).collect()));
        self
    }

    /// Where another outcome of the same call differs, if anywhere.
    pub fn difference(&self, other: &Outcome) -> Option<String> {
        if self.number != other.number {
            return Some(format!("returned {} and {}", self.number, other.number));
        }
        self.lent.iter().zip(&other.lent).find_map(|((what, one), (_, two))| {
            let k = (0..one.len()).find(|&k| one[k] != two[k])?;
            Some(format!("{what}[{k}] is {} and {}", one[k] as i64, two[k] as i64))
        })
    }
}
