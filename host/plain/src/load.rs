//! Loading floats as nodes.

use crate::judge::{between, refusal};
use interface::{MARK, Refusal};

const LIMIT: f64 = 2_147_483_647.0;

/// The node of a float, or none if it is beyond the limit. The product is exact in 64 bits.
fn node(x: f32, flag: f32, steps: f64) -> Option<i32> {
    if x.is_nan() || x.to_bits() == flag.to_bits() {
        return Some(MARK);
    }
    let rounded = (f64::from(x) * steps).round_ties_even();
    (rounded.abs() <= LIMIT).then_some(rounded as i32)
}

/// Loads floats: all are looked at before the first node is written.
pub fn load(floats: &[f32], flag: f32, quantum: i64, nodes: &mut [i32]) -> Result<(), Refusal> {
    if !between(quantum, 0, 20) {
        return Err(refusal(2, 0));
    }
    if floats.len() != nodes.len() {
        return Err(refusal(12, 0));
    }
    let steps = (1u64 << quantum) as f64;
    if let Some(k) = floats.iter().position(|&x| node(x, flag, steps).is_none()) {
        return Err(refusal(11, k + 1));
    }
    for (into, &x) in nodes.iter_mut().zip(floats) {
        *into = node(x, flag, steps).unwrap_or(MARK);
    }
    Ok(())
}
