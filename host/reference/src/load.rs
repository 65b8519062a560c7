//! Loading: 32-bit floats to nodes in steps, by exact fractions.

use crate::limits;
use crate::refusal::refuse;
use crate::rounding::nearest_even;
use interface::{MARK, Refusal};

/// A finite float as an exact product: whole digits times 2 to a power.
struct Exact {
    digits: i128,
    power: i32,
}

fn exact(x: f32) -> Exact {
    let bits = x.to_bits();
    let biased = (bits >> 23 & 0xff) as i32;
    let fraction = i128::from(bits & 0x7f_ffff);
    let (size, power) = if biased == 0 { (fraction, -149) } else { (fraction + (1 << 23), biased - 150) };
    Exact { digits: if bits >> 31 == 1 { -size } else { size }, power }
}

/// The float times 2 to the power `quantum`, rounded; `None` if that is beyond the limit of a node value.
fn rounded(x: f32, quantum: i64) -> Option<i32> {
    if x.is_infinite() {
        return None;
    }
    let Exact { digits, power } = exact(x);
    let shift = power + quantum as i32;
    let steps = match shift {
        0.. => digits.checked_mul(1 << shift.min(100))?,
        -100..0 => nearest_even(digits, 1 << -shift),
        _ => 0,
    };
    (steps.abs() <= limits::NODE).then_some(steps as i32)
}

/// The node of one float; `None` if it is refused.
fn node(x: f32, flag: f32, quantum: i64) -> Option<i32> {
    if x.is_nan() || x.to_bits() == flag.to_bits() { Some(MARK) } else { rounded(x, quantum) }
}

/// Loads the floats into `nodes`: refusals 2 (Q), 12, 11.
pub fn load_nodes(floats: &[f32], flag: f32, quantum: i64, nodes: &mut [i32]) -> Result<(), Refusal> {
    if !limits::quantum(i128::from(quantum)) {
        return refuse(2, 0);
    }
    if floats.len() != nodes.len() {
        return refuse(12, 0);
    }
    let mut loaded = Vec::with_capacity(floats.len());
    for (k, &x) in floats.iter().enumerate() {
        match node(x, flag, quantum) {
            Some(v) => loaded.push(v),
            None => return refuse(11, k + 1),
        }
    }
    nodes.copy_from_slice(&loaded);
    Ok(())
}

#[cfg(test)]
mod tests {
    use super::exact;

    #[test]
    fn a_float_is_its_digits_times_its_power() {
        for bits in [0, 1, 0x7f_ffff, 0x80_0000, 0x3f80_0000, 0xc2ae_0667, 0x7f7f_ffff] {
            let x = f32::from_bits(bits);
            let e = exact(x);
            assert_eq!(e.digits as f64 * 2f64.powi(e.power), f64::from(x));
        }
    }
}
