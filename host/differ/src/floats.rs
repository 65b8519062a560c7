//! Random floats to load: any bits, ties, values near the limit, and what becomes the mark.

use crate::random::Random;

/// The greatest float, in steps, that loads, and the least one beyond it.
const MOST: i64 = 2_147_483_520;
const BEYOND: f32 = 2_147_483_648.0;

/// A float that loads, if only just, at this quantum.
fn loads(random: &mut Random, quantum: i64) -> f32 {
    let step = 0.5f32.powi(quantum.clamp(0, 20) as i32);
    match random.below(6) {
        0 => (random.between(-MOST, MOST) as f32) * step,
        5 => (random.between(-4_000_001, 4_000_001) as f32) * step,
        1 => (random.between(-2_000, 2_000) as f32 + 0.5) * step,
        2 => f32::from_bits((random.bits() as u32 & 0x8000_007f) | random.pick(&[0, 0x3380_0000, 0x3f00_0000])) * step,
        3 => random.pick(&[MOST as f32, -MOST as f32, 4_000_000.5, -4_000_001.0, 0.0, -0.0]) * step,
        _ => (random.between(-9, 9) as f32 * 0.25) * step,
    }
}

/// A float of any kind.
fn any(random: &mut Random, quantum: i64) -> f32 {
    let step = 0.5f32.powi(quantum.clamp(0, 20) as i32);
    match random.below(6) {
        0 => f32::from_bits(random.bits() as u32),
        1 => f32::from_bits(random.pick(&[0x7f80_0000, 0xff80_0000, 0x7fc0_0000, 0x7f80_0001, 0xffff_ffff])),
        2 => random.pick(&[BEYOND, -BEYOND, -BEYOND, -BEYOND - 256.0, BEYOND * 2.0]) * step,
        _ => loads(random, quantum),
    }
}

/// Floats, most lists of which load as a whole, and a flag.
pub fn floats(random: &mut Random, quantum: i64) -> (Vec<f32>, f32) {
    let len = random.pick(&[0, 1, 1, 2, 3, 8, 40]);
    let wild = random.percent(40);
    let mut list: Vec<f32> =
        (0..len).map(|_| if wild { any(random, quantum) } else { loads(random, quantum) }).collect();
    let flag = match random.below(5) {
        0 => f32::NAN,
        1 => random.pick(&[0.0, -0.0, f32::INFINITY, f32::NEG_INFINITY]),
        2 => any(random, quantum),
        _ => -9999.0,
    };
    if let (true, Some(last)) = (random.percent(50), list.last_mut()) {
        *last = random.pick(&[flag, -flag, f32::NAN]);
    }
    (list, flag)
}
