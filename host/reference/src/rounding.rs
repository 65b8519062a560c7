//! Rounding of an exact fraction to the nearest whole number, a tie to the even one.

use std::cmp::Ordering;

/// The whole number nearest to `numerator / divisor`, for a divisor above 0.
pub fn nearest_even(numerator: i128, divisor: i128) -> i128 {
    let below = numerator.div_euclid(divisor);
    let left = numerator.rem_euclid(divisor);
    match (2 * left).cmp(&divisor) {
        Ordering::Less => below,
        Ordering::Greater => below + 1,
        Ordering::Equal => below + below.rem_euclid(2),
    }
}

/// Fills `out` with each numerator over its divisor, rounded, 0 for a divisor 0, as far as all three lists go.
pub fn round_each(numerators: &[u64], divisors: &[u64], out: &mut [u64]) {
    for ((out, &numerator), &divisor) in out.iter_mut().zip(numerators).zip(divisors) {
        *out = if divisor == 0 { 0 } else { nearest_even(numerator.into(), divisor.into()) as u64 };
    }
}

/// Fills `out` with the low word of each numerator of two words over its divisor, rounded, 0 for a divisor 0, as far as all four
/// lists go.
pub fn round_pairs(highs: &[u64], lows: &[u64], divisors: &[u64], out: &mut [u64]) {
    let numerators = highs.iter().zip(lows).map(|(&high, &low)| u128::from(high) << 64 | u128::from(low));
    for ((out, numerator), &divisor) in out.iter_mut().zip(numerators).zip(divisors) {
        *out = if divisor == 0 { 0 } else { nearest_pair(numerator, divisor.into()) as u64 };
    }
}

/// As `nearest_even`, of numerators that may have 128 bits.
fn nearest_pair(numerator: u128, divisor: u128) -> u128 {
    let (below, left) = (numerator / divisor, numerator % divisor);
    match (2 * left).cmp(&divisor) {
        Ordering::Less => below,
        Ordering::Greater => below + 1,
        Ordering::Equal => below + below % 2,
    }
}

#[cfg(test)]
mod tests {
    use super::nearest_even;

    #[test]
    fn ties_go_to_the_even_number() {
        let halves: Vec<i128> = (-5..=5).map(|n| nearest_even(n, 2)).collect();
        assert_eq!(halves, [-2, -2, -2, -1, 0, 0, 0, 1, 2, 2, 2]);
    }

    #[test]
    fn no_other_whole_number_is_nearer() {
        for divisor in 1..40 {
            for numerator in -200..200 {
                let r = nearest_even(numerator, divisor);
                let off = (numerator - r * divisor).abs();
                assert!(2 * off < divisor || 2 * off == divisor && r % 2 == 0);
            }
        }
    }
}
