//! Rounding to the nearest whole number, a tie to the even one.

/// n / d for d above 0.
pub fn nearest(n: i64, d: i64) -> i64 {
    let (q, r) = (n.div_euclid(d), n.rem_euclid(d));
    let twice = 2 * r;
    q + i64::from(twice > d || twice == d && q & 1 == 1)
}

/// n / d for d above 0, where the quotient fits 64 bits.
pub fn nearest_wide(n: i128, d: i64) -> i64 {
    let q = n.div_euclid(d.into()) as i64;
    // less than d, so that the low words have it
    let twice = 2 * (n as i64).wrapping_sub(q.wrapping_mul(d));
    q + i64::from(twice > d || twice == d && q & 1 == 1)
}

/// n / d of any unsigned numbers, 0 for d = 0. The remainder is held against what it lacks of d, since twice of it may not
/// fit 64 bits.
fn nearest_unsigned(n: u64, d: u64) -> u64 {
    if d == 0 {
        return 0;
    }
    let (q, r) = (n / d, n % d);
    let lacking = d - r;
    q + u64::from(r > lacking || r == lacking && q & 1 == 1)
}

/// The low word of n / d for an n of two words, 0 for d = 0. The low words have the remainder, which is less than d.
fn nearest_pair(high: u64, low: u64, d: u64) -> u64 {
    if d == 0 {
        return 0;
    }
    let q = ((u128::from(high) << 64 | u128::from(low)) / u128::from(d)) as u64;
    let r = low.wrapping_sub(q.wrapping_mul(d));
    let lacking = d - r;
    q.wrapping_add(u64::from(r > lacking || r == lacking && q & 1 == 1))
}

/// Fills `out` with each numerator over its divisor, rounded, 0 for a divisor 0, as far as all three lists go.
pub fn round_each(numerators: &[u64], divisors: &[u64], out: &mut [u64]) {
    for ((out, &n), &d) in out.iter_mut().zip(numerators).zip(divisors) {
        *out = nearest_unsigned(n, d);
    }
}

/// The same of numerators of two words, of whose quotients it is the low word, as far as all four lists go.
pub fn round_pairs(highs: &[u64], lows: &[u64], divisors: &[u64], out: &mut [u64]) {
    for (((out, &high), &low), &d) in out.iter_mut().zip(highs).zip(lows).zip(divisors) {
        *out = nearest_pair(high, low, d);
    }
}
