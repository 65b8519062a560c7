//! Random functions of time: sound ones of every kind, damaged ones, and the days on which they matter.

use crate::random::Random;
use interface::Function;

/// The size of the last day.
const DAY: i64 = 1_000_000;

/// A day, often near 0, where those of other functions are, or the first or last one.
fn day(random: &mut Random) -> i64 {
    match random.below(4) {
        0 => random.between(-DAY, DAY),
        1 => random.pick(&[-DAY, DAY]),
        _ => random.between(-20, 20),
    }
}

fn factor(random: &mut Random) -> i64 {
    match random.below(4) {
        0 => random.between(-10_000_000, 10_000_000),
        1 => random.pick(&[-10_000_000, 10_000_000]),
        2 => random.pick(&[0, 1_000_000, 500_000]),
        _ => random.between(-3, 3),
    }
}

/// A day at, beside or between two days, in their order.
fn about(random: &mut Random, first: i64, last: i64) -> i64 {
    match random.below(8) {
        0 => first,
        1 => last,
        2..4 => random.pick(&[first, last]).saturating_add(random.between(-1, 1)),
        _ => random.between(first, last),
    }
}

/// A function that is accepted; some are over in few days, so that ties come. The reference day lies about the others, or anywhere.
pub fn sound(random: &mut Random) -> Function {
    let one = day(random);
    let other = if random.percent(30) { (one + random.pick(&[1, 2, 2, 2, 4])).min(DAY) } else { day(random) };
    let (first, last) = (one.min(other), one.max(other));
    let reference = if random.percent(80) { about(random, first, last) } else { day(random) }.clamp(-DAY, DAY);
    match random.below(3) {
        0 => Function::ramp(first, factor(random), last, factor(random)),
        1 => Function::step(one, reference, factor(random)),
        _ => {
            let start = first.min(DAY - 1);
            Function::ramp2(start, last.max(start + 1), reference, factor(random))
        }
    }
}

/// Kinds that are none, some of which are one of the three in their low bits.
const NO_KINDS: [i64; 9] = [3, -1, 4, 256, 258, 1 << 32, (1 << 32) + 1, i64::MIN, i64::MAX];

/// One beyond the limits of a day and of a factor.
const BEYOND: [i64; 4] = [DAY + 1, -DAY - 1, 10_000_001, -10_000_001];

/// Damages a function, used or not, in one place: a word, also one that its kind hasn't got, its kind, or the order of its days.
pub fn damage(random: &mut Random, function: &mut Function) {
    let Function { kind, numbers } = function;
    match random.below(12) {
        0..4 => numbers[random.below(4)] = random.odd(),
        4 | 5 => numbers[random.below(4)] = random.pick(&BEYOND),
        6 => *kind = random.pick(&NO_KINDS),
        7 | 8 => *kind = random.between(0, 2),
        9 => numbers[1] = numbers[0],
        10 => numbers.swap(0, 1),
        _ => numbers.swap(0, 2),
    }
}

/// A day on which a function matters: at, beside or between its own, now and then its reference day.
pub fn day_of(random: &mut Random, function: &Function) -> i64 {
    let [a, b, c, _] = function.numbers;
    let (first, last) = if function.kind == Function::RAMP { (a, c) } else { (a, b) };
    match random.below(8) {
        0 => c,
        _ => about(random, first.min(last), first.max(last)),
    }
}
