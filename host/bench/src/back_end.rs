//! What is compared: plain C, plain Rust, and the library.

use crate::round::Round;
use interface::Timed;

/// A program that answers the timed calls, and its rounding.
pub struct BackEnd<'a> {
    pub name: &'static str,
    pub calls: &'a dyn Timed,
    pub round: Round,
}

const PLAIN_RUST: Round = Round { one_word: plain::round_each, two_words: plain::round_pairs };

/// Plain C where it was compiled, plain Rust, and last the library.
pub fn all(library: &dyn Timed, round: Round) -> Vec<BackEnd<'_>> {
    vec![
        #[cfg(plain_c)]
        BackEnd { name: "plain C", calls: &crate::plain_c::PlainC, round: crate::round::PLAIN_C },
        BackEnd { name: "plain Rust", calls: &plain::Plain, round: PLAIN_RUST },
        BackEnd { name: "library", calls: library, round },
    ]
}

#[cfg(test)]
mod tests {
    use super::all;
    use crate::round::Round;
    use reference::{Reference, round_each, round_pairs};

    const MOST: u64 = u64::MAX;

    /// The library's rounding where it is linked, else the second program's.
    #[cfg(feature = "library")]
    const LAST: Round = crate::round::LIBRARY;
    #[cfg(not(feature = "library"))]
    const LAST: Round = Round { one_word: round_each, two_words: round_pairs };

    /// Numerators at, below and above ties of a divisor, and the ends.
    fn about_ties(divisor: u64) -> impl Iterator<Item = u64> {
        let quotients = [0, 1, 2, 3, MOST.checked_div(divisor).unwrap_or(0)];
        let about = move |quotient: u64| {
            let tie = u128::from(quotient) * u128::from(divisor) + u128::from(divisor / 2);
            [tie.saturating_sub(1), tie, tie + 1]
        };
        quotients.into_iter().flat_map(about).filter_map(|n| n.try_into().ok()).chain([0, 1, MOST - 1, MOST])
    }

    #[test]
    fn every_back_end_rounds_alike() {
        let divisors = [0, 1, 2, 3, 4, 12_960_000, 1 << 32, MOST / 2, MOST / 2 + 1, MOST - 1, MOST];
        let pairs = divisors.into_iter().flat_map(|divisor| about_ties(divisor).map(move |n| (n, divisor)));
        let (numerators, divisors): (Vec<u64>, Vec<u64>) = pairs.unzip();
        let mut expected = vec![0; numerators.len()];
        round_each(&numerators, &divisors, &mut expected);
        for back_end in all(&Reference, LAST) {
            let mut rounded = vec![1; numerators.len()];
            (back_end.round.one_word)(&numerators, &divisors, &mut rounded);
            for (k, rounded) in rounded.into_iter().enumerate() {
                assert_eq!(rounded, expected[k], "{}: {} over {}", back_end.name, numerators[k], divisors[k]);
            }
        }
    }

    #[test]
    fn ties_go_to_the_even_number_and_nothing_is_too_great() {
        let numerators = [0, 1, 3, 5, 7, MOST, MOST, MOST, MOST / 2, MOST / 2 + 1, MOST];
        let divisors = [1, 2, 2, 2, 2, 0, 1, 2, MOST, MOST, MOST];
        for back_end in all(&Reference, LAST) {
            let mut rounded = [9; 11];
            (back_end.round.one_word)(&numerators, &divisors, &mut rounded);
            assert_eq!(rounded, [0, 0, 2, 2, 4, 0, MOST, 1 << 63, 0, 1, 1], "{}", back_end.name);
        }
    }

    #[test]
    fn as_much_is_rounded_as_the_shortest_list_has() {
        for back_end in all(&Reference, LAST) {
            for (numerators, divisors, lent) in [(1, 2, 3), (3, 1, 2), (2, 3, 1)] {
                let mut rounded = vec![9; lent];
                (back_end.round.one_word)(&[6; 3][..numerators], &[2; 3][..divisors], &mut rounded);
                only_the_first_is(3, &rounded, back_end.name);
            }
            for (highs, lows, divisors, lent) in [(1, 2, 3, 4), (4, 1, 2, 3), (3, 4, 1, 2), (2, 3, 4, 1)] {
                let mut rounded = vec![9; lent];
                let lists = (&[1; 4][..highs], &[0; 4][..lows], &[2; 4][..divisors]);
                (back_end.round.two_words)(lists.0, lists.1, lists.2, &mut rounded);
                only_the_first_is(1 << 63, &rounded, back_end.name);
            }
        }
    }

    fn only_the_first_is(rounded: u64, lent: &[u64], name: &str) {
        assert_eq!(lent[0], rounded, "{name}");
        assert!(lent[1..].iter().all(|&number| number == 9), "{name}");
    }

    /// Numerators of two words about ties, up to the greatest; of those whose quotient passes one word the low word is left.
    #[test]
    fn every_back_end_rounds_two_words_alike() {
        let divisors = [0, 1, 2, 3, 12_960_000_000_000, 1_296_000_000_000_000, 1 << 32, 1 << 63, MOST - 1, MOST];
        let quotients = [0, 1, 2, (1 << 32) - 1, 1 << 32, MOST - 1, MOST];
        let mut numerators = Vec::new();
        for (divisor, quotient) in divisors.into_iter().flat_map(|d| quotients.map(|q| (d, q))) {
            let tie = u128::from(quotient) * u128::from(divisor) + u128::from(divisor / 2);
            numerators
                .extend([tie.saturating_sub(1), tie, tie + 1, u128::MAX - u128::from(quotient)].map(|n| (n, divisor)));
        }
        let highs: Vec<u64> = numerators.iter().map(|(n, _)| (n >> 64) as u64).collect();
        let lows: Vec<u64> = numerators.iter().map(|&(n, _)| n as u64).collect();
        let divisors: Vec<u64> = numerators.iter().map(|&(_, d)| d).collect();
        let mut expected = vec![0; numerators.len()];
        round_pairs(&highs, &lows, &divisors, &mut expected);
        for back_end in all(&Reference, LAST) {
            let mut rounded = vec![1; numerators.len()];
            (back_end.round.two_words)(&highs, &lows, &divisors, &mut rounded);
            for (k, rounded) in rounded.into_iter().enumerate() {
                assert_eq!(rounded, expected[k], "{}: {:?}", back_end.name, numerators[k]);
            }
        }
    }

    /// Numerators of 2 to the power 64 and more, worked out by hand.
    #[test]
    fn two_words_go_to_the_nearest_and_ties_to_the_even_number() {
        // 2^64 over 2, 3 and 2^64 - 1; 2^65 + 2^63 + 2^62 over 2^63, 5.5; 2^65 + 2^62 over it, 4.5; 2^64 over 0
        let (highs, lows) = ([1, 1, 1, 2, 2, 1], [0, 0, 0, 3 << 62, 1 << 62, 0]);
        let divisors = [2, 3, MOST, 1 << 63, 1 << 63, 0];
        for back_end in all(&Reference, LAST) {
            let mut rounded = [9; 6];
            (back_end.round.two_words)(&highs, &lows, &divisors, &mut rounded);
            assert_eq!(rounded, [1 << 63, 6_148_914_691_236_517_205, 1, 6, 4, 0], "{}", back_end.name);
        }
    }
}
