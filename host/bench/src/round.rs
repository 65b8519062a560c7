//! The rounding alone, which is no call of the C interface: each back end has its own.

/// Fills the last list with each numerator over its divisor, rounded to the nearest whole number, a tie to the even one, 0 for
/// a divisor 0, as far as all three lists go.
pub type OneWord = fn(&[u64], &[u64], &mut [u64]);

/// The same of numerators of two words, the high ones first, as far as all four lists go; of the quotients it is the low words.
pub type TwoWords = fn(&[u64], &[u64], &[u64], &mut [u64]);

/// A back end's rounding.
#[derive(Clone, Copy)]
pub struct Round {
    pub one_word: OneWord,
    pub two_words: TwoWords,
}

/// The rounding by a C function of this name over these lists: a slice goes as pointer and length, and none overlaps the last one,
/// which is written.
#[cfg(any(plain_c, feature = "library"))]
macro_rules! round_in_c {
    ($name:literal, $($list:ident),*) => {
        |$($list,)* out| {
            unsafe extern "C" {
                #[link_name = $name]
                fn round($($list: *const u64, _: usize,)* out: *mut u64, _: usize);
            }
            unsafe { round($($list.as_ptr(), $list.len(),)* out.as_mut_ptr(), out.len()) }
        }
    };
}

/// Plain C's.
#[cfg(plain_c)]
pub const PLAIN_C: Round = Round {
    one_word: round_in_c!("plain_nearest_even", numerators, divisors),
    two_words: round_in_c!("plain_nearest_pairs", highs, lows, divisors),
};

/// The library's, which build/libtimed.a has for the benchmark alone.
#[cfg(feature = "library")]
pub const LIBRARY: Round = Round {
    one_word: round_in_c!("timed_nearest_even", numerators, divisors),
    two_words: round_in_c!("timed_nearest_pairs", highs, lows, divisors),
};
