//! Numbers that look random and are the same in every run.

/// A stream of numbers (splitmix64), fixed by its seed.
pub struct Random {
    state: u64,
}

impl Random {
    /// The stream of input `index` of a seed to the named call: each input can be made again by itself.
    pub fn new(call: &str, seed: u64, index: usize) -> Random {
        let named =
            call.bytes().fold(0xcbf2_9ce4_8422_2325, |h: u64, c| (h ^ u64::from(c)).wrapping_mul(0x100_0000_01b3));
        let seeded = named.wrapping_add(seed.wrapping_mul(0xd134_2543_de82_ef95));
        let mut random = Random { state: seeded.wrapping_add((index as u64).wrapping_mul(0x9e37_79b9)) };
        random.bits();
        random
    }

    pub fn bits(&mut self) -> u64 {
        self.state = self.state.wrapping_add(0x9e37_79b9_7f4a_7c15);
        let mut z = self.state;
        z = (z ^ (z >> 30)).wrapping_mul(0xbf58_476d_1ce4_e5b9);
        z = (z ^ (z >> 27)).wrapping_mul(0x94d0_49bb_1331_11eb);
        z ^ (z >> 31)
    }

    /// A number from 0 up to, not with, n.
    pub fn below(&mut self, n: usize) -> usize {
        (self.bits() % n as u64) as usize
    }

    /// A number from a to b, both included.
    pub fn between(&mut self, a: i64, b: i64) -> i64 {
        (i128::from(a) + i128::from(self.bits()) % (i128::from(b) - i128::from(a) + 1)) as i64
    }

    pub fn pick<T: Copy>(&mut self, from: &[T]) -> T {
        from[self.below(from.len())]
    }

    /// True in so many percent of the cases.
    pub fn percent(&mut self, percent: usize) -> bool {
        self.below(100) < percent
    }

    /// A number that breaks, meets or just misses some limit of document 01.
    pub fn odd(&mut self) -> i64 {
        const LIMITS: [i64; 19] = [
            0,
            1,
            3,
            8,
            20,
            24,
            64,
            1_000,
            16_384,
            1_000_000,
            10_000_000,
            16_777_215,
            36_000_000,
            324_000_000,
            648_000_000,
            1_296_000_000,
            1 << 31,
            1 << 32,
            1 << 62,
        ];
        const ENDS: [i64; 4] = [i64::MIN, i64::MIN + 1, i64::MAX, -(1 << 62)];
        if self.percent(15) {
            return self.pick(&ENDS);
        }
        let limit = self.pick(&LIMITS) + self.between(-1, 2);
        if self.percent(50) { limit } else { -limit }
    }
}
