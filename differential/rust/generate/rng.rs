//! A small generator of random numbers (splitmix64).

use std::cell::Cell;

pub struct Rng(Cell<u64>);

impl Rng {
    pub fn new(profile: &str, seed: u64) -> Self {
        let name = profile
            .bytes()
            .fold(0xcbf2_9ce4_8422_2325u64, |h, b| (h ^ u64::from(b)).wrapping_mul(0x0000_0100_0000_01b3));
        let rng = Self(Cell::new(name ^ seed.wrapping_mul(0x9e37_79b9_7f4a_7c15)));
        rng.bits();
        rng
    }

    pub fn bits(&self) -> u64 {
        let mut z = self.0.get().wrapping_add(0x9e37_79b9_7f4a_7c15);
        self.0.set(z);
        z = (z ^ (z >> 30)).wrapping_mul(0xbf58_476d_1ce4_e5b9);
        z = (z ^ (z >> 27)).wrapping_mul(0x94d0_49bb_1331_11eb);
        z ^ (z >> 31)
    }

    /// One of 0 to n - 1.
    pub fn below(&self, n: usize) -> usize {
        (self.bits() % n as u64) as usize
    }

    /// One of lo to hi, both included.
    pub fn range(&self, lo: usize, hi: usize) -> usize {
        lo + self.below(hi - lo + 1)
    }

    /// True so many times in a thousand.
    pub fn chance(&self, per_mille: u32) -> bool {
        self.bits() % 1000 < u64::from(per_mille)
    }

    pub fn pick<T: Copy>(&self, from: &[T]) -> T {
        from[self.below(from.len())]
    }

    pub fn shuffle<T>(&self, list: &mut [T]) {
        for i in (1..list.len()).rev() {
            list.swap(i, self.below(i + 1));
        }
    }
}
