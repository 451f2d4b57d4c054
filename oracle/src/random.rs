//! A seeded source of choices: splitmix64 (Steele, Lea and Flood 2014).

use crate::job::two;

pub struct Random(u64);

impl Random {
    /// Job `index` of `seed` has a source of its own, so any job can be made alone.
    pub fn of(seed: u64, index: u64) -> Self {
        let mut source = Self(seed);
        let base = source.next();
        Self(base ^ index.wrapping_mul(0xd1b5_4a32_d192_ed03))
    }

    pub fn next(&mut self) -> u64 {
        self.0 = self.0.wrapping_add(0x9e37_79b9_7f4a_7c15);
        let mut mixed = self.0;
        mixed = (mixed ^ (mixed >> 30)).wrapping_mul(0xbf58_476d_1ce4_e5b9);
        mixed = (mixed ^ (mixed >> 27)).wrapping_mul(0x94d0_49bb_1331_11eb);
        mixed ^ (mixed >> 31)
    }

    pub fn below(&mut self, bound: usize) -> usize {
        (self.next() >> 16) as usize % bound
    }

    pub fn between(&mut self, low: i32, high: i32) -> i32 {
        low + self.below((high - low + 1) as usize) as i32
    }

    pub fn chance(&mut self, percent: usize) -> bool {
        self.below(100) < percent
    }

    pub fn pick<T: Copy>(&mut self, from: &[T]) -> T {
        from[self.below(from.len())]
    }

    /// From 0 up to but not 1, 53 bits.
    pub fn unit(&mut self) -> f64 {
        (self.next() >> 11) as f64 * two(-53)
    }

    pub fn sign(&mut self) -> f64 {
        self.pick(&[1.0, -1.0])
    }
}
