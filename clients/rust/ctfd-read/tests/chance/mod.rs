//! Pseudo-random numbers that are the same in each run.

/// A generator of pseudo-random numbers, the same in each run.
pub struct Chance(u64);

impl Chance {
    /// A generator with the seed of all tests.
    pub fn new() -> Chance {
        Chance(0x9e37_79b9_7f4a_7c15)
    }

    /// A number below `end`.
    pub fn below(&mut self, end: usize) -> usize {
        self.0 ^= self.0 << 13;
        self.0 ^= self.0 >> 7;
        self.0 ^= self.0 << 17;
        (self.0 % end as u64) as usize
    }
}
