//! Numbers that look random, from one fixed start.

use std::ops::Range;

/// A source of numbers.
pub struct ThreadRng(u64);

/// A new source. Each begins at the same number, so that a run can be repeated.
pub fn thread_rng() -> ThreadRng {
    ThreadRng(0x9e37_79b9_7f4a_7c15)
}

/// What a source can do.
pub trait Rng {
    /// A number of the range, which is not empty.
    fn gen_range(&mut self, range: Range<usize>) -> usize;
}

impl Rng for ThreadRng {
    fn gen_range(&mut self, range: Range<usize>) -> usize {
        // Marsaglia's xorshift64.
        self.0 ^= self.0 << 13;
        self.0 ^= self.0 >> 7;
        self.0 ^= self.0 << 17;
        range.start + self.0 as usize % (range.end - range.start)
    }
}
