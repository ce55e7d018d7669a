//! A seeded generator of pseudo-random numbers. Equal seeds give equal numbers.

use std::ops::RangeInclusive;

/// A pseudo-random generator (splitmix64).
pub struct Random(u64);

impl Random {
    pub fn new(seed: u64) -> Random {
        Random(seed)
    }

    /// The next 64 bits.
    pub fn draw(&mut self) -> u64 {
        self.0 = self.0.wrapping_add(0x9e37_79b9_7f4a_7c15);
        let mut z = self.0;
        z = (z ^ (z >> 30)).wrapping_mul(0xbf58_476d_1ce4_e5b9);
        z = (z ^ (z >> 27)).wrapping_mul(0x94d0_49bb_1331_11eb);
        z ^ (z >> 31)
    }

    /// A number from 0 to `limit` − 1.
    pub fn below(&mut self, limit: usize) -> usize {
        (self.draw() % limit as u64) as usize
    }

    pub fn within(&mut self, range: &RangeInclusive<usize>) -> usize {
        range.start() + self.below(range.end() - range.start() + 1)
    }

    /// True in `percent` of 100 cases.
    pub fn chance(&mut self, percent: usize) -> bool {
        self.below(100) < percent
    }

    pub fn pick<T: Copy>(&mut self, things: &[T]) -> T {
        things[self.below(things.len())]
    }

    /// An ascending part of 0 .. `things`, sparse, dense or whole.
    pub fn subset(&mut self, things: usize) -> Vec<usize> {
        let percent = self.pick(&[20, 50, 80, 100]);
        (0..things).filter(|_| self.chance(percent)).collect()
    }

    /// `count` different numbers below `things`, ascending.
    pub fn choose(&mut self, count: usize, things: usize) -> Vec<usize> {
        let mut all: Vec<usize> = (0..things).collect();
        for chosen in 0..count {
            let other = chosen + self.below(things - chosen);
            all.swap(chosen, other);
        }
        all.truncate(count);
        all.sort_unstable();
        all
    }
}
