//! A small seeded generator of random numbers (splitmix64).

#![forbid(unsafe_code)]

use std::collections::hash_map::RandomState;
use std::hash::BuildHasher;
use std::ops::RangeInclusive;

const STEP: u64 = 0x9e37_79b9_7f4a_7c15;

/// The same seed gives the same numbers.
#[derive(Clone, Debug)]
pub struct Random {
    state: u64,
}

impl Random {
    pub fn new(seed: u64) -> Self {
        Self { state: seed }
    }

    /// The generator for one plan of a seed, independent of those of the other plans.
    pub fn for_plan(seed: u64, index: u64) -> Self {
        let mut start = Self::new(seed);
        let first = start.next_number();
        Self::new(first ^ Self::new(index).next_number())
    }

    pub fn next_number(&mut self) -> u64 {
        self.state = self.state.wrapping_add(STEP);
        let mut mixed = self.state;
        mixed = (mixed ^ (mixed >> 30)).wrapping_mul(0xbf58_476d_1ce4_e5b9);
        mixed = (mixed ^ (mixed >> 27)).wrapping_mul(0x94d0_49bb_1331_11eb);
        mixed ^ (mixed >> 31)
    }

    /// A number below the bound, which is not 0.
    pub fn below(&mut self, bound: usize) -> usize {
        let wide = u128::from(self.next_number()) * bound as u128;
        (wide >> 64) as usize
    }

    pub fn within(&mut self, range: RangeInclusive<usize>) -> usize {
        range.start() + self.below(range.end() - range.start() + 1)
    }

    /// True so many times in a hundred.
    pub fn percent(&mut self, percent: usize) -> bool {
        self.below(100) < percent
    }

    /// One of these, of which there is at least one.
    pub fn pick<T: Copy>(&mut self, items: &[T]) -> T {
        items[self.below(items.len())]
    }

    /// One of these to be changed, of which there is at least one.
    pub fn pick_mut<'a, T>(&mut self, items: &'a mut [T]) -> &'a mut T {
        let place = self.below(items.len());
        &mut items[place]
    }

    /// A length from 1 to a limit: small mostly, and now and then the limit.
    pub fn length(&mut self, limit: usize) -> usize {
        match self.below(100) {
            0..70 => self.within(1..=16.min(limit)),
            70..94 => self.within(1..=100.min(limit)),
            94..98 => self.within(1..=limit),
            _ => limit,
        }
    }
}

/// A seed from the operating system's randomness, for runs that are given none.
pub fn fresh_seed() -> u64 {
    RandomState::new().hash_one(0_u8) >> 16
}

#[cfg(test)]
mod tests {
    use super::*;

    #[test]
    fn the_known_first_numbers() {
        let mut random = Random::new(0);
        assert_eq!(random.next_number(), 0xe220_a839_7b1d_cdaf);
        assert_eq!(random.next_number(), 0x6e78_9e6a_a1b9_65f4);
    }

    #[test]
    fn within_bounds() {
        let mut random = Random::new(1);
        let mut seen = [false; 5];
        for _ in 0..200 {
            seen[random.within(0..=4)] = true;
            assert!((1..=7).contains(&random.length(7)));
        }
        assert!(seen.iter().all(|&seen| seen));
    }
}
