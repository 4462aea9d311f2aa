//! Random numbers from a seed.

use std::ops::RangeInclusive;
use std::time::{SystemTime, UNIX_EPOCH};

/// SplitMix64: small, and any seed does.
#[derive(Clone, Debug)]
pub struct Random {
    state: u64,
}

const STEP: u64 = 0x9e37_79b9_7f4a_7c15;

fn mixed(mut z: u64) -> u64 {
    z = (z ^ (z >> 30)).wrapping_mul(0xbf58_476d_1ce4_e5b9);
    z = (z ^ (z >> 27)).wrapping_mul(0x94d0_49bb_1331_11eb);
    z ^ (z >> 31)
}

/// A seed from the clock, short enough to be typed.
pub fn seed_of_the_clock() -> u64 {
    let now = SystemTime::now().duration_since(UNIX_EPOCH).unwrap_or_default();
    mixed(now.as_nanos() as u64) % 1_000_000_000_000
}

impl Random {
    pub fn new(seed: u64) -> Self {
        Self { state: mixed(seed) }
    }

    /// The generator of the case `number` of a run: which thread comes to it doesn't matter.
    pub fn of_case(seed: u64, run: u64, number: u64) -> Self {
        Self::new(mixed(seed) ^ mixed(run.wrapping_mul(STEP)) ^ number.wrapping_mul(STEP))
    }

    pub fn word(&mut self) -> u64 {
        self.state = self.state.wrapping_add(STEP);
        mixed(self.state)
    }

    /// A number below `most`, which isn't 0. Of a few billion the bias is nothing to a test.
    pub fn below(&mut self, most: u64) -> u64 {
        ((u128::from(self.word()) * u128::from(most)) >> 64) as u64
    }

    pub fn within(&mut self, range: RangeInclusive<u32>) -> u32 {
        let (first, last) = (*range.start(), *range.end());
        first + self.below(u64::from(last - first) + 1) as u32
    }

    pub fn size(&mut self, range: RangeInclusive<usize>) -> usize {
        let (first, last) = (*range.start(), *range.end());
        first + self.below((last - first) as u64 + 1) as usize
    }

    /// Once in so many times.
    pub fn once_in(&mut self, times: u64) -> bool {
        self.below(times) == 0
    }

    /// One of some things, of which there is at least one.
    pub fn one_of<T: Copy>(&mut self, things: &[T]) -> T {
        things[self.below(things.len() as u64) as usize]
    }
}

#[cfg(test)]
mod tests {
    use super::*;

    #[test]
    fn a_seed_gives_the_same_numbers_and_another_others() {
        let words = |seed| {
            let mut random = Random::new(seed);
            [random.word(), random.word(), random.word()]
        };
        assert_eq!(words(7), words(7));
        assert_ne!(words(7), words(8));
        assert_ne!(Random::of_case(7, 1, 2).word(), Random::of_case(7, 2, 1).word());
    }

    #[test]
    fn a_range_has_all_its_numbers_and_no_others() {
        let mut random = Random::new(1);
        let mut seen = [0; 8];
        for _ in 0..1000 {
            seen[random.within(2..=5) as usize] += 1;
        }
        assert!(seen[2..=5].iter().all(|&count| count > 100));
        assert_eq!(seen[2..=5].iter().sum::<i32>(), 1000);
    }
}
