//! A small generator of random numbers (SplitMix64), so that a seed repeats a run exactly.

use std::env;

/// The environment variable that sets the seed: a number, decimal or hexadecimal after `0x`.
pub const SEED_VARIABLE: &str = "CONFORMANCE_SEED";

const DEFAULT_SEED: u64 = 1993;

/// The seed of this run.
pub fn seed() -> u64 {
    match env::var(SEED_VARIABLE) {
        Ok(text) => parse(&text).unwrap_or_else(|| panic!("{SEED_VARIABLE} is not a number: {text}")),
        Err(_) => DEFAULT_SEED,
    }
}

fn parse(text: &str) -> Option<u64> {
    match text.strip_prefix("0x") {
        Some(digits) => u64::from_str_radix(digits, 16).ok(),
        None => text.parse().ok(),
    }
}

pub struct Random {
    state: u64,
}

impl Random {
    /// The generator of one test: the same seed gives each test numbers of its own.
    pub fn new(seed: u64, test: &str) -> Random {
        let mut random = Random { state: seed };
        for byte in test.bytes() {
            random.state ^= u64::from(byte);
            random.number();
        }
        random
    }

    /// The generator of one of many inputs of a test. A label with a number in it would not do: labels
    /// differ in the low bits of the state alone, so that many give the same one. This mixes the number,
    /// and no two numbers give the same.
    pub fn nth(seed: u64, test: &str, number: u64) -> Random {
        let start = Random::new(seed, test).number();
        let mut mixer = Random { state: start.wrapping_add(number) };
        Random { state: mixer.number() }
    }

    pub fn number(&mut self) -> u64 {
        self.state = self.state.wrapping_add(0x9e37_79b9_7f4a_7c15);
        let mut mixed = self.state;
        mixed = (mixed ^ mixed >> 30).wrapping_mul(0xbf58_476d_1ce4_e5b9);
        mixed = (mixed ^ mixed >> 27).wrapping_mul(0x94d0_49bb_1331_11eb);
        mixed ^ mixed >> 31
    }

    pub fn word(&mut self) -> u32 {
        (self.number() >> 32) as u32
    }

    pub fn byte(&mut self) -> u8 {
        (self.number() >> 56) as u8
    }

    /// A number below `limit`, which is not 0.
    pub fn below(&mut self, limit: usize) -> usize {
        (self.number() % limit as u64) as usize
    }

    /// True once in `times`, on average.
    pub fn once_in(&mut self, times: usize) -> bool {
        self.below(times) == 0
    }

    pub fn pick<T: Copy>(&mut self, choices: &[T]) -> T {
        choices[self.below(choices.len())]
    }
}

#[cfg(test)]
mod tests {
    use super::*;
    use std::collections::HashSet;

    #[test]
    fn every_input_has_numbers_of_its_own() {
        let first = |number| Random::nth(1993, "test", number).number();
        let distinct: HashSet<u64> = (0..1_000_000).map(first).collect();
        assert_eq!(distinct.len(), 1_000_000);
    }
}
