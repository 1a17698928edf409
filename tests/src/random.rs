//! A small deterministic generator (splitmix64), so that a failing run can be run again.
//!
//! Each test gives its own seed. The environment variable `ZOV_SEED` replaces the seeds of all tests, to try inputs
//! that no run has seen; a test that fails prints the seed it had.

use std::env;
use std::thread;

pub struct Random {
    state: u64,
    seed: u64,
}

impl Random {
    /// The generator of a test: `seed`, or the one that `ZOV_SEED` gives.
    pub fn new(seed: u64) -> Random {
        let seed = number_from_environment("ZOV_SEED").unwrap_or(seed);
        Random { state: seed, seed }
    }

    /// The next 64 bits.
    pub fn draw(&mut self) -> u64 {
        self.state = self.state.wrapping_add(0x9E37_79B9_7F4A_7C15);
        let mut bits = self.state;
        bits = (bits ^ (bits >> 30)).wrapping_mul(0xBF58_476D_1CE4_E5B9);
        bits = (bits ^ (bits >> 27)).wrapping_mul(0x94D0_49BB_1331_11EB);
        bits ^ (bits >> 31)
    }

    /// A number below `bound`, which is not zero.
    pub fn below(&mut self, bound: usize) -> usize {
        assert!(bound > 0, "nothing lies below zero");
        (self.draw() % bound as u64) as usize
    }

    /// One of `choices`.
    pub fn pick<T: Copy>(&mut self, choices: &[T]) -> T {
        choices[self.below(choices.len())]
    }

    /// `length` bytes, each 0 or 1.
    pub fn bits(&mut self, length: usize) -> Vec<u8> {
        let mut bits: Vec<u8> = Vec::with_capacity(length + 63);
        while bits.len() < length {
            let drawn = self.draw();
            bits.extend((0..64).map(|place| (drawn >> place & 1) as u8));
        }
        bits.truncate(length);
        bits
    }

    /// `count` different numbers below `length`, in any order.
    pub fn choice(&mut self, length: usize, count: usize) -> Vec<usize> {
        assert!(count <= length, "no more numbers than there are");
        let mut all: Vec<usize> = (0..length).collect();
        for taken in 0..count {
            let other = taken + self.below(length - taken);
            all.swap(taken, other);
        }
        all.truncate(count);
        all
    }

    /// `count` different places below `length`, in rising order.
    pub fn places(&mut self, length: usize, count: usize) -> Vec<usize> {
        let mut places = self.choice(length, count);
        places.sort_unstable();
        places
    }
}

impl Drop for Random {
    fn drop(&mut self) {
        if thread::panicking() {
            eprintln!("run again with ZOV_SEED={}", self.seed);
        }
    }
}

/// The number that an environment variable holds, if it is set.
pub fn number_from_environment(name: &str) -> Option<u64> {
    let text = env::var(name).ok()?;
    Some(text.parse().unwrap_or_else(|_| panic!("{name} is to be a number, not {text:?}")))
}

#[cfg(test)]
mod tests {
    use super::*;

    #[test]
    fn splitmix_gives_its_published_numbers() {
        let mut random = Random { state: 1234567, seed: 1234567 };
        assert_eq!(random.draw(), 6457827717110365317);
        assert_eq!(random.draw(), 3203168211198807973);
        assert_eq!(random.draw(), 9817491932198370423);
    }

    #[test]
    fn places_are_different_and_below_the_length() {
        let mut random = Random::new(1);
        for count in 0..=16 {
            let places = random.places(16, count);
            assert_eq!(places.len(), count);
            assert!(places.windows(2).all(|pair| pair[0] < pair[1]));
            assert!(places.iter().all(|&place| place < 16));
        }
    }
}
