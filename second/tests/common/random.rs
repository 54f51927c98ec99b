//! A small repeatable generator (splitmix64).

use std::env;
use std::thread;
use std::time::{SystemTime, UNIX_EPOCH};

/// The seed of the run that is the same every time.
pub const FIXED_SEED: u64 = 0x5eed_4704;

/// A seed from the clock, or JESPURLA_SEED to repeat an earlier run.
fn fresh_seed() -> u64 {
    if let Ok(given) = env::var("JESPURLA_SEED") {
        return given.parse().expect("JESPURLA_SEED is a decimal number");
    }
    let since = SystemTime::now().duration_since(UNIX_EPOCH);
    since.map_or(1, |span| span.as_nanos() as u64)
}

/// A run from the fixed seed and one from a fresh seed, side by side.
pub fn from_both_seeds(run: impl Fn(u64) + Sync) {
    thread::scope(|scope| {
        scope.spawn(|| run(FIXED_SEED));
        run(fresh_seed());
    });
}

pub struct Random {
    pub seed: u64,
    state: u64,
}

impl Random {
    /// Starts from a seed, and says from which.
    pub fn new(seed: u64) -> Random {
        println!("seed {seed} (JESPURLA_SEED={seed} repeats it as the fresh one)");
        Random { seed, state: seed }
    }

    pub fn next(&mut self) -> u64 {
        self.state = self.state.wrapping_add(0x9e37_79b9_7f4a_7c15);
        let mut mixed = self.state;
        mixed = (mixed ^ (mixed >> 30)).wrapping_mul(0xbf58_476d_1ce4_e5b9);
        mixed = (mixed ^ (mixed >> 27)).wrapping_mul(0x94d0_49bb_1331_11eb);
        mixed ^ (mixed >> 31)
    }

    pub fn octet(&mut self) -> u8 {
        self.next() as u8
    }

    /// A number below `bound`, which is not 0.
    pub fn below(&mut self, bound: usize) -> usize {
        (self.next() % bound as u64) as usize
    }

    /// A number from `low` to `high`, both included.
    pub fn between(&mut self, low: usize, high: usize) -> usize {
        low + self.below(high - low + 1)
    }

    /// True once in `times`.
    pub fn one_in(&mut self, times: usize) -> bool {
        self.below(times) == 0
    }

    pub fn pick<T: Copy>(&mut self, items: &[T]) -> T {
        items[self.below(items.len())]
    }

    /// Puts items in any order.
    pub fn shuffle<T>(&mut self, items: &mut [T]) {
        for last in (1..items.len()).rev() {
            let other = self.between(0, last);
            items.swap(last, other);
        }
    }

    pub fn fill(&mut self, octets: &mut [u8]) {
        for part in octets.chunks_mut(8) {
            let drawn = self.next().to_le_bytes();
            part.copy_from_slice(&drawn[..part.len()]);
        }
    }
}
