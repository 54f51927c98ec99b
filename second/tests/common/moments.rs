//! Numbers beside the moments of the clock.

use second::{LATEST_MOMENT, NEVER};

use super::random::Random;

/// A number that is neither a moment nor never.
pub fn no_moment(random: &mut Random) -> u64 {
    let any = (random.next() | 1 << 48) & !(1 << 60);
    let near = LATEST_MOMENT + 1 + random.below(100) as u64;
    random.pick(&[LATEST_MOMENT + 1, near, any, 1 << 63, NEVER - 1])
}

/// A number above every moment; never is no clock either.
pub fn no_clock(random: &mut Random) -> u64 {
    let number = no_moment(random);
    random.pick(&[number, NEVER])
}
