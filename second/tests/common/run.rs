//! A run of comparisons from one seed.

use super::lent::Memory;
use super::random::Random;
use super::stack::on_a_stack;
use super::tally::Tally;

/// The stack of a thread on which the calls must run.
const SMALL_STACK: usize = 16 * 1024;
/// The kind of the cases that ran there.
const ON_A_SMALL_STACK: &str = "on a small stack";

/// What a run drew, what it counted and the memory of N parts that it lends.
pub struct Run<const N: usize> {
    pub random: Random,
    pub tally: Tally,
    pub memory: Memory<N>,
}

impl<const N: usize> Run<N> {
    pub fn new(seed: u64, kinds: &[&'static str]) -> Run<N> {
        Run {
            random: Random::new(seed),
            tally: Tally::new(&[kinds]),
            memory: Memory::new(),
        }
    }

    /// Compares all of some cases, at times on a small stack.
    pub fn compare_all<C: Sync>(
        &mut self,
        cases: &[C],
        mut compare: impl FnMut(&mut Run<N>, &C) + Send,
    ) {
        if !self.random.one_in(4) {
            cases.iter().for_each(|case| compare(self, case));
            return;
        }
        for _ in cases {
            self.tally.count(ON_A_SMALL_STACK);
        }
        on_a_stack(SMALL_STACK, || {
            cases.iter().for_each(|case| compare(self, case))
        });
    }
}
