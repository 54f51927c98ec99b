//! Counts what a run came upon, and fails where something was too rare.

pub struct Tally {
    kinds: Vec<&'static str>,
    counts: Vec<usize>,
    pub cases: usize,
}

impl Tally {
    /// Counts the kinds of all these lists.
    pub fn new(lists: &[&[&'static str]]) -> Tally {
        let kinds = lists.concat();
        Tally {
            counts: vec![0; kinds.len()],
            kinds,
            cases: 0,
        }
    }

    pub fn count(&mut self, kind: &str) {
        let at = self.kinds.iter().position(|&known| known == kind);
        let at = at.unwrap_or_else(|| panic!("{kind} is not listed"));
        self.counts[at] += 1;
    }

    /// Fails unless a kind came up in about a third of so many cases.
    pub fn assert_third(&self, kind: &str, cases: usize) {
        let at = self.kinds.iter().position(|&known| known == kind);
        let count = self.counts[at.expect("a listed kind")];
        println!("{kind}: {count} of {cases}");
        let third = 7 * cases / 24..=10 * cases / 24;
        assert!(third.contains(&count), "not about a third");
    }

    /// Prints the table and fails where a kind came up less than `each`
    /// times, or all together less than `cases` times.
    pub fn report(&self, title: &str, cases: usize, each: usize) {
        println!("{title}: {} cases", self.cases);
        let width = self.kinds.iter().map(|kind| kind.len()).max();
        let width = width.unwrap_or(0);
        for (kind, count) in self.kinds.iter().zip(&self.counts) {
            println!("  {kind:<width$}{count:>9}");
        }
        assert!(self.cases >= cases, "too few cases");
        let rare = self.counts.iter().position(|&count| count < each);
        assert_eq!(rare.map(|at| self.kinds[at]), None, "a kind is too rare");
    }
}
