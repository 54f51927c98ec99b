//! Compares the product's word on whether two zones are the same with the
//! second program's.

mod common;

use common::lengths::{self, Longer};
use common::lent::is_same;
use common::letters::{self, meets_itself};
use common::product::same_answer;
use common::random::{from_both_seeds, Random};
use common::tally::Tally;
use common::twin::Twin;
use common::variants::{self, alter_zone, respell, rewrite};
use common::zones::{self, names_in, Stock};
use jespurla::raw::{self, SameAnswer};
use second::lookup::same;
use second::zone::{as_set, Entry, Zone, FREE, PLACES};

/// Pairs of zones compared by one run, at the least.
const PAIRS: usize = 250_000;
/// Cases of each kind, at the least.
const EACH: usize = 1_000;
/// Rewritings of a zone, at the most.
const REWRITES: usize = 4;

/// What a pair can be.
const KINDS: &[&str] = &[
    "refusal 17",
    "answer 0",
    "answer 1",
    "same: one and the same zone",
    "same: octet for octet",
    "same: both without names",
    "same: both of 64 names",
    "other: both of 64 names",
    "drawn apart",
    letters::OTHER_LETTERS,
    "same: names in other letters",
    "other: names in other letters",
    "17: left length",
    "17: right length",
    "17: both lengths",
];

/// Which of the two zones are broken.
const SIDES: [(&str, [bool; 2]); 3] = [
    ("broken left", [true, false]),
    ("broken right", [false, true]),
    ("both broken", [true, true]),
];

/// A run from one seed: what it drew and what it counted.
struct Run {
    random: Random,
    tally: Tally,
    /// Pairs that were answered.
    answered: usize,
    /// The faults of zones, for each of the sides.
    broken: [Tally; SIDES.len()],
}

impl Run {
    fn new(seed: u64) -> Run {
        let lists = [KINDS, &variants::labels(), &lengths::labels()];
        Run {
            random: Random::new(seed),
            tally: Tally::new(&lists),
            answered: 0,
            broken: SIDES.map(|_| Tally::new(&[zones::FAULTS])),
        }
    }

    /// Asks both programs, the product either way round; neither zone changes.
    fn compare(&mut self, left: &Zone, right: &Zone) -> Result<bool, u8> {
        let expected = same(left, right);
        let lent = [left.twin(), right.twin()];
        let given = lent;
        let got = raw::zone_same(&lent[0], &lent[1]);
        let turned = raw::zone_same(&lent[1], &lent[0]);
        let kept = is_same(&lent[0], &given[0]) && is_same(&lent[1], &given[1]);
        if [got, turned] != [same_answer(expected); 2] || !kept {
            println!("second {expected:?}, product {got:?}, turned round {turned:?}");
            println!("both zones as they were: {kept}");
            println!("{:02x?} and {:02x?}", as_set(left), as_set(right));
            panic!("the programs differ, seed {}", self.random.seed);
        }
        self.count(got);
        if let Ok(same) = expected {
            self.count_letters(left, right, same);
        }
        expected
    }

    /// Counts an answered pair, and whether a name stands in other letters in
    /// one than in the other.
    fn count_letters(&mut self, left: &Zone, right: &Zone, same: bool) {
        self.answered += 1;
        let met = |entry: &Entry| entry.kind != FREE && meets_itself(right, &entry.name);
        if left.entries.iter().any(met) {
            self.tally.count(letters::OTHER_LETTERS);
            self.tally.count(match same {
                true => "same: names in other letters",
                false => "other: names in other letters",
            });
        }
    }

    fn count(&mut self, got: SameAnswer) {
        self.tally.cases += 1;
        match got.refusal {
            0 => self.tally.count(&format!("answer {}", got.same)),
            refusal => self.tally.count(&format!("refusal {refusal}")),
        }
    }

    /// A sound zone; at times all its places are free.
    fn zone(&mut self, stock: &Stock) -> Zone {
        let mut zone = stock.zone(&mut self.random);
        if self.random.one_in(12) {
            zone.entries.iter_mut().for_each(|entry| entry.kind = FREE);
        }
        zone
    }

    /// Writes a zone in other octets; the ways in which it was done.
    fn rewrite(&mut self, zone: &mut Zone) -> Vec<&'static str> {
        let times = self.random.between(0, REWRITES);
        let ways = (0..times).filter_map(|_| rewrite(&mut self.random, zone));
        let mut ways: Vec<&str> = ways.collect();
        if self.random.one_in(6) && respell(&mut self.random, zone) {
            ways.push(variants::LETTERS);
        }
        ways
    }

    /// A zone and itself, written again.
    fn alike(&mut self, left: &Zone) {
        let mut right = left.clone();
        let ways = self.rewrite(&mut right);
        assert_eq!(self.compare(left, &right), Ok(true), "{ways:?}");
        ways.iter().for_each(|way| self.tally.count(way));
        if ways.is_empty() {
            self.tally.count("same: octet for octet");
        }
        match names_in(left) {
            0 => self.tally.count("same: both without names"),
            PLACES => self.tally.count("same: both of 64 names"),
            _ => {}
        }
    }

    /// A zone and one that differs from it in one thing, written again.
    fn different(&mut self, left: &Zone) {
        let mut right = left.clone();
        let difference = alter_zone(&mut self.random, &mut right);
        self.rewrite(&mut right);
        assert_eq!(self.compare(left, &right), Ok(false), "{difference}");
        self.tally.count(difference);
        if [names_in(left), names_in(&right)] == [PLACES; 2] {
            self.tally.count("other: both of 64 names");
        }
    }

    /// Two zones that were drawn apart.
    fn apart(&mut self, stock: &Stock, left: &Zone) {
        let right = self.zone(stock);
        let expected = self.compare(left, &right);
        assert_eq!(expected, Ok(as_set(left) == as_set(&right)));
        self.tally.count("drawn apart");
    }

    /// One zone that is lent as both.
    fn one_zone(&mut self, zone: &Zone) {
        let lent = zone.twin();
        let given = lent;
        let got = raw::zone_same(&lent, &lent);
        assert_eq!(got, same_answer(same(zone, zone)));
        assert!(is_same(&lent, &given), "the zone is only read");
        self.count(got);
        if got.refusal == 0 {
            self.tally.count("same: one and the same zone");
        }
    }

    /// Two zones of which one or both are broken.
    fn broken(&mut self, stock: &Stock, zone: &Zone, side: usize) {
        let mut pair = [zone.clone(), zone.clone()];
        for (zone, is_broken) in pair.iter_mut().zip(SIDES[side].1) {
            if is_broken {
                let fault = stock.break_zone(&mut self.random, zone);
                self.broken[side].count(fault);
            } else {
                self.rewrite(zone);
            }
        }
        assert_eq!(self.compare(&pair[0], &pair[1]), Err(17));
        self.broken[side].cases += 1;
        pair.iter().for_each(|zone| self.one_zone(zone));
    }

    /// A zone with itself, where one of the lengths or both are wrong.
    fn lengths(&mut self, zone: &Zone) {
        let behind = self.random.octet();
        let lent = [zone, zone].map(|zone| Longer {
            zone: zone.twin(),
            behind,
        });
        let given = lent;
        let (label, length) = self.random.pick(&lengths::WRONG);
        let good = size_of::<raw::Zone>();
        let (side, [left, right]) = self.random.pick(&[
            ("17: left length", [length, good]),
            ("17: right length", [good, length]),
            ("17: both lengths", [length, length]),
        ]);
        let got = lengths::same((&lent[0], left), (&lent[1], right));
        assert_eq!(got, same_answer(Err(17)), "{label}, {side}");
        for (lent, given) in lent.iter().zip(&given) {
            assert!(is_same(lent, given), "the zone is only read");
        }
        self.count(got);
        self.tally.count(label);
        self.tally.count(side);
    }

    /// Pairs of zones that are made of one stock.
    fn group(&mut self) {
        let stock = Stock::new(&mut self.random);
        for _ in 0..4 {
            let zone = self.zone(&stock);
            for _ in 0..3 {
                self.alike(&zone);
                self.different(&zone);
            }
            self.apart(&stock, &zone);
            self.one_zone(&zone);
            for side in 0..SIDES.len() {
                self.broken(&stock, &zone, side);
            }
            self.lengths(&zone);
        }
    }

    fn whole(mut self) {
        while self.tally.cases < PAIRS {
            self.group();
        }
        let seed = self.random.seed;
        let title = format!("seed {seed}, pairs of zones");
        self.tally.report(&title, PAIRS, EACH);
        self.tally
            .assert_third(letters::OTHER_LETTERS, self.answered);
        for (tally, (side, _)) in self.broken.iter().zip(SIDES) {
            tally.report(&format!("seed {seed}, {side}"), EACH, EACH);
        }
    }
}

#[test]
fn zones_are_the_same_for_both() {
    from_both_seeds(|seed| Run::new(seed).whole());
}
