//! Compares what the product finds at a name of a zone with the second
//! program, octet for octet.

mod common;

use common::faults::{self, first, number};
use common::lengths::{self, Longer};
use common::lent::is_same;
use common::letters::{self, respelled};
use common::names;
use common::product::find_answer;
use common::random::{from_both_seeds, Random};
use common::tally::Tally;
use common::twin::Twin;
use common::variants::rewrite;
use common::zones::{self, name_of, names_in, no_full_name, some_place, Stock};
use jespurla::raw::{self, FindAnswer};
use second::lookup::find;
use second::zone::{as_set, Entry, Name, Zone, FREE, HELD, PLACES, STATIC};

/// Names looked for by one run, at the least.
const NAMES: usize = 500_000;
/// Full zones whose every name is looked for.
const FULL_ZONES: usize = 2_000;
/// Cases of each kind and each place, at the least.
const EACH: usize = 1_000;

/// Refusals in the order in which they are given.
const ORDER: [u8; 2] = [17, 11];

/// What a case can be.
const KINDS: &[&str] = &[
    "refusal 17",
    "refusal 11",
    "17 ahead of another",
    "11: name",
    "answer 0: absent",
    "answer 1: static",
    "answer 2: held",
    "found, octets past its length differ",
    "found, 255 octets",
    "found, one name in the zone",
    "found, 64 names in the zone",
    "absent, an octet differs",
    "absent, bit 5 of no letter differs",
    "absent, a label more",
    "absent, a label less",
    "absent, in a free place",
    "absent, drawn apart",
    "absent, 255 octets",
    "absent, no names in the zone",
    "absent, 64 names in the zone",
];

/// What is found at each of the places.
const FOUND: [&str; 3] = ["static", "held", "of 255 octets"];

/// A zone, a name to look for, how it was come by, and what is wrong with
/// either.
struct Case<'a> {
    zone: &'a Zone,
    name: Name,
    drawn: &'static str,
    faults: Vec<&'static str>,
}

/// A run from one seed: what it drew and what it counted.
struct Run {
    random: Random,
    tally: Tally,
    /// Calls that were answered.
    answered: usize,
    /// How often a name was found at each place, static, held and long ones.
    places: [[usize; PLACES]; FOUND.len()],
}

impl Run {
    fn new(seed: u64) -> Run {
        Run {
            random: Random::new(seed),
            tally: Tally::new(&[KINDS, letters::MET, zones::FAULTS, &lengths::labels()]),
            answered: 0,
            places: [[0; PLACES]; FOUND.len()],
        }
    }

    /// Asks both programs for a name; the zone is only read.
    fn compare(&mut self, lent: &raw::Zone, case: &Case) {
        let given = *lent;
        let expected = find(case.zone, &case.name);
        let got = raw::zone_find(lent, &case.name.twin());
        let kept = is_same(lent, &given);
        if got != find_answer(expected) || !kept {
            println!("second {expected:02x?}, product {got:02x?}");
            println!("the zone as it was: {kept}");
            println!("{:02x?} in {:02x?}", case.name, as_set(case.zone));
            panic!("the programs differ, seed {}", self.random.seed);
        }
        self.count(case, &got);
        match expected {
            Ok(Some(entry)) => self.count_found(case, entry),
            Ok(None) => self.count_absent(case),
            Err(_) => return,
        }
        self.answered += 1;
        letters::count(&mut self.tally, case.zone, &case.name);
    }

    fn count(&mut self, case: &Case, got: &FindAnswer) {
        self.tally.cases += 1;
        let fault = first(&ORDER, &case.faults);
        let expected = fault.map_or(0, number);
        assert_eq!(u32::from(expected), got.refusal, "{:?}", case.faults);
        if let Some(fault) = fault {
            faults::count(&mut self.tally, &case.faults, fault);
        }
        self.tally.count(match (got.refusal, got.entry.kind) {
            (17, _) => "refusal 17",
            (11, _) => "refusal 11",
            (_, FREE) => "answer 0: absent",
            (_, HELD) => "answer 2: held",
            _ => "answer 1: static",
        });
    }

    fn count_found(&mut self, case: &Case, found: &Entry) {
        let at = |entry: &Entry| std::ptr::eq(entry, found);
        let at = case.zone.entries.iter().position(at);
        let at = at.expect("a place of the zone");
        self.places[usize::from(found.kind == HELD)][at] += 1;
        if found.name.octets != case.name.octets {
            self.tally.count("found, octets past its length differ");
        }
        if case.name.len == 255 {
            self.tally.count("found, 255 octets");
            self.places[2][at] += 1;
        }
        match names_in(case.zone) {
            1 => self.tally.count("found, one name in the zone"),
            PLACES => self.tally.count("found, 64 names in the zone"),
            _ => {}
        }
    }

    fn count_absent(&mut self, case: &Case) {
        self.tally.count(case.drawn);
        if case.name.len == 255 {
            self.tally.count("absent, 255 octets");
        }
        match names_in(case.zone) {
            0 => self.tally.count("absent, no names in the zone"),
            PLACES => self.tally.count("absent, 64 names in the zone"),
            _ => {}
        }
    }

    /// A sound zone; at times it has one name or none.
    fn zone(&mut self, stock: &Stock) -> Zone {
        let mut zone = stock.zone(&mut self.random);
        let most = self.random.below(12);
        let most = if most < 2 { most } else { PLACES };
        let named = zone.entries.iter_mut().filter(|entry| entry.kind != FREE);
        named.skip(most).for_each(|entry| entry.kind = FREE);
        rewrite(&mut self.random, &mut zone);
        zone
    }

    /// A full name to look for, mostly one of the zone's or near it, and how it
    /// is absent if it is.
    fn name(&mut self, zone: &Zone) -> (Name, &'static str) {
        let random = &mut self.random;
        let way = random.below(10);
        let named = place(random, zone, |kind| kind != FREE);
        let free = place(random, zone, |kind| kind == FREE);
        let (octets, drawn) = match (way, named, free) {
            (0..=2, Some(named), _) => near(random, &named),
            (3, _, Some(free)) => (free, "absent, in a free place"),
            (4, _, _) => (names::full(random, 255), "absent, drawn apart"),
            (6.., Some(named), _) => (named, "there"),
            _ => (names::some_full(random), "absent, drawn apart"),
        };
        (some_letters(random, &octets), drawn)
    }

    /// A name to look for, at times not a full one.
    fn case<'a>(&mut self, zone: &'a Zone) -> Case<'a> {
        let (name, drawn) = self.name(zone);
        let mut case = Case {
            zone,
            name,
            drawn,
            faults: Vec::new(),
        };
        if self.random.one_in(12) {
            case.name = no_full_name(&mut self.random);
            case.faults.push("11: name");
        }
        case
    }

    /// A zone that is lent with a wrong length.
    fn lengths(&mut self, zone: &Zone) {
        let lent = Longer {
            zone: zone.twin(),
            behind: self.random.octet(),
        };
        let given = lent;
        let (label, length) = self.random.pick(&lengths::WRONG);
        let mut case = self.case(zone);
        case.faults.push(label);
        let got = lengths::find((&lent, length), &case.name.twin());
        assert_eq!(got, find_answer(Err(17)), "{label}");
        assert!(is_same(&lent, &given), "the zone is only read");
        self.count(&case, &got);
    }

    /// Many names of one zone, then a few of a broken one.
    fn group(&mut self) {
        let stock = Stock::new(&mut self.random);
        let mut zone = self.zone(&stock);
        let lent = zone.twin();
        for _ in 0..20 {
            let case = self.case(&zone);
            self.compare(&lent, &case);
        }
        self.lengths(&zone);
        let fault = stock.break_zone(&mut self.random, &mut zone);
        let lent = zone.twin();
        for _ in 0..2 {
            let mut case = self.case(&zone);
            case.faults.push(fault);
            self.compare(&lent, &case);
        }
    }

    /// Every name of a full zone of names of 255 octets.
    fn full_zone(&mut self) {
        let stock = Stock::new(&mut self.random);
        let mut zone = Zone::EMPTY;
        for entry in &mut zone.entries {
            let octets = names::full(&mut self.random, 255);
            let name = name_of(&mut self.random, &octets);
            *entry = stock.entry(&mut self.random, name);
            entry.kind = self.random.pick(&[STATIC, HELD]);
        }
        let lent = zone.twin();
        for entry in &zone.entries {
            let case = Case {
                zone: &zone,
                name: some_letters(&mut self.random, entry.name.as_slice()),
                drawn: "there",
                faults: Vec::new(),
            };
            self.compare(&lent, &case);
        }
    }

    fn whole(mut self) {
        for _ in 0..FULL_ZONES {
            self.full_zone();
        }
        while self.tally.cases < NAMES {
            self.group();
        }
        let title = format!("seed {}, names of zones", self.random.seed);
        self.tally.report(&title, NAMES, EACH);
        self.tally
            .assert_third(letters::OTHER_LETTERS, self.answered);
        for (what, places) in FOUND.iter().zip(&self.places) {
            let least = *places.iter().min().expect("64 places");
            println!(
                "  {:<36}{least:>9}",
                format!("{what}, each place at the least")
            );
            assert!(least >= EACH, "{what}, at too few: {places:?}");
        }
    }
}

/// The octets of a full name at some place whose kind passes a test.
fn place(random: &mut Random, zone: &Zone, test: impl Fn(u8) -> bool) -> Option<Vec<u8>> {
    let test = |entry: &Entry| test(entry.kind) && entry.name.is_full();
    let at = some_place(random, zone, test)?;
    Some(zone.entries[at].name.as_slice().to_vec())
}

/// A name of these octets, mostly in other letters.
fn some_letters(random: &mut Random, octets: &[u8]) -> Name {
    if random.below(5) < 2 {
        return name_of(random, octets);
    }
    let other = respelled(random, octets);
    name_of(random, &other)
}

/// A full name near another, and how it differs.
fn near(random: &mut Random, name: &[u8]) -> (Vec<u8>, &'static str) {
    let rest = &name[1 + usize::from(name[0])..];
    let mut other = name.to_vec();
    let at = random.pick(&[1, name.len() - 2]);
    match random.below(4) {
        0 if name.len() < 254 => ([&[1, b'x'], name].concat(), "absent, a label more"),
        1 if rest.len() > 1 => (rest.to_vec(), "absent, a label less"),
        2 if !name[at].is_ascii_alphabetic() => {
            other[at] ^= 0x20;
            (other, "absent, bit 5 of no letter differs")
        }
        _ => {
            other[at] ^= 1 << random.below(8);
            (other, "absent, an octet differs")
        }
    }
}

#[test]
fn both_find_the_same() {
    from_both_seeds(|seed| Run::new(seed).whole());
}
