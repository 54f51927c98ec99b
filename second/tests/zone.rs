//! Compares the product's zone requests, by value and on a lent zone, with the
//! second program, and with what a real BIND answered.

mod common;

use common::bind;
use common::faults::{self, first, number};
use common::lent::{is_same, places_written};
use common::letters::{self, is_spelled_alike};
use common::product::{self, Way, WAYS};
use common::random::{from_both_seeds, Random};
use common::requests::{self, Kind, Reply, Request};
use common::tally::Tally;
use common::twin::Twin;
use common::zones::{self, again, entry_at, names_in, no_full_name, same_zone, some_place, Stock};
use jespurla::raw::{self, RequestAnswer};
use second::zone::{as_set, check, Entry, Name, Zone, HELD, PLACES, STATIC};

/// Requests compared by one run, at the least.
const REQUESTS: usize = 400_000;
/// Cases of each kind, at the least.
const EACH: usize = 1_000;

/// Refusals in the order in which they are given.
const ORDER: [u8; 3] = [17, 18, 11];

/// What a case can be. Each is run by value and on a lent zone, so that every
/// count is one of both.
const KINDS: &[&str] = &[
    "18: family",
    "18: policy",
    "11: name",
    "A: added, family 4",
    "A: added, family 6",
    "A: the 64th name",
    "A: YXDOMAIN",
    "A: YXDOMAIN, full zone",
    "A: no room",
    "B: NXDOMAIN",
    "B: NXRRSET, static",
    "B: NXRRSET, another owner",
    "B: no room, family 4",
    "B: no room, family 6",
    "B: policy 0, added",
    "B: policy 0, present",
    "B: policy 1, added",
    "B: policy 1, present",
    "B: policy 2, added",
    "B: policy 2, present",
    "B: policy 1 or 2, four held before",
    "first remove: deleted, family 4",
    "first remove: deleted, family 6",
    "first remove: no such address",
    "first remove: not ours, absent",
    "first remove: not ours, static",
    "first remove: not ours, another owner",
    "second remove: gone",
    "second remove: NXRRSET, absent",
    "second remove: NXRRSET, static",
    "second remove: NXRRSET, another owner",
    "second remove: YXRRSET, family 4 only",
    "second remove: YXRRSET, family 6 only",
    "second remove: YXRRSET, both families",
];

/// Requests that were answered and met their name in other letters, and names
/// that were added in other letters than they had before they were deleted.
const LETTERS: &[&str] = &[
    "in other letters: A YxDomain",
    "in other letters: B Success",
    "in other letters: B NxRrset",
    "in other letters: B NoRoom",
    "in other letters: RemoveFirst Success",
    "in other letters: RemoveFirst NotOurs",
    "in other letters: RemoveSecond Success",
    "in other letters: RemoveSecond NxRrset",
    "in other letters: RemoveSecond YxRrset",
    "A: added again in other letters",
];

/// What the calls on a lent zone gave and did.
const LENT: &[&str] = &[
    "lent: refusal 17",
    "lent: refusal 18",
    "lent: refusal 11",
    "lent: answer 0",
    "lent: answer 3",
    "lent: answer 6",
    "lent: answer 7",
    "lent: answer 8",
    "lent: answer 256",
    "lent: no place written",
    "lent: one place written",
];

/// A request and the faults planted in it and its zone.
struct Case {
    request: Request,
    faults: Vec<&'static str>,
}

/// What the product told of a request, and the zone that it left.
struct Told {
    answer: RequestAnswer,
    checked: u32,
    zone: raw::Zone,
}

impl Told {
    fn new(way: Way, given: &raw::Zone, request: &Request) -> Told {
        let mut zone = *given;
        let checked = way.check(&zone, request);
        assert!(is_same(&zone, given), "a check writes nothing");
        let answer = way.send(&mut zone, request);
        Told {
            answer,
            checked,
            zone,
        }
    }

    /// Whether it is what the second program said. A refused zone comes back
    /// octet for octet, another one is the same, every name in the same
    /// letters, and of good form.
    fn agrees(&self, given: &raw::Zone, request: &Request, said: &Said) -> bool {
        let (refusal, answer) = (self.answer.refusal, self.answer.answer);
        let same = match said.reply {
            Err(number) => {
                (refusal, answer) == (u32::from(number), 0) && is_same(&self.zone, given)
            }
            Ok(reply) => {
                let left = self.zone.twin();
                (refusal, product::reply(request.kind, answer)) == (0, Some(reply))
                    && check(&left) == Ok(())
                    && same_zone(&left, &said.next)
            }
        };
        same && self.checked == refusal
    }
}

/// What the second program answered, and the zone that it left.
struct Said {
    reply: Result<Reply, u8>,
    next: Zone,
}

impl Said {
    fn new(zone: &Zone, request: &Request) -> Said {
        let mut next = zone.clone();
        let reply = requests::send(&mut next, request);
        Said { reply, next }
    }
}

/// A run from one seed: what it drew and what it counted.
struct Run {
    random: Random,
    tally: Tally,
    /// Requests that were answered.
    answered: usize,
    /// The names that the chain under way deleted, in their letters.
    gone: Vec<Name>,
}

impl Run {
    fn new(seed: u64) -> Run {
        Run {
            random: Random::new(seed),
            tally: Tally::new(&[
                zones::FAULTS,
                faults::AHEAD,
                KINDS,
                letters::MET,
                LETTERS,
                LENT,
            ]),
            answered: 0,
            gone: Vec::new(),
        }
    }

    /// Runs both programs on one request. The product's two ways tell the
    /// same and leave the same octets; of a lent zone, none is written where
    /// the rules leave it as it is, else those of one place. The zone for
    /// the next request is the product's.
    fn compare(&mut self, zone: &Zone, case: &Case) -> Zone {
        let request = &case.request;
        let said = Said::new(zone, request);
        let given = zone.twin();
        let [by_value, lent] = WAYS.map(|way| Told::new(way, &given, request));
        let written = places_written(&given, &lent.zone);
        let same = by_value.agrees(&given, request, &said)
            && lent.answer == by_value.answer
            && lent.checked == by_value.checked
            && is_same(&lent.zone, &by_value.zone)
            && written <= usize::from(!same_zone(zone, &said.next));
        if !same {
            println!("second {:?}", said.reply);
            println!("by value {:?}, check {}", by_value.answer, by_value.checked);
            println!("lent {:?}, check {}", lent.answer, lent.checked);
            println!("{written} places of the lent zone written");
            println!("{request:02x?} on {:02x?}", as_set(zone));
            panic!("the programs differ, seed {}", self.random.seed);
        }
        self.count(zone, case, said.reply);
        self.count_lent(&lent.answer, written);
        lent.zone.twin()
    }

    fn count_lent(&mut self, told: &RequestAnswer, written: usize) {
        match told.refusal {
            0 => self.tally.count(&format!("lent: answer {}", told.answer)),
            refusal => self.tally.count(&format!("lent: refusal {refusal}")),
        }
        self.tally.count(match written {
            0 => "lent: no place written",
            _ => "lent: one place written",
        });
    }

    fn count(&mut self, zone: &Zone, case: &Case, expected: Result<Reply, u8>) {
        self.tally.cases += 1;
        let fault = first(&ORDER, &case.faults);
        assert_eq!(fault.map(number), expected.err(), "{:?}", case.faults);
        match (fault, expected) {
            (Some(fault), _) => faults::count(&mut self.tally, &case.faults, fault),
            (None, Ok(reply)) => {
                count_answer(&mut self.tally, zone, &case.request, reply);
                self.count_letters(zone, &case.request, reply);
            }
            (None, Err(_)) => unreachable!("a refusal has a fault"),
        }
    }

    fn count_letters(&mut self, zone: &Zone, request: &Request, reply: Reply) {
        self.answered += 1;
        let kind = request.kind;
        if letters::count(&mut self.tally, zone, &request.name) {
            self.tally
                .count(&format!("in other letters: {kind:?} {reply:?}"));
        }
        match (kind, reply, entry_at(zone, &request.name)) {
            (Kind::RemoveSecond, Reply::Success, Some(entry)) => self.gone.push(entry.name),
            (Kind::A, Reply::Success, _) => {
                let last = self.gone.iter().rfind(|gone| **gone == request.name);
                if last.is_some_and(|last| !is_spelled_alike(last, &request.name)) {
                    self.tally.count("A: added again in other letters");
                }
            }
            _ => {}
        }
    }

    /// Aims a request at the name that was deleted last, to add it again, or
    /// at one that can be deleted.
    fn aim(&mut self, zone: &Zone, request: &mut Request) {
        let random = &mut self.random;
        let bare = |entry: &Entry| {
            let addresses = (entry.v4.count, entry.v6.count);
            entry.kind == HELD && addresses == (0, 0) && entry.name.is_full()
        };
        let gone = self.gone.last().filter(|_| random.one_in(2));
        if let Some(gone) = gone {
            (request.kind, request.name) = (Kind::A, again(random, gone));
        } else if let Some(at) = some_place(random, zone, bare) {
            let entry = &zone.entries[at];
            (request.kind, request.dhcid) = (Kind::RemoveSecond, entry.dhcid);
            request.name = again(random, &entry.name);
        }
    }

    /// A request of the stock's, at times with faults.
    fn case(&mut self, stock: &Stock, zone: &Zone) -> Case {
        let mut case = Case {
            request: stock.request(&mut self.random),
            faults: Vec::new(),
        };
        if self.random.one_in(10) {
            self.aim(zone, &mut case.request);
        }
        if self.random.one_in(10) {
            self.plant_number(&mut case);
        }
        if self.random.one_in(10) {
            case.request.name = no_full_name(&mut self.random);
            case.faults.push("11: name");
        }
        case
    }

    /// A family or policy that isn't listed, where the request reads it.
    fn plant_number(&mut self, case: &mut Case) {
        let request = &mut case.request;
        if request.kind == Kind::B && self.random.one_in(2) {
            request.policy = self.random.pick(&[3, 4, 128, 255]);
            case.faults.push("18: policy");
        } else {
            request.family = self.random.pick(&[0, 1, 2, 3, 5, 7, 46, 255]);
            case.faults.push("18: family");
        }
    }

    /// Requests of which each gets the zone that the one before it left, and
    /// at last a few on a broken zone.
    fn chain(&mut self) {
        self.gone.clear();
        let stock = Stock::new(&mut self.random);
        let mut zone = stock.zone(&mut self.random);
        for _ in 0..self.random.between(5, 40) {
            let case = self.case(&stock, &zone);
            zone = self.compare(&zone, &case);
        }
        let fault = stock.break_zone(&mut self.random, &mut zone);
        for _ in 0..3 {
            let mut case = self.case(&stock, &zone);
            case.faults.push(fault);
            zone = self.compare(&zone, &case);
        }
    }

    fn whole(mut self) {
        while self.tally.cases < REQUESTS {
            self.chain();
        }
        let title = format!("seed {}, zone requests", self.random.seed);
        self.tally.report(&title, REQUESTS, EACH);
        self.tally
            .assert_third(letters::OTHER_LETTERS, self.answered);
    }
}

/// Whether an entry has the request's address, and how many of its family.
fn family_of(entry: &Entry, request: &Request) -> (bool, usize) {
    if request.family == 4 {
        let held = entry.v4.as_slice();
        let has = held.iter().any(|item| *item == request.address[..4]);
        return (has, held.len());
    }
    let held = entry.v6.as_slice();
    (held.contains(&request.address), held.len())
}

fn count_answer(tally: &mut Tally, zone: &Zone, request: &Request, reply: Reply) {
    match request.kind {
        Kind::A => count_a(tally, zone, request, reply),
        Kind::B => count_b(tally, zone, request, reply),
        Kind::RemoveFirst => count_first(tally, zone, request),
        Kind::RemoveSecond => count_second(tally, zone, request),
    }
}

fn count_a(tally: &mut Tally, zone: &Zone, request: &Request, reply: Reply) {
    let held = names_in(zone);
    match reply {
        Reply::Success => {
            tally.count(&format!("A: added, family {}", request.family));
            if held == PLACES - 1 {
                tally.count("A: the 64th name");
            }
        }
        Reply::NoRoom => tally.count("A: no room"),
        _ if held == PLACES => tally.count("A: YXDOMAIN, full zone"),
        _ => tally.count("A: YXDOMAIN"),
    }
}

fn count_b(tally: &mut Tally, zone: &Zone, request: &Request, reply: Reply) {
    let Some(entry) = entry_at(zone, &request.name) else {
        return tally.count("B: NXDOMAIN");
    };
    let (present, count) = family_of(entry, request);
    let (policy, family) = (request.policy, request.family);
    match (reply, present) {
        (Reply::NxRrset, _) if entry.kind == STATIC => tally.count("B: NXRRSET, static"),
        (Reply::NxRrset, _) => tally.count("B: NXRRSET, another owner"),
        (Reply::NoRoom, _) => tally.count(&format!("B: no room, family {family}")),
        (_, true) => tally.count(&format!("B: policy {policy}, present")),
        (_, false) => tally.count(&format!("B: policy {policy}, added")),
    }
    if reply == Reply::Success && policy > 0 && count == 4 {
        tally.count("B: policy 1 or 2, four held before");
    }
}

/// Why a remove is not for this name, if it isn't.
fn not_ours(entry: Option<&Entry>, request: &Request) -> Option<&'static str> {
    match entry {
        None => Some("absent"),
        Some(entry) if entry.kind == STATIC => Some("static"),
        Some(entry) if entry.kind == HELD && entry.dhcid == request.dhcid => None,
        Some(_) => Some("another owner"),
    }
}

fn count_first(tally: &mut Tally, zone: &Zone, request: &Request) {
    let entry = entry_at(zone, &request.name);
    if let Some(reason) = not_ours(entry, request) {
        return tally.count(&format!("first remove: not ours, {reason}"));
    }
    let (present, _) = family_of(entry.expect("held"), request);
    if present {
        tally.count(&format!("first remove: deleted, family {}", request.family));
    } else {
        tally.count("first remove: no such address");
    }
}

fn count_second(tally: &mut Tally, zone: &Zone, request: &Request) {
    let entry = entry_at(zone, &request.name);
    if let Some(reason) = not_ours(entry, request) {
        return tally.count(&format!("second remove: NXRRSET, {reason}"));
    }
    let entry = entry.expect("held");
    tally.count(match (entry.v4.count, entry.v6.count) {
        (0, 0) => "second remove: gone",
        (_, 0) => "second remove: YXRRSET, family 4 only",
        (0, _) => "second remove: YXRRSET, family 6 only",
        _ => "second remove: YXRRSET, both families",
    });
}

#[test]
fn requests_are_the_same() {
    from_both_seeds(|seed| Run::new(seed).whole());
}

#[test]
fn the_product_answers_as_bind_did() {
    for way in WAYS {
        let agreed = bind::replay(|zone, request| {
            let mut left = zone.twin();
            let got = way.send(&mut left, request);
            *zone = left.twin();
            match got.refusal {
                0 => Ok(product::reply(request.kind, got.answer).expect("a listed answer")),
                refusal => Err(refusal as u8),
            }
        });
        assert_eq!(agreed, bind::ALL, "{way:?}");
    }
}
