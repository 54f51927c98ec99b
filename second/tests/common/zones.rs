//! Zones and requests: sound ones drawn from a few names, owners and
//! addresses, and broken ones of every kind.

use std::collections::BTreeMap;

use second::name_option::{shape, Shape};
use second::zone::{
    as_set, Address, Dhcid, Entry, Name, Set, Zone, FREE, HELD, PLACES, SET_MAX, STATIC,
};

use super::letters::{self, is_spelled_alike, respelled};
use super::names;
use super::random::Random;
use super::requests::{Kind, Request};

/// The ways in which a zone's form is broken.
pub const FAULTS: &[&str] = &[
    "17: kind",
    "17: name not full",
    "17: fifth address of family 4",
    "17: fifth address of family 6",
    "17: address twice, family 4",
    "17: address twice, family 6",
    "17: name twice",
    "17: name twice in other letters",
];

/// Names that a stock has.
const STOCK_NAMES: usize = 5;

/// What a chain's zones and requests are made of.
pub struct Stock {
    names: Vec<Name>,
    dhcids: Vec<Dhcid>,
    /// Addresses of family 4, which differ in their first four octets.
    fours: Vec<Address>,
    /// Addresses of family 6, which differ in any octet.
    sixes: Vec<Address>,
}

/// A name with anything in the octets past its length.
pub fn name_of(random: &mut Random, octets: &[u8]) -> Name {
    let mut name = Name::EMPTY;
    random.fill(&mut name.octets);
    name.octets[..octets.len()].copy_from_slice(octets);
    name.len = octets.len() as u8;
    name
}

/// The same name, at times in other letters, with other octets past its
/// length.
pub fn again(random: &mut Random, name: &Name) -> Name {
    if random.one_in(3) {
        let other = respelled(random, name.as_slice());
        return name_of(random, &other);
    }
    name_of(random, name.as_slice())
}

/// Names of which some differ in one octet, or in one bit of no letter, and
/// some are longer than others.
fn stock_names(random: &mut Random) -> Vec<Name> {
    let first = names::some_full(random);
    let mut made = vec![name_of(random, &first)];
    while made.len() < STOCK_NAMES {
        let known = random.pick(&made);
        let near = near_names(random, known.as_slice());
        let near = near.iter().map(|near| name_of(random, near));
        let new: Vec<Name> = near.filter(|near| !made.contains(near)).collect();
        made.extend(new);
    }
    made.truncate(STOCK_NAMES);
    made
}

/// A name near another, or two near each other, or one drawn apart.
fn near_names(random: &mut Random, name: &[u8]) -> Vec<Vec<u8>> {
    match random.below(6) {
        // One octet of the first or the last label differs.
        0 => {
            let mut near = name.to_vec();
            near[random.pick(&[1, name.len() - 2])] ^= random.pick(&[1, 0x20, 0x80]);
            vec![near]
        }
        1 if name.len() < 250 => vec![[&[1, b'x'], name].concat()],
        2 => vec![names::full(random, 255)],
        3 | 4 => letters::apart(random, name).to_vec(),
        _ => vec![names::some_full(random)],
    }
}

/// Three owners that differ in one octet each.
fn stock_dhcids(random: &mut Random) -> Vec<Dhcid> {
    let mut first = [0; 35];
    random.fill(&mut first);
    let (mut second, mut third) = (first, first);
    second[34] ^= 1 << random.below(8);
    third[random.below(34)] ^= 1 << random.below(8);
    vec![first, second, third]
}

/// An address and others that differ from it in one bit each, within their
/// first `width` octets.
fn stock_addresses(random: &mut Random, base: Address, width: usize) -> Vec<Address> {
    let mut addresses = vec![base];
    for bit in 0..6 {
        let mut address = base;
        address[random.below(width)] ^= 1 << bit;
        addresses.push(address);
    }
    addresses
}

impl Stock {
    pub fn new(random: &mut Random) -> Stock {
        let mut base = [0; 16];
        random.fill(&mut base);
        Stock {
            names: stock_names(random),
            dhcids: stock_dhcids(random),
            fours: stock_addresses(random, base, 4),
            sixes: stock_addresses(random, base, 16),
        }
    }

    /// A set of `count` of the addresses, with anything past the count.
    fn set<const W: usize>(&self, random: &mut Random, count: usize) -> Set<W> {
        let mut set = Set::EMPTY;
        let stock = if W == 4 { &self.fours } else { &self.sixes };
        let first = random.below(stock.len());
        for (at, item) in set.items.iter_mut().enumerate() {
            let address = stock[(first + at) % stock.len()];
            item.copy_from_slice(&address[..W]);
        }
        if count < SET_MAX && random.one_in(2) {
            set.items[SET_MAX - 1] = set.items[0];
        }
        set.count = count as u8;
        set
    }

    pub fn entry(&self, random: &mut Random, name: Name) -> Entry {
        let counts = [0, 0, 0, 0, 1, 1, 2, 4, 4, 4];
        let (fours, sixes) = (random.pick(&counts), random.pick(&counts));
        let dhcid = random.below(self.dhcids.len());
        Entry {
            kind: random.pick(&[STATIC, HELD, HELD, HELD, HELD, HELD, HELD]),
            name,
            dhcid: self.dhcids[random.pick(&[0, 0, 0, dhcid])],
            v4: self.set(random, fours),
            v6: self.set(random, sixes),
        }
    }

    /// A free place with anything in its other fields.
    fn free(&self, random: &mut Random) -> Entry {
        if random.one_in(2) {
            return Entry::FREE;
        }
        let name = random.pick(&self.names);
        let mut entry = self.entry(random, name);
        entry.kind = FREE;
        entry.name.len = random.octet();
        entry.v4.count = random.octet();
        entry
    }

    /// A sound zone of some of the names; at times others fill it up to a
    /// few free places or none.
    pub fn zone(&self, random: &mut Random) -> Zone {
        let mut zone = Zone::EMPTY;
        let known = random.between(1, self.names.len());
        let first = random.below(self.names.len());
        let filled = if random.one_in(3) {
            random.pick(&[62, 63, 63, 64, 64])
        } else {
            random.pick(&[0, 0, 3])
        };
        for at in 0..PLACES {
            let entry = if at < known {
                let name = again(random, &self.names[(first + at) % self.names.len()]);
                self.entry(random, name)
            } else if at < filled {
                let name = again(random, &filler(at));
                self.entry(random, name)
            } else {
                self.free(random)
            };
            zone.entries[at] = entry;
        }
        shuffle(random, &mut zone);
        zone
    }

    /// A sound request.
    pub fn request(&self, random: &mut Random) -> Request {
        let name = random.pick(&self.names);
        let family = random.pick(&[4, 6]);
        let mut address = random.pick(if family == 4 {
            &self.fours
        } else {
            &self.sixes
        });
        if family == 4 {
            // The octets past four are not read.
            random.fill(&mut address[4..]);
        }
        let dhcid = random.below(self.dhcids.len());
        Request {
            kind: random.pick(&[
                Kind::A,
                Kind::B,
                Kind::B,
                Kind::B,
                Kind::RemoveFirst,
                Kind::RemoveFirst,
                Kind::RemoveSecond,
                Kind::RemoveSecond,
            ]),
            name: again(random, &name),
            dhcid: self.dhcids[random.pick(&[0, 0, 0, 0, dhcid])],
            family,
            address,
            policy: random.pick(&[0, 0, 0, 0, 1, 2]),
        }
    }

    /// Breaks a zone's form; the way it was done.
    pub fn break_zone(&self, random: &mut Random, zone: &mut Zone) -> &'static str {
        let inside = random.below(PLACES);
        let at = random.pick(&[0, inside, PLACES - 1]);
        let name = name_of(random, &[2, b'b', b'b', 0]);
        let entry = &mut zone.entries[at];
        if entry.kind == FREE {
            *entry = self.entry(random, name);
        }
        match random.below(10) {
            0 => {
                entry.kind = random.pick(&[3, 4, 128, 255]);
                "17: kind"
            }
            1 => {
                entry.name = no_full_name(random);
                "17: name not full"
            }
            2 => {
                entry.v4.count = random.pick(&[5, 6, 128, 255]);
                "17: fifth address of family 4"
            }
            3 => {
                entry.v6.count = random.pick(&[5, 6, 128, 255]);
                "17: fifth address of family 6"
            }
            4 => {
                double(random, &mut entry.v4);
                "17: address twice, family 4"
            }
            5 => {
                double(random, &mut entry.v6);
                "17: address twice, family 6"
            }
            _ => self.double_name(random, zone, at),
        }
    }

    /// Puts the name of a place at another one too; what that is called.
    fn double_name(&self, random: &mut Random, zone: &mut Zone, at: usize) -> &'static str {
        let name = zone.entries[at].name;
        let copied = again(random, &name);
        let other = (at + random.between(1, PLACES - 1)) % PLACES;
        zone.entries[other] = self.entry(random, copied);
        if is_spelled_alike(&name, &copied) {
            "17: name twice"
        } else {
            "17: name twice in other letters"
        }
    }
}

/// One of 65 names that are in no stock.
pub fn filler(number: usize) -> Name {
    let octets = [5, b'F', b'i', b'l', b'l', 128 + number as u8, 0];
    Name::new(&octets).expect("short")
}

/// Makes two counted addresses of a set equal.
fn double<const W: usize>(random: &mut Random, set: &mut Set<W>) {
    set.count = random.between(2, SET_MAX) as u8;
    let one = random.below(usize::from(set.count));
    let span = random.between(1, usize::from(set.count) - 1);
    set.items[one] = set.items[(one + span) % usize::from(set.count)];
}

/// A name that is partial, malformed or empty.
pub fn no_full_name(random: &mut Random) -> Name {
    loop {
        let octets = match random.below(6) {
            0 => random
                .pick(&[&[][..], &[0], &[64, 0], &[1, 7, 0, 0]])
                .to_vec(),
            1 => names::some_partial(random),
            2 => names::some_octets(random),
            _ => names::some_faulty(random),
        };
        if octets.len() <= 255 && shape(&octets) != Shape::Full {
            return name_of(random, &octets);
        }
    }
}

/// Puts the entries in any order.
pub fn shuffle(random: &mut Random, zone: &mut Zone) {
    for last in (1..PLACES).rev() {
        zone.entries.swap(last, random.between(0, last));
    }
}

/// How many names a zone has.
pub fn names_in(zone: &Zone) -> usize {
    let named = zone.entries.iter().filter(|entry| entry.kind != FREE);
    named.count()
}

/// What stands at a name, in whichever letters.
pub fn entry_at<'a>(zone: &'a Zone, name: &Name) -> Option<&'a Entry> {
    let named = |entry: &&Entry| entry.kind != FREE && entry.name == *name;
    zone.entries.iter().find(named)
}

/// A place that passes a test, from a random one on, if there is one.
pub fn some_place(
    random: &mut Random,
    zone: &Zone,
    test: impl Fn(&Entry) -> bool,
) -> Option<usize> {
    let first = random.below(PLACES);
    let mut places = (first..PLACES).chain(0..first);
    places.find(|&at| test(&zone.entries[at]))
}

/// Whether two places are free, or have the same name in the same letters with
/// the same owner and addresses in the same order.
pub fn same_place(left: &Entry, right: &Entry) -> bool {
    if left.kind != right.kind || left.kind == FREE {
        return left.kind == right.kind;
    }
    is_spelled_alike(&left.name, &right.name)
        && left.dhcid == right.dhcid
        && left.v4.as_slice() == right.v4.as_slice()
        && left.v6.as_slice() == right.v6.as_slice()
}

/// The octets of each name that stands, found by the folded name.
fn spellings(zone: &Zone) -> BTreeMap<Vec<u8>, &[u8]> {
    let named = zone.entries.iter().filter(|entry| entry.kind != FREE);
    named
        .map(|entry| (entry.name.folded(), entry.name.as_slice()))
        .collect()
}

/// Whether two zones are the same and have every name in the same letters;
/// where every place agrees they do.
pub fn same_zone(left: &Zone, right: &Zone) -> bool {
    let mut places = left.entries.iter().zip(&right.entries);
    places.all(|(left, right)| same_place(left, right))
        || as_set(left) == as_set(right) && spellings(left) == spellings(right)
}
