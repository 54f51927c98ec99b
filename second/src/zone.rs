//! The zone and its requests (document 01, "Zone, requests and jobs").
//!
//! A zone has places for 64 names. A name is static or held by one DHCID,
//! and has a small set of addresses per family. Names are compared with A to
//! Z folded (document 02, a); a name that stands keeps its octets. Four
//! requests work on the zone, and each reads and writes in one go, so that
//! nothing comes between. Refusals keep the order of "Refusal numbers": 17,
//! 18, 11.

use std::collections::{BTreeMap, BTreeSet};

use crate::name_option::{shape, Shape};

/// Places in a zone.
pub const PLACES: usize = 64;
/// Addresses of one family a name can have.
pub const SET_MAX: usize = 4;

/// A place without a name.
pub const FREE: u8 = 0;
/// A name without a DHCID; no job may touch it.
pub const STATIC: u8 = 1;
/// A name held by its DHCID.
pub const HELD: u8 = 2;

/// The octets that stand for an owner, opaque here.
pub type Dhcid = [u8; 35];
/// Room for an address of either family; family 4 uses the first four.
pub type Address = [u8; 16];

/// A name's octets and how many of them count. Names that differ in the case
/// of letters alone are equal.
#[derive(Clone, Copy, Debug)]
pub struct Name {
    pub len: u8,
    pub octets: [u8; 255],
}

impl Name {
    pub const EMPTY: Name = Name {
        len: 0,
        octets: [0; 255],
    };

    /// A name from its octets, or nothing where they are over 255.
    pub fn new(octets: &[u8]) -> Option<Name> {
        let mut name = Name::EMPTY;
        name.len = u8::try_from(octets.len()).ok()?;
        name.octets[..octets.len()].copy_from_slice(octets);
        Some(name)
    }

    #[inline]
    pub fn as_slice(&self) -> &[u8] {
        &self.octets[..usize::from(self.len)]
    }

    /// The octets with A to Z folded, in which equal names are alike. Length
    /// octets are below the letters and stay.
    pub fn folded(&self) -> Vec<u8> {
        self.as_slice().to_ascii_lowercase()
    }

    /// Whether the octets form a full name, as zones and jobs need it.
    pub fn is_full(&self) -> bool {
        shape(self.as_slice()) == Shape::Full
    }
}

impl PartialEq for Name {
    #[inline]
    fn eq(&self, other: &Name) -> bool {
        self.as_slice().eq_ignore_ascii_case(other.as_slice())
    }
}

impl Eq for Name {}

/// The addresses of one family, `W` octets each, in no order.
#[derive(Clone, Copy, Debug)]
pub struct Set<const W: usize> {
    /// Above four breaks the form.
    pub count: u8,
    /// Items past the count are ignored.
    pub items: [[u8; W]; SET_MAX],
}

pub type Set4 = Set<4>;
pub type Set6 = Set<16>;

impl<const W: usize> Set<W> {
    pub const EMPTY: Set<W> = Set {
        count: 0,
        items: [[0; W]; SET_MAX],
    };

    pub fn only(address: [u8; W]) -> Set<W> {
        let mut set = Set::EMPTY;
        set.count = 1;
        set.items[0] = address;
        set
    }

    /// The addresses; all four if the count claims more.
    pub fn as_slice(&self) -> &[[u8; W]] {
        &self.items[..usize::from(self.count).min(SET_MAX)]
    }

    /// Whether both have the same addresses, of sets without one twice.
    pub(crate) fn is_same(&self, other: &Set<W>) -> bool {
        let (ours, theirs) = (self.as_slice(), other.as_slice());
        ours.len() == theirs.len() && ours.iter().all(|item| theirs.contains(item))
    }

    fn is_well_formed(&self) -> bool {
        let items = self.as_slice();
        let distinct = |at: usize| !items[..at].contains(&items[at]);
        usize::from(self.count) <= SET_MAX && (1..items.len()).all(distinct)
    }

    /// Adds an address unless present; false where it needs a fifth place.
    fn add(&mut self, address: [u8; W]) -> bool {
        if self.as_slice().contains(&address) {
            return true;
        }
        let count = usize::from(self.count);
        if count == SET_MAX {
            return false;
        }
        self.items[count] = address;
        self.count += 1;
        true
    }

    /// Deletes an address if there; the last one takes its place.
    fn delete(&mut self, address: &[u8; W]) {
        if let Some(at) = self.as_slice().iter().position(|item| item == address) {
            self.count -= 1;
            self.items[at] = self.items[usize::from(self.count)];
        }
    }
}

/// One place of the zone.
#[derive(Clone, Copy, Debug)]
pub struct Entry {
    /// Free, static or held; other numbers break the form. The other fields
    /// of a free place are ignored, as is a static name's DHCID.
    pub kind: u8,
    pub name: Name,
    pub dhcid: Dhcid,
    pub v4: Set4,
    pub v6: Set6,
}

impl Entry {
    pub const FREE: Entry = Entry {
        kind: FREE,
        name: Name::EMPTY,
        dhcid: [0; 35],
        v4: Set::EMPTY,
        v6: Set::EMPTY,
    };

    fn is_well_formed(&self) -> bool {
        match self.kind {
            FREE => true,
            STATIC | HELD => {
                self.name.is_full() && self.v4.is_well_formed() && self.v6.is_well_formed()
            }
            _ => false,
        }
    }

    /// Whether this is the place of the name.
    #[inline]
    pub(crate) fn is_at(&self, name: &Name) -> bool {
        self.kind != FREE && self.name == *name
    }

    fn is_held_by(&self, dhcid: &Dhcid) -> bool {
        self.kind == HELD && self.dhcid == *dhcid
    }

    /// Adds an address, or makes it the family's only one; false for no room.
    fn put(&mut self, family: u8, address: &Address, alone: bool) -> bool {
        if family == 4 {
            put(&mut self.v4, first_four(address), alone)
        } else {
            put(&mut self.v6, *address, alone)
        }
    }
}

fn put<const W: usize>(set: &mut Set<W>, address: [u8; W], alone: bool) -> bool {
    if alone {
        *set = Set::only(address);
        return true;
    }
    set.add(address)
}

fn first_four(address: &Address) -> [u8; 4] {
    [address[0], address[1], address[2], address[3]]
}

/// A zone of 64 places, lent by value.
#[derive(Clone, Debug)]
pub struct Zone {
    pub entries: [Entry; PLACES],
}

impl Zone {
    pub const EMPTY: Zone = Zone {
        entries: [Entry::FREE; PLACES],
    };

    /// The places that have a name.
    fn named(&self) -> impl Iterator<Item = &Entry> {
        self.entries.iter().filter(|entry| entry.kind != FREE)
    }

    fn find(&mut self, name: &Name) -> Option<&mut Entry> {
        self.entries.iter_mut().find(|entry| entry.is_at(name))
    }
}

/// The places of a zone that have a name, in the order of the folded names.
pub(crate) struct Sorted<'a> {
    /// Those past the count stand for nothing.
    entries: [&'a Entry; PLACES],
    count: usize,
}

impl<'a> Sorted<'a> {
    /// The places as they come.
    fn new(zone: &'a Zone) -> Sorted<'a> {
        let mut sorted = Sorted {
            entries: [&zone.entries[0]; PLACES],
            count: 0,
        };
        for entry in zone.named() {
            sorted.entries[sorted.count] = entry;
            sorted.count += 1;
        }
        sorted
    }

    pub(crate) fn as_slice(&self) -> &[&'a Entry] {
        &self.entries[..self.count]
    }

    /// Sorts the places by their names, which are folded once for all the
    /// comparing; false where two are equal, and then side by side.
    fn sort(&mut self) -> bool {
        let octets = self.folded_names();
        let mut rest = octets.as_slice();
        let named = self.as_slice().iter().map(|entry| {
            let (name, behind) = rest.split_at(usize::from(entry.name.len));
            rest = behind;
            (name, *entry)
        });
        let mut named: Vec<(&[u8], &Entry)> = named.collect();
        named.sort_unstable_by_key(|(name, _)| *name);
        for (place, (_, entry)) in self.entries.iter_mut().zip(&named) {
            *place = entry;
        }
        named.windows(2).all(|pair| pair[0].0 != pair[1].0)
    }

    /// The folded names, one behind the other.
    fn folded_names(&self) -> Vec<u8> {
        let lengths = self
            .as_slice()
            .iter()
            .map(|entry| usize::from(entry.name.len));
        let mut octets = Vec::with_capacity(lengths.sum());
        for entry in self.as_slice() {
            octets.extend_from_slice(entry.name.as_slice());
        }
        octets.make_ascii_lowercase();
        octets
    }
}

/// What an add's requests answer.
#[derive(Clone, Copy, PartialEq, Eq, Debug)]
pub enum Answer {
    Success,
    YxDomain,
    NxDomain,
    NxRrset,
    NoRoom,
}

/// What the first remove request answers.
#[derive(Clone, Copy, PartialEq, Eq, Debug)]
pub enum FirstAnswer {
    Passed,
    NotOurs,
}

/// What the second remove request answers.
#[derive(Clone, Copy, PartialEq, Eq, Debug)]
pub enum SecondAnswer {
    Gone,
    /// The name is absent or not held by the DHCID (NXRRSET).
    NotHeld,
    /// It is held by the DHCID and has an address (YXRRSET).
    HasAddress,
}

/// The zone's form: refusal 17 unless every name is full and there once, and
/// every address set is one.
pub fn check(zone: &Zone) -> Result<(), u8> {
    sort(zone).map(|_| ())
}

/// The places that have a name, sorted by it; refusal 17 where the zone breaks
/// its form.
#[inline]
pub(crate) fn sort(zone: &Zone) -> Result<Sorted<'_>, u8> {
    if !zone.entries.iter().all(Entry::is_well_formed) {
        return Err(17);
    }
    let mut sorted = Sorted::new(zone);
    if sorted.sort() {
        Ok(sorted)
    } else {
        Err(17)
    }
}

/// Refusal 18 unless the family is 4 or 6 and the policy is listed.
pub(crate) fn check_numbers(family: u8, policy: u8) -> Result<(), u8> {
    if (family == 4 || family == 6) && policy <= 2 {
        Ok(())
    } else {
        Err(18)
    }
}

/// Refusal 11 unless the name is full.
pub(crate) fn check_name(name: &Name) -> Result<(), u8> {
    if name.is_full() {
        Ok(())
    } else {
        Err(11)
    }
}

/// The refusals of a request in their order: 17, 18, 11.
pub fn check_request(zone: &Zone, name: &Name, family: u8, policy: u8) -> Result<(), u8> {
    check(zone)?;
    check_numbers(family, policy)?;
    check_name(name)
}

/// Request A: an absent name is added with DHCID and address.
pub fn request_a(
    zone: &mut Zone,
    name: &Name,
    dhcid: &Dhcid,
    family: u8,
    address: &Address,
) -> Result<Answer, u8> {
    check_request(zone, name, family, 0)?;
    Ok(send_a(zone, name, dhcid, family, address))
}

/// Request B: the owner's address is added after the policy's deletes.
pub fn request_b(
    zone: &mut Zone,
    name: &Name,
    dhcid: &Dhcid,
    family: u8,
    address: &Address,
    policy: u8,
) -> Result<Answer, u8> {
    check_request(zone, name, family, policy)?;
    Ok(send_b(zone, name, dhcid, family, address, policy))
}

/// First remove request: the owner's address is deleted.
pub fn request_remove_first(
    zone: &mut Zone,
    name: &Name,
    dhcid: &Dhcid,
    family: u8,
    address: &Address,
) -> Result<FirstAnswer, u8> {
    check_request(zone, name, family, 0)?;
    Ok(send_remove_first(zone, name, dhcid, family, address))
}

/// Second remove request: the owner's name without addresses is deleted. The
/// family is the job's; it is checked, but nothing more.
pub fn request_remove_second(
    zone: &mut Zone,
    name: &Name,
    dhcid: &Dhcid,
    family: u8,
) -> Result<SecondAnswer, u8> {
    check_request(zone, name, family, 0)?;
    Ok(send_remove_second(zone, name, dhcid))
}

/// Request A on checked input.
pub(crate) fn send_a(
    zone: &mut Zone,
    name: &Name,
    dhcid: &Dhcid,
    family: u8,
    address: &Address,
) -> Answer {
    if zone.find(name).is_some() {
        return Answer::YxDomain;
    }
    let Some(place) = zone.entries.iter_mut().find(|entry| entry.kind == FREE) else {
        return Answer::NoRoom;
    };
    let (v4, v6) = if family == 4 {
        (Set::only(first_four(address)), Set::EMPTY)
    } else {
        (Set::EMPTY, Set::only(*address))
    };
    *place = Entry {
        kind: HELD,
        name: *name,
        dhcid: *dhcid,
        v4,
        v6,
    };
    Answer::Success
}

/// Request B on checked input. Only policy 0 can find no room, and it
/// deletes nothing, so the zone is then unchanged.
pub(crate) fn send_b(
    zone: &mut Zone,
    name: &Name,
    dhcid: &Dhcid,
    family: u8,
    address: &Address,
    policy: u8,
) -> Answer {
    let Some(entry) = zone.find(name) else {
        return Answer::NxDomain;
    };
    if !entry.is_held_by(dhcid) {
        return Answer::NxRrset;
    }
    if policy == 2 && family == 4 {
        entry.v6.count = 0;
    } else if policy == 2 {
        entry.v4.count = 0;
    }
    if entry.put(family, address, policy != 0) {
        Answer::Success
    } else {
        Answer::NoRoom
    }
}

/// First remove request on checked input.
pub(crate) fn send_remove_first(
    zone: &mut Zone,
    name: &Name,
    dhcid: &Dhcid,
    family: u8,
    address: &Address,
) -> FirstAnswer {
    match zone.find(name) {
        Some(entry) if entry.is_held_by(dhcid) => {
            if family == 4 {
                entry.v4.delete(&first_four(address));
            } else {
                entry.v6.delete(address);
            }
            FirstAnswer::Passed
        }
        _ => FirstAnswer::NotOurs,
    }
}

/// Second remove request on checked input.
pub(crate) fn send_remove_second(zone: &mut Zone, name: &Name, dhcid: &Dhcid) -> SecondAnswer {
    match zone.find(name) {
        Some(entry) if entry.is_held_by(dhcid) => {
            if entry.v4.count != 0 || entry.v6.count != 0 {
                return SecondAnswer::HasAddress;
            }
            entry.kind = FREE;
            SecondAnswer::Gone
        }
        _ => SecondAnswer::NotHeld,
    }
}

/// Request A with the zone handed in and back.
pub fn request_a_by_value(
    mut zone: Zone,
    name: &Name,
    dhcid: &Dhcid,
    family: u8,
    address: &Address,
) -> (Result<Answer, u8>, Zone) {
    (request_a(&mut zone, name, dhcid, family, address), zone)
}

/// Request B with the zone handed in and back.
pub fn request_b_by_value(
    mut zone: Zone,
    name: &Name,
    dhcid: &Dhcid,
    family: u8,
    address: &Address,
    policy: u8,
) -> (Result<Answer, u8>, Zone) {
    (
        request_b(&mut zone, name, dhcid, family, address, policy),
        zone,
    )
}

/// First remove request with the zone handed in and back.
pub fn request_remove_first_by_value(
    mut zone: Zone,
    name: &Name,
    dhcid: &Dhcid,
    family: u8,
    address: &Address,
) -> (Result<FirstAnswer, u8>, Zone) {
    (
        request_remove_first(&mut zone, name, dhcid, family, address),
        zone,
    )
}

/// Second remove request with the zone handed in and back.
pub fn request_remove_second_by_value(
    mut zone: Zone,
    name: &Name,
    dhcid: &Dhcid,
    family: u8,
) -> (Result<SecondAnswer, u8>, Zone) {
    (request_remove_second(&mut zone, name, dhcid, family), zone)
}

/// A name's owner (none if static) and its two address sets.
pub type Holding = (Option<Dhcid>, BTreeSet<[u8; 4]>, BTreeSet<[u8; 16]>);

/// A zone without its places, with the names folded: two zones are the same
/// when these are equal.
pub fn as_set(zone: &Zone) -> BTreeMap<Vec<u8>, Holding> {
    zone.named()
        .map(|entry| {
            let owner = (entry.kind == HELD).then_some(entry.dhcid);
            let v4 = entry.v4.as_slice().iter().copied().collect();
            let v6 = entry.v6.as_slice().iter().copied().collect();
            (entry.name.folded(), (owner, v4, v6))
        })
        .collect()
}

#[cfg(test)]
mod tests {
    use super::*;

    const X: Dhcid = [1; 35];
    const Y: Dhcid = [2; 35];

    fn name(number: usize) -> Name {
        Name::new(&[2, b'a' + (number / 16) as u8, b'a' + (number % 16) as u8, 0]).unwrap()
    }

    fn address(last: u8) -> Address {
        [last; 16]
    }

    fn held(number: usize, dhcid: Dhcid, v4: &[u8], v6: &[u8]) -> Entry {
        let mut entry = Entry {
            kind: HELD,
            name: name(number),
            dhcid,
            ..Entry::FREE
        };
        v4.iter()
            .for_each(|&last| assert!(entry.put(4, &address(last), false)));
        v6.iter()
            .for_each(|&last| assert!(entry.put(6, &address(last), false)));
        entry
    }

    fn zone(entries: &[Entry]) -> Zone {
        let mut zone = Zone::EMPTY;
        zone.entries[..entries.len()].copy_from_slice(entries);
        zone
    }

    fn full_zone() -> Zone {
        let mut zone = Zone::EMPTY;
        for (number, entry) in zone.entries.iter_mut().enumerate() {
            *entry = held(number, X, &[1], &[]);
        }
        zone
    }

    fn same(left: &Zone, right: &Zone) -> bool {
        as_set(left) == as_set(right)
    }

    /// The name of a number, in capital letters.
    fn capital(number: usize) -> Name {
        Name::new(&name(number).as_slice().to_ascii_uppercase()).unwrap()
    }

    /// The octets of the only name in a zone.
    fn spelling(zone: &Zone) -> Vec<u8> {
        let mut named = zone.named();
        let only = named.next().unwrap();
        assert!(named.next().is_none());
        only.name.as_slice().to_vec()
    }

    /// Each octet with each other, at several places of a name.
    #[test]
    fn only_letters_are_folded() {
        let with = |at: usize, octet| {
            let mut octets = [b'x'; 42];
            (octets[0], octets[41]) = (40, 0);
            octets[at] = octet;
            Name::new(&octets).unwrap()
        };
        let key = |octet| match octet {
            65..=90 => octet + 32,
            _ => octet,
        };
        let mut z = zone(&[held(0, X, &[], &[]), held(1, Y, &[], &[])]);
        for (one, other) in (0..=255).flat_map(|one| (0..=255).map(move |other| (one, other))) {
            for at in [1, 15, 16, 40] {
                let names = [with(at, one), with(at, other)];
                let same = key(one) == key(other);
                assert_eq!(names[0] == names[1], same, "{one} {other}");
                assert_eq!(names[0].folded() == names[1].folded(), same);
                [z.entries[0].name, z.entries[1].name] = names;
                assert_eq!(check(&z).is_err(), same);
            }
        }
    }

    #[test]
    fn length_octets_are_not_folded() {
        // They differ in the bit in which letters of either case differ.
        let mut octets = [b'x'; 35];
        (octets[2], octets[34]) = (31, 0);
        let [one, other] = [1, 33].map(|length| {
            octets[0] = length;
            Name::new(&octets).unwrap()
        });
        assert!(one.is_full() && other.is_full());
        assert_ne!(one, other);
        let entries = [one, other].map(|name| Entry {
            name,
            ..held(0, X, &[], &[])
        });
        assert_eq!(check(&zone(&entries)), Ok(()));
    }

    #[test]
    fn names_in_other_letters_are_the_same() {
        let other = Entry {
            name: capital(0),
            ..held(1, Y, &[], &[])
        };
        assert_eq!(check(&zone(&[held(0, X, &[], &[]), other])), Err(17));
        let mut apart = full_zone();
        apart.entries[63] = other;
        assert_eq!(check(&apart), Err(17));
        assert!(same(&zone(&[other]), &zone(&[held(0, Y, &[], &[])])));
    }

    #[test]
    fn a_name_keeps_its_octets_until_it_is_gone() {
        let (small, large) = (name(0), capital(0));
        let mut z = Zone::EMPTY;
        let add = |zone: &mut Zone, name| request_a(zone, name, &X, 4, &address(1)).unwrap();
        assert_eq!(add(&mut z, &large), Answer::Success);
        assert_eq!(add(&mut z, &small), Answer::YxDomain);
        let other = request_b(&mut z, &small, &X, 4, &address(2), 2);
        assert_eq!(other, Ok(Answer::Success));
        let first = request_remove_first(&mut z, &small, &X, 4, &address(2));
        assert_eq!(first, Ok(FirstAnswer::Passed));
        assert_eq!(spelling(&z), large.as_slice());
        let second = request_remove_second(&mut z, &small, &X, 4);
        assert_eq!(second, Ok(SecondAnswer::Gone));
        assert_eq!(add(&mut z, &small), Answer::Success);
        assert_eq!(spelling(&z), small.as_slice());
    }

    #[test]
    fn form_of_a_zone() {
        assert_eq!(check(&Zone::EMPTY), Ok(()));
        assert_eq!(check(&full_zone()), Ok(()));
        let good = held(0, X, &[1, 2, 3, 4], &[1, 2, 3, 4]);
        let mut bad = [good; 8];
        bad[0].kind = 3;
        bad[1].name.len = 3;
        bad[2].name.len = 0;
        bad[3].v4.count = 5;
        bad[4].v6.count = 255;
        bad[5].v4.items[3] = bad[5].v4.items[0];
        bad[6].v6.items[1] = bad[6].v6.items[2];
        bad[7].name.octets[0] = 64;
        for entry in bad {
            assert_eq!(check(&zone(&[entry])), Err(17));
            let free = Entry {
                kind: FREE,
                ..entry
            };
            assert_eq!(check(&zone(&[free, good])), Ok(()));
        }
        let fixed = Entry {
            kind: STATIC,
            ..good
        };
        assert_eq!(check(&zone(&[good, fixed])), Err(17));
        // Two names may differ in the octets past their lengths only if the
        // lengths tell them apart.
        let mut longer = good;
        longer.name.octets[9] = 7;
        assert_eq!(check(&zone(&[good, longer])), Err(17));
    }

    #[test]
    fn request_a_adds_or_says_yxdomain() {
        let mut zone = Zone::EMPTY;
        let add = |zone: &mut Zone, number| request_a(zone, &name(number), &X, 6, &address(1));
        assert_eq!(add(&mut zone, 0), Ok(Answer::Success));
        assert_eq!(add(&mut zone, 0), Ok(Answer::YxDomain));
        assert!(same(&zone, &super::tests::zone(&[held(0, X, &[], &[1])])));
        let mut full = full_zone();
        assert_eq!(add(&mut full, 63), Ok(Answer::YxDomain));
        assert_eq!(add(&mut full, 64), Ok(Answer::NoRoom));
        assert!(same(&full, &full_zone()));
    }

    #[test]
    fn request_b_needs_the_owner() {
        let fixed = Entry {
            kind: STATIC,
            ..held(1, X, &[], &[])
        };
        let mut z = zone(&[held(0, X, &[1], &[]), fixed]);
        let before = z.clone();
        let send = |zone: &mut Zone, number, dhcid: &Dhcid| {
            request_b(zone, &name(number), dhcid, 4, &address(9), 2)
        };
        assert_eq!(send(&mut z, 2, &X), Ok(Answer::NxDomain));
        assert_eq!(send(&mut z, 0, &Y), Ok(Answer::NxRrset));
        assert_eq!(send(&mut z, 1, &X), Ok(Answer::NxRrset));
        assert!(same(&z, &before));
    }

    #[test]
    fn request_b_deletes_by_policy() {
        let start = zone(&[held(0, X, &[1, 2, 3, 4], &[5, 6])]);
        let after = |family, last, policy| {
            let mut zone = start.clone();
            let sent = request_b(&mut zone, &name(0), &X, family, &address(last), policy);
            (sent, zone)
        };
        let wanted = |v4: &[u8], v6: &[u8]| zone(&[held(0, X, v4, v6)]);
        for (family, last, policy, end) in [
            (4, 2, 0, wanted(&[1, 2, 3, 4], &[5, 6])),
            (6, 9, 0, wanted(&[1, 2, 3, 4], &[5, 6, 9])),
            (4, 9, 1, wanted(&[9], &[5, 6])),
            (4, 3, 1, wanted(&[3], &[5, 6])),
            (6, 5, 1, wanted(&[1, 2, 3, 4], &[5])),
            (4, 9, 2, wanted(&[9], &[])),
            (6, 6, 2, wanted(&[], &[6])),
        ] {
            let (sent, zone) = after(family, last, policy);
            assert_eq!(sent, Ok(Answer::Success));
            assert!(same(&zone, &end));
        }
        let (sent, zone) = after(4, 9, 0);
        assert_eq!(sent, Ok(Answer::NoRoom));
        assert!(same(&zone, &start));
    }

    #[test]
    fn removes_take_the_address_then_the_name() {
        let mut z = zone(&[held(0, X, &[1], &[5])]);
        let first = |zone: &mut Zone, dhcid: &Dhcid, family, last| {
            request_remove_first(zone, &name(0), dhcid, family, &address(last)).unwrap()
        };
        let second = |zone: &mut Zone, dhcid: &Dhcid| {
            request_remove_second(zone, &name(0), dhcid, 4).unwrap()
        };
        assert_eq!(first(&mut z, &Y, 4, 1), FirstAnswer::NotOurs);
        assert_eq!(first(&mut z, &X, 4, 7), FirstAnswer::Passed);
        assert!(same(&z, &zone(&[held(0, X, &[1], &[5])])));
        assert_eq!(first(&mut z, &X, 4, 1), FirstAnswer::Passed);
        assert_eq!(second(&mut z, &X), SecondAnswer::HasAddress);
        assert_eq!(second(&mut z, &Y), SecondAnswer::NotHeld);
        assert_eq!(first(&mut z, &X, 6, 5), FirstAnswer::Passed);
        assert_eq!(second(&mut z, &Y), SecondAnswer::NotHeld);
        assert!(same(&z, &zone(&[held(0, X, &[], &[])])));
        assert_eq!(second(&mut z, &X), SecondAnswer::Gone);
        assert_eq!(second(&mut z, &X), SecondAnswer::NotHeld);
        assert_eq!(first(&mut z, &X, 4, 1), FirstAnswer::NotOurs);
        assert!(same(&z, &Zone::EMPTY));
    }

    #[test]
    fn static_names_are_never_ours() {
        let fixed = Entry {
            kind: STATIC,
            ..held(0, X, &[], &[])
        };
        let (first, z) =
            request_remove_first_by_value(zone(&[fixed]), &name(0), &X, 4, &address(1));
        assert_eq!(first, Ok(FirstAnswer::NotOurs));
        let (second, z) = request_remove_second_by_value(z, &name(0), &X, 6);
        assert_eq!(second, Ok(SecondAnswer::NotHeld));
        assert!(same(&z, &zone(&[fixed])));
    }

    #[test]
    fn family_4_reads_four_octets() {
        let mut z = zone(&[held(0, X, &[1], &[])]);
        let mut long = address(1);
        long[4] = 200;
        assert_eq!(
            request_b(&mut z, &name(0), &X, 4, &long, 0),
            Ok(Answer::Success)
        );
        assert!(same(&z, &zone(&[held(0, X, &[1], &[])])));
    }

    #[test]
    fn refusals_come_in_order() {
        let mut bad = zone(&[Entry {
            kind: 9,
            ..Entry::FREE
        }]);
        let mut good = Zone::EMPTY;
        let cut = Name::new(&[1, 7]).unwrap();
        for (zone, family, refusal) in [(&mut bad, 5, 17), (&mut good, 5, 18)] {
            assert_eq!(request_a(zone, &cut, &X, family, &address(1)), Err(refusal));
            assert_eq!(
                request_b(zone, &cut, &X, family, &address(1), 0),
                Err(refusal)
            );
            let first = request_remove_first(zone, &cut, &X, family, &address(1));
            assert_eq!(first, Err(refusal));
            let second = request_remove_second(zone, &cut, &X, family);
            assert_eq!(second, Err(refusal));
        }
        assert_eq!(request_b(&mut good, &cut, &X, 4, &address(1), 3), Err(18));
        assert_eq!(request_a(&mut good, &cut, &X, 4, &address(1)), Err(11));
        assert_eq!(request_b(&mut good, &cut, &X, 4, &address(1), 2), Err(11));
        assert_eq!(request_remove_second(&mut good, &cut, &X, 6), Err(11));
        assert!(same(&good, &Zone::EMPTY));
    }
}
