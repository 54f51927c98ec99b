//! What a zone is asked without changing it (document 01, "Zone, requests and
//! jobs"): whether two zones are the same, and what stands at a name.

use crate::zone::{self, Entry, Name, Zone, HELD};

/// Whether two zones have the same names, owners and address sets, at
/// whichever places and in whichever letters. Refusal 17 for either of them.
pub fn same(left: &Zone, right: &Zone) -> Result<bool, u8> {
    let (left, right) = (zone::sort(left)?, zone::sort(right)?);
    let (left, right) = (left.as_slice(), right.as_slice());
    let mut pairs = left.iter().zip(right);
    Ok(left.len() == right.len() && pairs.all(|(left, right)| is_same(left, right)))
}

/// Whether two names of zones are the same, with owner and address sets.
fn is_same(left: &Entry, right: &Entry) -> bool {
    left.name == right.name
        && left.kind == right.kind
        && (left.kind != HELD || left.dhcid == right.dhcid)
        && left.v4.is_same(&right.v4)
        && left.v6.is_same(&right.v6)
}

/// The place that a name has, with the name in the letters in which it stands
/// there, or none where the name is absent. Refusals 17, then 11.
pub fn find<'a>(zone: &'a Zone, name: &Name) -> Result<Option<&'a Entry>, u8> {
    zone::check(zone)?;
    zone::check_name(name)?;
    Ok(zone.entries.iter().find(|entry| entry.is_at(name)))
}

#[cfg(test)]
mod tests {
    use super::*;
    use crate::zone::{as_set, Dhcid, Set, FREE, PLACES, STATIC};

    const X: Dhcid = [1; 35];
    const Y: Dhcid = [2; 35];

    fn name(number: usize) -> Name {
        Name::new(&[2, b'n', 128 + number as u8, 0]).unwrap()
    }

    /// The same name with a capital letter.
    fn capital(number: usize) -> Name {
        Name::new(&[2, b'N', 128 + number as u8, 0]).unwrap()
    }

    fn set<const W: usize>(lasts: &[u8]) -> Set<W> {
        let mut set = Set::EMPTY;
        for (item, last) in set.items.iter_mut().zip(lasts) {
            *item = [*last; W];
        }
        set.count = lasts.len() as u8;
        set
    }

    fn held(number: usize) -> Entry {
        Entry {
            kind: HELD,
            name: name(number),
            dhcid: X,
            v4: set(&[1, 2, 3]),
            v6: set(&[1, 2]),
        }
    }

    fn fixed(number: usize) -> Entry {
        Entry {
            kind: STATIC,
            ..held(number)
        }
    }

    fn zone(entries: &[Entry]) -> Zone {
        let mut zone = Zone::EMPTY;
        zone.entries[..entries.len()].copy_from_slice(entries);
        zone
    }

    fn full_zone() -> Zone {
        let entries: Vec<Entry> = (0..PLACES).map(held).collect();
        zone(&entries)
    }

    /// A zone whose form is broken.
    fn broken() -> Zone {
        zone(&[Entry { kind: 3, ..held(0) }])
    }

    /// Whether two sound zones are the same, asked both ways round.
    fn told(left: &Zone, right: &Zone) -> bool {
        let told = same(left, right).unwrap();
        assert_eq!(same(right, left), Ok(told));
        assert_eq!(as_set(left) == as_set(right), told);
        told
    }

    #[test]
    fn places_and_order_do_not_count() {
        let mut turned = full_zone();
        turned.entries.rotate_left(5);
        assert!(told(&full_zone(), &turned));
        assert!(told(&Zone::EMPTY, &Zone::EMPTY));
        let other_order = Entry {
            v4: set(&[3, 1, 2]),
            v6: set(&[2, 1]),
            ..held(0)
        };
        let left = zone(&[held(0), fixed(1)]);
        assert!(told(&left, &zone(&[fixed(1), Entry::FREE, other_order])));
    }

    #[test]
    fn names_owners_and_addresses_count() {
        let left = zone(&[held(0), held(1)]);
        let with = |entry| zone(&[held(0), entry]);
        let mut other_owner = held(1);
        other_owner.dhcid[34] = 9;
        for right in [
            zone(&[held(0)]),
            zone(&[held(0), held(1), held(2)]),
            with(held(2)),
            with(fixed(1)),
            with(other_owner),
            with(Entry {
                v4: set(&[1, 2]),
                ..held(1)
            }),
            with(Entry {
                v4: set(&[1, 2, 3, 4]),
                ..held(1)
            }),
            with(Entry {
                v6: set(&[1, 3]),
                ..held(1)
            }),
            with(Entry {
                v4: set(&[]),
                v6: set(&[]),
                ..held(1)
            }),
        ] {
            assert!(!told(&left, &right));
        }
        assert!(!told(&full_zone(), &Zone::EMPTY));
    }

    #[test]
    fn some_octets_are_not_looked_at() {
        let mut rubbish = zone(&[held(0), fixed(1), held(2)]);
        rubbish.entries[0].name.octets[4..].fill(7);
        rubbish.entries[0].v4.items[3] = [1; 4];
        rubbish.entries[0].v6.items[2] = [9; 16];
        rubbish.entries[1].dhcid = Y;
        rubbish.entries[2].kind = FREE;
        rubbish.entries[2].v6.count = 200;
        assert!(told(&rubbish, &zone(&[held(0), fixed(1)])));
    }

    #[test]
    fn letters_do_not_count() {
        let mut other = full_zone();
        for (number, entry) in other.entries.iter_mut().enumerate() {
            entry.name = capital(number);
        }
        other.entries.reverse();
        assert!(told(&full_zone(), &other));
        for number in 0..PLACES {
            let found = find(&other, &name(number)).unwrap().unwrap();
            assert_eq!(found.name.as_slice(), capital(number).as_slice());
        }
        let twice = zone(&[
            held(0),
            Entry {
                name: capital(0),
                ..fixed(1)
            },
        ]);
        assert_eq!(find(&twice, &name(0)).err(), Some(17));
        assert_eq!(same(&twice, &full_zone()), Err(17));
    }

    #[test]
    fn either_zone_is_refused() {
        let good = full_zone();
        for (left, right) in [
            (&broken(), &good),
            (&good, &broken()),
            (&broken(), &broken()),
        ] {
            assert_eq!(same(left, right), Err(17));
        }
        let twice = zone(&[held(0), fixed(0)]);
        assert_eq!(same(&twice, &twice), Err(17));
    }

    #[test]
    fn finds_what_stands_at_a_name() {
        let mut z = zone(&[fixed(0), held(1), held(2)]);
        z.entries[2].kind = FREE;
        let kind = |number| find(&z, &name(number)).unwrap().map(|entry| entry.kind);
        assert_eq!(
            [0, 1, 2, 3].map(kind),
            [Some(STATIC), Some(HELD), None, None]
        );
        let full = full_zone();
        for (number, entry) in full.entries.iter().enumerate() {
            let mut name = name(number);
            name.octets[4..].fill(7);
            let found = find(&full, &name).unwrap().unwrap();
            assert!(std::ptr::eq(found, entry));
        }
    }

    #[test]
    fn refusals_come_in_order() {
        let cut = Name::new(&[1, 7]).unwrap();
        let refusal = |zone: &Zone, name: &Name| find(zone, name).err();
        assert_eq!(refusal(&broken(), &cut), Some(17));
        assert_eq!(refusal(&broken(), &name(0)), Some(17));
        assert_eq!(refusal(&full_zone(), &cut), Some(11));
        assert_eq!(refusal(&full_zone(), &Name::EMPTY), Some(11));
    }
}
