//! Zones near a given one: the same in other octets, or with one difference.

use second::zone::{check, Entry, Name, Set, Zone, FREE, HELD, PLACES, SET_MAX, STATIC};

use super::letters::{is_spelled_alike, respelled};
use super::random::Random;
use super::zones::{shuffle, some_place};

/// A change to a sound zone; false where the zone has nothing that it could
/// change, and is then as before.
type Change = fn(&mut Random, &mut Zone) -> bool;

/// What putting the names in other letters is called.
pub const LETTERS: &str = "same: letters of names";

/// Changes that leave a zone the same.
const REWRITES: [(&str, Change); 10] = [
    ("same: places", |random, zone| {
        shuffle(random, zone);
        true
    }),
    ("same: order of addresses, family 4", |random, zone| {
        at_every_name(zone, |entry| turn(random, &mut entry.v4))
    }),
    ("same: order of addresses, family 6", |random, zone| {
        at_every_name(zone, |entry| turn(random, &mut entry.v6))
    }),
    ("same: unused items, family 4", |random, zone| {
        at_every_name(zone, |entry| fill_unused(random, &mut entry.v4))
    }),
    ("same: unused items, family 6", |random, zone| {
        at_every_name(zone, |entry| fill_unused(random, &mut entry.v6))
    }),
    ("same: octets past a name's length", |random, zone| {
        at_every_name(zone, |entry| {
            let past = &mut entry.name.octets[usize::from(entry.name.len)..];
            random.fill(past);
            !past.is_empty()
        })
    }),
    (LETTERS, respell),
    ("same: DHCID of a static name", |random, zone| {
        at_every_name(zone, |entry| {
            let is_static = entry.kind == STATIC;
            if is_static {
                random.fill(&mut entry.dhcid);
            }
            is_static
        })
    }),
    ("same: octets of free places", fill_free),
    ("same: a name left in a free place", leave_name),
];

/// Changes that make it another one.
const DIFFERENCES: [(&str, Change); 17] = [
    ("other: a name less", |random, zone| {
        at_some_name(random, zone, |_, entry| {
            entry.kind = FREE;
            true
        })
    }),
    ("other: a name more", add_name),
    ("other: an octet of a name", |random, zone| {
        at_some_name(random, zone, |random, entry| {
            let before = entry.name;
            let last = usize::from(entry.name.len) - 2;
            entry.name.octets[random.pick(&[1, last])] ^= 1 << random.below(8);
            entry.name != before
        })
    }),
    ("other: bit 5 of no letter of a name", |random, zone| {
        at_some_name(random, zone, flip_no_letter)
    }),
    ("other: a name with a label more", |random, zone| {
        at_some_name(random, zone, |_, entry| {
            let longer = Name::new(&[&[1, b'x'], entry.name.as_slice()].concat());
            longer.map(|longer| entry.name = longer).is_some()
        })
    }),
    ("other: a name with a label less", |random, zone| {
        at_some_name(random, zone, |_, entry| {
            let label = usize::from(entry.name.octets[0]);
            let rest = &entry.name.as_slice()[1 + label..];
            let shorter = Name::new(rest).filter(Name::is_full);
            shorter.map(|shorter| entry.name = shorter).is_some()
        })
    }),
    ("other: owner", |random, zone| {
        at_some_name(random, zone, |random, entry| {
            entry.dhcid[random.below(35)] ^= 1 << random.below(8);
            entry.kind == HELD
        })
    }),
    ("other: static, not held", |random, zone| {
        at_some_name(random, zone, |_, entry| become_kind(entry, STATIC))
    }),
    ("other: held, not static", |random, zone| {
        at_some_name(random, zone, |_, entry| become_kind(entry, HELD))
    }),
    ("other: an address, family 4", |random, zone| {
        at_some_name(random, zone, |random, entry| alter(random, &mut entry.v4))
    }),
    ("other: an address, family 6", |random, zone| {
        at_some_name(random, zone, |random, entry| alter(random, &mut entry.v6))
    }),
    ("other: an address less, family 4", |random, zone| {
        at_some_name(random, zone, |_, entry| shorten(&mut entry.v4))
    }),
    ("other: an address less, family 6", |random, zone| {
        at_some_name(random, zone, |_, entry| shorten(&mut entry.v6))
    }),
    ("other: an address more, family 4", |random, zone| {
        at_some_name(random, zone, |random, entry| grow(random, &mut entry.v4))
    }),
    ("other: an address more, family 6", |random, zone| {
        at_some_name(random, zone, |random, entry| grow(random, &mut entry.v6))
    }),
    ("other: two names exchanged", exchange_names),
    ("other: no names", |_, zone| {
        at_every_name(zone, |entry| become_kind(entry, FREE))
    }),
];

/// What the changes are called.
pub fn labels() -> Vec<&'static str> {
    let changes = REWRITES.iter().chain(&DIFFERENCES);
    changes.map(|(label, _)| *label).collect()
}

/// Writes a zone in other octets that leave it the same; how it was done, if
/// the zone allows for it.
pub fn rewrite(random: &mut Random, zone: &mut Zone) -> Option<&'static str> {
    let (label, change) = random.pick(&REWRITES);
    change(random, zone).then_some(label)
}

/// Makes a zone another one; how it was done.
pub fn alter_zone(random: &mut Random, zone: &mut Zone) -> &'static str {
    loop {
        let mut other = zone.clone();
        let (label, change) = random.pick(&DIFFERENCES);
        // A name or an address may have come to stand there twice.
        if change(random, &mut other) && check(&other).is_ok() {
            *zone = other;
            return label;
        }
    }
}

/// Changes all names for which it can be done; whether there was one.
fn at_every_name(zone: &mut Zone, mut change: impl FnMut(&mut Entry) -> bool) -> bool {
    let mut changed = false;
    for entry in zone.entries.iter_mut().filter(|entry| entry.kind != FREE) {
        changed |= change(entry);
    }
    changed
}

/// Changes one name for which it can be done; whether there was one.
fn at_some_name(
    random: &mut Random,
    zone: &mut Zone,
    change: impl Fn(&mut Random, &mut Entry) -> bool,
) -> bool {
    let first = random.below(PLACES);
    let mut places = (first..PLACES).chain(0..first);
    places.any(|at| {
        let mut entry = zone.entries[at];
        let changed = entry.kind != FREE && change(random, &mut entry);
        if changed {
            zone.entries[at] = entry;
        }
        changed
    })
}

/// Puts the names in other letters; false where they have none.
pub fn respell(random: &mut Random, zone: &mut Zone) -> bool {
    at_every_name(zone, |entry| {
        let before = entry.name;
        let other = respelled(random, before.as_slice());
        entry.name.octets[..other.len()].copy_from_slice(&other);
        !is_spelled_alike(&entry.name, &before)
    })
}

/// Changes bit 5 of an octet of a name that is no letter; false where the name
/// is not full then, as a length octet may have been changed.
fn flip_no_letter(random: &mut Random, entry: &mut Entry) -> bool {
    let name = entry.name.as_slice();
    let others = (0..name.len()).filter(|&at| !name[at].is_ascii_alphabetic());
    let others: Vec<usize> = others.collect();
    entry.name.octets[random.pick(&others)] ^= 0x20;
    entry.name.is_full()
}

/// Gives a name another kind; false where it has that already.
fn become_kind(entry: &mut Entry, kind: u8) -> bool {
    let before = entry.kind;
    entry.kind = kind;
    before != kind
}

/// Puts the addresses of a set in another order; false where there is none.
fn turn<const W: usize>(random: &mut Random, set: &mut Set<W>) -> bool {
    let count = usize::from(set.count);
    if count < 2 {
        return false;
    }
    set.items[..count].rotate_left(random.between(1, count - 1));
    true
}

/// Puts any octets, or an address of the set, in the items past the count.
fn fill_unused<const W: usize>(random: &mut Random, set: &mut Set<W>) -> bool {
    let again = random.one_in(2).then_some(set.items[0]);
    let unused = &mut set.items[usize::from(set.count)..];
    for item in unused.iter_mut() {
        random.fill(item);
        *item = again.unwrap_or(*item);
    }
    !unused.is_empty()
}

/// Changes a bit of an address; false where there is none.
fn alter<const W: usize>(random: &mut Random, set: &mut Set<W>) -> bool {
    if set.count == 0 {
        return false;
    }
    let item = &mut set.items[random.below(usize::from(set.count))];
    item[random.below(W)] ^= 1 << random.below(8);
    true
}

/// Takes the last address away; false where there is none.
fn shorten<const W: usize>(set: &mut Set<W>) -> bool {
    let any = set.count > 0;
    set.count -= u8::from(any);
    any
}

/// Adds an address; false where four are there.
fn grow<const W: usize>(random: &mut Random, set: &mut Set<W>) -> bool {
    let count = usize::from(set.count);
    if count == SET_MAX {
        return false;
    }
    random.fill(&mut set.items[count]);
    set.count += 1;
    true
}

/// Puts any octets in the free places.
fn fill_free(random: &mut Random, zone: &mut Zone) -> bool {
    let mut changed = false;
    for entry in zone.entries.iter_mut().filter(|entry| entry.kind == FREE) {
        random.fill(&mut entry.name.octets);
        random.fill(&mut entry.dhcid);
        random.fill(entry.v4.items.as_flattened_mut());
        random.fill(entry.v6.items.as_flattened_mut());
        entry.name.len = random.octet();
        entry.v4.count = random.octet();
        entry.v6.count = random.octet();
        changed = true;
    }
    changed
}

/// Copies a name to a free place, which stays free.
fn leave_name(random: &mut Random, zone: &mut Zone) -> bool {
    let named = some_place(random, zone, |entry| entry.kind != FREE);
    let free = some_place(random, zone, |entry| entry.kind == FREE);
    let (Some(named), Some(free)) = (named, free) else {
        return false;
    };
    zone.entries[free] = Entry {
        kind: FREE,
        ..zone.entries[named]
    };
    true
}

/// Gives a free place a name.
fn add_name(random: &mut Random, zone: &mut Zone) -> bool {
    let free = some_place(random, zone, |entry| entry.kind == FREE);
    let name = Name::new(&[2, random.octet(), random.octet(), 0]).expect("short");
    free.map(|at| {
        zone.entries[at] = Entry {
            kind: random.pick(&[STATIC, HELD]),
            name,
            ..Entry::FREE
        };
    })
    .is_some()
}

/// Exchanges two names, of which one has more addresses than the other.
fn exchange_names(random: &mut Random, zone: &mut Zone) -> bool {
    let Some(one) = some_place(random, zone, |entry| entry.kind != FREE) else {
        return false;
    };
    let count = zone.entries[one].v4.count;
    let unlike = |entry: &Entry| entry.kind != FREE && entry.v4.count != count;
    let Some(other) = some_place(random, zone, unlike) else {
        return false;
    };
    let names = [one, other].map(|at| zone.entries[at].name);
    [zone.entries[other].name, zone.entries[one].name] = names;
    true
}
