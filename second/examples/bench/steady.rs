//! Zones in a steady state: what a call has changed is put back after it, some
//! 18 octets, for both programs alike.

use std::hint::black_box;

use jespurla::raw;
use second::zone::{as_set, Entry, Name, Set, Zone, FREE, HELD};

use crate::common::twin::Twin;
use crate::timer::Table;
use crate::zones::{zone_of, ADDRESS};

/// What stands at the last name's place before each call.
#[derive(Clone, Copy)]
pub struct Place {
    kind: u8,
    /// How many addresses of family 6; the first is ADDRESS.
    count: u8,
}

/// No name.
pub const ABSENT: Place = Place {
    kind: FREE,
    count: 0,
};
/// The owner's name with its address.
pub const THERE: Place = Place {
    kind: HELD,
    count: 1,
};
/// The owner's name without an address.
pub const BARE: Place = Place {
    kind: HELD,
    count: 0,
};

/// A place of either program's zone.
trait PutBack {
    fn put_back(&mut self, place: Place);
}

impl PutBack for Entry {
    fn put_back(&mut self, place: Place) {
        self.kind = place.kind;
        self.v6.count = place.count;
        self.v6.items[0] = ADDRESS;
    }
}

impl PutBack for raw::Entry {
    fn put_back(&mut self, place: Place) {
        self.kind = place.kind;
        self.v6.count = place.count;
        self.v6.items[0] = ADDRESS;
    }
}

/// A zone, and the place in it that a call changes.
pub struct Steady {
    pub zone: Zone,
    pub name: Name,
    place: Place,
}

impl Steady {
    /// A zone of `count` names, the last of them as `place` says.
    pub fn new(count: usize, name: impl Fn(usize) -> Name, place: Place) -> Steady {
        let entry = Entry {
            v6: Set::only(ADDRESS),
            ..Entry::FREE
        };
        let last = name(count - 1);
        let mut zone = zone_of(count, name, entry);
        zone.entries[count - 1].put_back(place);
        Steady {
            zone,
            name: last,
            place,
        }
    }

    /// Where the name stands, before the call or after it.
    fn at(&self, after: &Zone) -> usize {
        let named = |entry: &Entry| entry.kind != FREE && entry.name == self.name;
        let place = |zone: &Zone| zone.entries.iter().position(named);
        place(&self.zone).or_else(|| place(after)).expect("there")
    }

    /// Times a call of ours, the second program's behind the same interface,
    /// and the second program's on references.
    pub fn compare<A, B, C>(
        &self,
        rows: &mut Table,
        title: &str,
        ours: impl Fn(&mut raw::Zone) -> A,
        second: impl Fn(&mut Zone) -> B,
        lent: impl Fn(&mut Zone) -> C,
    ) {
        let (mut mine, mut theirs) = (self.zone.twin(), self.zone.clone());
        ours(&mut mine);
        second(&mut theirs);
        assert_eq!(as_set(&mine.twin()), as_set(&theirs));
        let (at, at_theirs) = (self.at(&mine.twin()), self.at(&theirs));
        mine.entries[at].put_back(self.place);
        theirs.entries[at_theirs].put_back(self.place);
        assert_eq!(as_set(&mine.twin()), as_set(&self.zone));
        assert_eq!(as_set(&theirs), as_set(&self.zone));
        let mut other = theirs.clone();
        let ours = || {
            let told = ours(black_box(&mut mine));
            mine.entries[at].put_back(self.place);
            told
        };
        let second = || {
            let told = second(black_box(&mut theirs));
            theirs.entries[at_theirs].put_back(self.place);
            told
        };
        let lent = || {
            let told = lent(black_box(&mut other));
            other.entries[at_theirs].put_back(self.place);
            told
        };
        rows.compare_lent(title, ours, second, lent);
    }
}
