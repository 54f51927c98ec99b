//! The names of a zone, and what stands at a name.

use crate::{raw, Addresses, Dhcid, Name};

/// A name of a zone, with its owner and its addresses.
#[derive(Clone, PartialEq, Eq, Debug)]
pub struct Entry {
    /// The name, as it is spelled in the zone.
    pub name: Name,
    /// Who holds it; none where it is static.
    pub owner: Option<Dhcid>,
    /// Its addresses.
    pub addresses: Addresses,
}

/// What stands at a name.
#[derive(Clone, PartialEq, Eq, Debug)]
pub enum Standing {
    /// The name is not in the zone.
    Absent,
    /// A static name, which nobody owns, and its addresses.
    Static(Addresses),
    /// A name that its owner holds.
    Held {
        /// Who holds it.
        owner: Dhcid,
        /// Its addresses.
        addresses: Addresses,
    },
}

impl Standing {
    /// What a copy of an entry of a zone says.
    pub(crate) fn of(entry: &raw::Entry) -> Standing {
        let addresses = Addresses::of(entry);
        match (entry.kind, owner(entry)) {
            (raw::FREE, _) => Standing::Absent,
            (_, None) => Standing::Static(addresses),
            (_, Some(owner)) => Standing::Held { owner, addresses },
        }
    }
}

impl Entry {
    /// The name at a place of a zone; none where the place is free.
    pub(crate) fn of(entry: &raw::Entry) -> Option<Entry> {
        (entry.kind != raw::FREE).then(|| Entry {
            name: Name::from_full(entry.name.as_slice()),
            owner: owner(entry),
            addresses: Addresses::of(entry),
        })
    }

    pub(crate) fn to_raw(&self) -> raw::Entry {
        let (v4, v6) = self.addresses.to_raw();
        let free = raw::Entry::FREE;
        raw::Entry {
            kind: self.owner.map_or(raw::STATIC, |_| raw::HELD),
            name: *self.name.as_raw(),
            dhcid: self.owner.map_or(free.dhcid, Dhcid::to_raw),
            v4,
            v6,
        }
    }
}

/// Who holds the name of an entry.
fn owner(entry: &raw::Entry) -> Option<Dhcid> {
    (entry.kind == raw::HELD).then(|| entry.dhcid.octets.into())
}
