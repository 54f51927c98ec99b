//! A DNS zone. The structs up to [`Zone`] are made of octets alone, so they
//! have no gaps.

/// A domain name as it stands in a message; octets from `length` on are not
/// looked at. The calls compare names with A to Z folded, `==` compares every
/// octet of the struct.
#[repr(C)]
#[derive(Clone, Copy, PartialEq, Eq, Debug)]
pub struct Name {
    /// The labels, each behind its length, and a closing 0.
    pub octets: [u8; 255],
    /// How many octets count.
    pub length: u8,
}

impl Name {
    /// No octets: not a full name.
    pub const EMPTY: Name = Name {
        octets: [0; 255],
        length: 0,
    };

    /// The name of these octets, unless they are over 255.
    pub fn new(octets: &[u8]) -> Option<Name> {
        let mut name = Name {
            length: u8::try_from(octets.len()).ok()?,
            ..Name::EMPTY
        };
        name.octets[..octets.len()].copy_from_slice(octets);
        Some(name)
    }

    /// The octets that count.
    pub fn as_slice(&self) -> &[u8] {
        &self.octets[..usize::from(self.length)]
    }
}

/// A DHCID (RFC 4701), opaque here.
#[repr(C)]
#[derive(Clone, Copy, PartialEq, Eq, Debug)]
pub struct Dhcid {
    /// All of it.
    pub octets: [u8; 35],
}

/// An address of family 4 (its first 4 octets; the others are not looked at)
/// or 6 (all 16).
#[repr(C)]
#[derive(Clone, Copy, PartialEq, Eq, Debug)]
pub struct Address {
    /// The octets of either family.
    pub octets: [u8; 16],
}

/// At most four addresses of family 4, no two equal; items from `count` on are
/// not looked at.
#[repr(C)]
#[derive(Clone, Copy, PartialEq, Eq, Debug)]
pub struct Set4 {
    /// The addresses held, and room for more.
    pub items: [[u8; 4]; 4],
    /// How many are held.
    pub count: u8,
}

/// At most four addresses of family 6, no two equal; items from `count` on are
/// not looked at.
#[repr(C)]
#[derive(Clone, Copy, PartialEq, Eq, Debug)]
pub struct Set6 {
    /// The addresses held, and room for more.
    pub items: [[u8; 16]; 4],
    /// How many are held.
    pub count: u8,
}

/// The kind of a free place: nothing else in the entry is looked at.
pub const FREE: u8 = 0;
/// The kind of a static name: its DHCID is not looked at.
pub const STATIC: u8 = 1;
/// The kind of a name held by its DHCID.
pub const HELD: u8 = 2;

/// A place of the zone.
#[repr(C)]
#[derive(Clone, Copy, PartialEq, Eq, Debug)]
pub struct Entry {
    /// [`FREE`], [`STATIC`] or [`HELD`].
    pub kind: u8,
    /// A full name.
    pub name: Name,
    /// The owner of a held name.
    pub dhcid: Dhcid,
    /// Its addresses of family 4.
    pub v4: Set4,
    /// Its addresses of family 6.
    pub v6: Set6,
}

impl Entry {
    /// A free place.
    pub const FREE: Entry = Entry {
        kind: FREE,
        name: Name::EMPTY,
        dhcid: Dhcid { octets: [0; 35] },
        v4: Set4 {
            items: [[0; 4]; 4],
            count: 0,
        },
        v6: Set6 {
            items: [[0; 16]; 4],
            count: 0,
        },
    };
}

/// Which place a name has does not matter, and freed places serve again. A name
/// keeps the octets that it was first written with for as long as it stands.
#[repr(C)]
#[derive(Clone, Copy, Debug)]
pub struct Zone {
    /// All 64 places, free ones included.
    pub entries: [Entry; 64],
}

impl Zone {
    /// A zone without names.
    pub const EMPTY: Zone = Zone {
        entries: [Entry::FREE; 64],
    };
}

/// What [`zone_find`](super::zone_find) answers.
#[repr(C)]
#[derive(Clone, Copy, PartialEq, Eq, Debug)]
pub struct FindAnswer {
    /// 0 for none.
    pub refusal: u32,
    /// A copy of the entry, octet for octet, its name as it is spelled in the zone; zeros where the
    /// name is absent or the call is refused.
    pub entry: Entry,
}

/// What [`zone_same`](super::zone_same) answers.
#[repr(C)]
#[derive(Clone, Copy, PartialEq, Eq, Debug)]
pub struct SameAnswer {
    /// 0 for none.
    pub refusal: u32,
    /// 1 or 0; 0 where it is refused.
    pub same: u32,
}

/// What [`zone_check`](super::zone_check) and [`zone_check_lent`](super::zone_check_lent) answer.
#[repr(C)]
#[derive(Clone, Copy, PartialEq, Eq, Debug)]
pub struct CheckAnswer {
    /// 0 for none.
    pub refusal: u32,
}

/// The family of IPv4 addresses.
pub const FAMILY_4: u8 = 4;
/// The family of IPv6 addresses.
pub const FAMILY_6: u8 = 6;

/// The policy under which other addresses stay.
pub const KEEP_OTHERS: u8 = 0;
/// The policy under which no other address of this family stays.
pub const ONE_OF_FAMILY: u8 = 1;
/// The policy under which no other address stays.
pub const ONLY_THIS: u8 = 2;

/// The answer of a request that succeeded.
pub const NOERROR: u32 = 0;
/// The answer where the name is absent.
pub const NXDOMAIN: u32 = 3;
/// The answer where the name is there.
pub const YXDOMAIN: u32 = 6;
/// The answer of the second remove request where an address is left.
pub const YXRRSET: u32 = 7;
/// The answer where the name is static or held by another, and of a remove
/// where it is absent.
pub const NXRRSET: u32 = 8;
/// The answer where it would be the 65th name or the fifth address.
pub const NO_ROOM: u32 = 256;

/// What a request by value answers.
#[repr(C)]
#[derive(Clone, Copy, Debug)]
pub struct Answered {
    /// 0 for none.
    pub refusal: u32,
    /// One of the answers above; 0 where it is refused.
    pub answer: u32,
    /// The zone after the request; the very zone handed in where it is
    /// refused.
    pub zone: Zone,
}

/// What a request on a lent zone answers.
#[repr(C)]
#[derive(Clone, Copy, PartialEq, Eq, Debug)]
pub struct RequestAnswer {
    /// 0 for none.
    pub refusal: u32,
    /// One of the answers above; 0 where it is refused.
    pub answer: u32,
}
