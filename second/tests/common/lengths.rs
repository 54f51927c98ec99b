//! The product's calls that only read a zone, lent with a length that is not
//! a zone's. The crate for Rust leaves no choice there, so they are declared as
//! the header for C has them.

use std::mem::size_of;
use std::ptr;

use jespurla::raw::{FindAnswer, Name, SameAnswer, Zone};

use super::lent::OfOctets;

/// Lengths that are not a zone's, within the memory that is there.
pub const WRONG: [(&str, usize); 4] = [
    ("17: length 0", 0),
    ("17: length 374", 374),
    ("17: length 23,935", 23_935),
    ("17: length 23,937", 23_937),
];

/// What they are called.
pub fn labels() -> Vec<&'static str> {
    WRONG.map(|(label, _)| label).to_vec()
}

/// A zone with one octet behind it.
#[repr(C)]
#[derive(Clone, Copy)]
pub struct Longer {
    pub zone: Zone,
    pub behind: u8,
}

impl OfOctets for Longer {}

extern "C" {
    fn jespurla_zone_same(
        left: *const Zone,
        left_length: usize,
        right: *const Zone,
        right_length: usize,
    ) -> SameAnswer;

    fn jespurla_zone_find(zone: *const Zone, length: usize, name: Name) -> FindAnswer;
}

/// Whether two zones of these lengths are the same.
pub fn same(left: (&Longer, usize), right: (&Longer, usize)) -> SameAnswer {
    assert!(left.1.max(right.1) <= size_of::<Longer>());
    let (one, other) = (ptr::from_ref(left.0), ptr::from_ref(right.0));
    // SAFETY: the pointers come from references, and the lengths are within
    // what they are to, which is octets alone.
    unsafe { jespurla_zone_same(one.cast(), left.1, other.cast(), right.1) }
}

/// What stands at a name of a zone of this length.
pub fn find(zone: (&Longer, usize), name: &Name) -> FindAnswer {
    assert!(zone.1 <= size_of::<Longer>());
    // SAFETY: as in same.
    unsafe { jespurla_zone_find(ptr::from_ref(zone.0).cast(), zone.1, *name) }
}
