//! Who holds a name.

use core::fmt;

use crate::limits::DHCID_LENGTH;
use crate::raw;

/// A DHCID (RFC 4701): 35 octets that tell one client from another. They are opaque here.
#[derive(Clone, Copy, PartialEq, Eq, Hash)]
pub struct Dhcid([u8; DHCID_LENGTH]);

impl Dhcid {
    /// The DHCID of these octets.
    pub const fn new(octets: [u8; DHCID_LENGTH]) -> Dhcid {
        Dhcid(octets)
    }

    /// Its octets.
    pub const fn as_bytes(&self) -> &[u8; DHCID_LENGTH] {
        &self.0
    }

    pub(crate) fn to_raw(self) -> raw::Dhcid {
        raw::Dhcid { octets: self.0 }
    }
}

impl From<[u8; DHCID_LENGTH]> for Dhcid {
    fn from(octets: [u8; DHCID_LENGTH]) -> Dhcid {
        Dhcid(octets)
    }
}

/// Its octets as hexadecimal digits.
impl fmt::Display for Dhcid {
    fn fmt(&self, to: &mut fmt::Formatter) -> fmt::Result {
        self.0
            .iter()
            .try_for_each(|octet| write!(to, "{octet:02x}"))
    }
}

impl fmt::Debug for Dhcid {
    fn fmt(&self, to: &mut fmt::Formatter) -> fmt::Result {
        write!(to, "Dhcid({self})")
    }
}
