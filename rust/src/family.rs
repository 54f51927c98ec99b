//! Families of addresses.

use core::net::{IpAddr, Ipv4Addr, Ipv6Addr};

use crate::numbers::numbers;
use crate::raw;

numbers! {
    /// The family of an address, which the address itself tells.
    Family: u8 {
        /// IPv4.
        V4 = raw::FAMILY_4,
        /// IPv6.
        V6 = raw::FAMILY_6,
    }
}

impl From<IpAddr> for Family {
    fn from(address: IpAddr) -> Family {
        match address {
            IpAddr::V4(_) => Family::V4,
            IpAddr::V6(_) => Family::V6,
        }
    }
}

impl From<Ipv4Addr> for raw::Address {
    fn from(address: Ipv4Addr) -> raw::Address {
        let mut octets = [0; 16];
        octets[..4].copy_from_slice(&address.octets());
        raw::Address { octets }
    }
}

impl From<Ipv6Addr> for raw::Address {
    fn from(address: Ipv6Addr) -> raw::Address {
        raw::Address {
            octets: address.octets(),
        }
    }
}

impl From<IpAddr> for raw::Address {
    fn from(address: IpAddr) -> raw::Address {
        match address {
            IpAddr::V4(address) => address.into(),
            IpAddr::V6(address) => address.into(),
        }
    }
}

impl raw::Address {
    /// The address, read as one of this family.
    pub fn of_family(&self, family: Family) -> IpAddr {
        let [a, b, c, d, ..] = self.octets;
        match family {
            Family::V4 => Ipv4Addr::new(a, b, c, d).into(),
            Family::V6 => Ipv6Addr::from(self.octets).into(),
        }
    }
}
