//! The addresses of a name.

use core::fmt;
use core::net::{IpAddr, Ipv4Addr, Ipv6Addr};

use crate::limits::NAME_ADDRESSES_MAX;
use crate::{raw, Refusal};

/// The addresses of a name: a set of at most four of each family.
///
/// ```
/// use jespurla::{Addresses, Refusal};
/// use std::net::IpAddr;
///
/// let (a, b): (IpAddr, IpAddr) = ([10, 0, 0, 7].into(), [10, 0, 0, 8].into());
/// let both = Addresses::from_slice(&[a, b])?;
/// assert!(both.contains(a) && both.len() == 2);
/// assert_eq!(both, Addresses::from_slice(&[b, a, b])?);
/// # Ok::<(), Refusal>(())
/// ```
#[derive(Clone, Copy)]
pub struct Addresses {
    v4: raw::Set4,
    v6: raw::Set6,
}

impl Addresses {
    /// No addresses.
    pub const EMPTY: Addresses = Addresses {
        v4: raw::Entry::FREE.v4,
        v6: raw::Entry::FREE.v6,
    };

    /// The set of these addresses.
    ///
    /// # Errors
    ///
    /// [`Refusal::Zone`] where it has over four of a family, which no name in a zone has.
    pub fn from_slice(addresses: &[IpAddr]) -> Result<Addresses, Refusal> {
        let mut set = Addresses::EMPTY;
        for &address in addresses {
            set.insert(address)?;
        }
        Ok(set)
    }

    /// Puts an address into the set, unless it is there.
    fn insert(&mut self, address: IpAddr) -> Result<(), Refusal> {
        if self.contains(address) {
            return Ok(());
        }
        match address {
            IpAddr::V4(v4) => push(&mut self.v4.items, &mut self.v4.count, v4.octets()),
            IpAddr::V6(v6) => push(&mut self.v6.items, &mut self.v6.count, v6.octets()),
        }
    }

    /// The IPv4 addresses.
    pub fn v4(&self) -> impl Iterator<Item = Ipv4Addr> + '_ {
        held(&self.v4.items, self.v4.count).map(Ipv4Addr::from)
    }

    /// The IPv6 addresses.
    pub fn v6(&self) -> impl Iterator<Item = Ipv6Addr> + '_ {
        held(&self.v6.items, self.v6.count).map(Ipv6Addr::from)
    }

    /// All of them, the IPv4 addresses first.
    pub fn iter(&self) -> impl Iterator<Item = IpAddr> + '_ {
        self.v4()
            .map(IpAddr::from)
            .chain(self.v6().map(IpAddr::from))
    }

    /// How many there are.
    pub fn len(&self) -> usize {
        self.iter().count()
    }

    /// Whether there is none.
    pub fn is_empty(&self) -> bool {
        self.len() == 0
    }

    /// Whether this one is among them.
    pub fn contains(&self, address: impl Into<IpAddr>) -> bool {
        let address = address.into();
        self.iter().any(|held| held == address)
    }

    /// The sets of an entry that is known to keep its form.
    pub(crate) fn of(entry: &raw::Entry) -> Addresses {
        Addresses {
            v4: entry.v4,
            v6: entry.v6,
        }
    }

    /// The sets for an entry.
    pub(crate) fn to_raw(self) -> (raw::Set4, raw::Set6) {
        (self.v4, self.v6)
    }
}

/// Puts an item behind the held ones, where there is room.
fn push<const N: usize>(
    items: &mut [[u8; N]; NAME_ADDRESSES_MAX],
    count: &mut u8,
    item: [u8; N],
) -> Result<(), Refusal> {
    *items.get_mut(usize::from(*count)).ok_or(Refusal::Zone)? = item;
    *count += 1;
    Ok(())
}

/// The items held.
fn held<const N: usize>(
    items: &[[u8; N]; NAME_ADDRESSES_MAX],
    count: u8,
) -> impl Iterator<Item = [u8; N]> + '_ {
    items.iter().take(count.into()).copied()
}

/// Sets are equal where they have the same addresses, in whatever order.
impl PartialEq for Addresses {
    fn eq(&self, other: &Addresses) -> bool {
        self.len() == other.len() && self.iter().all(|address| other.contains(address))
    }
}

impl Eq for Addresses {}

impl fmt::Debug for Addresses {
    fn fmt(&self, to: &mut fmt::Formatter) -> fmt::Result {
        to.debug_set().entries(self.iter()).finish()
    }
}
