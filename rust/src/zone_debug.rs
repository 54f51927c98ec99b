//! A zone in a text for people: a line for each name.

use core::fmt;

use crate::limits::NAMES_MAX;
use crate::{Dhcid, Entry, Zone};

/// A line with the number of names, and one for each: the name, who holds it by the first octets of
/// the DHCID, and the addresses.
impl fmt::Debug for Zone {
    fn fmt(&self, to: &mut fmt::Formatter) -> fmt::Result {
        write!(to, "Zone, {} of {NAMES_MAX} names", self.len())?;
        self.entries().try_for_each(|entry| write_entry(to, &entry))
    }
}

fn write_entry(to: &mut fmt::Formatter, entry: &Entry) -> fmt::Result {
    write!(to, "\n  {} ", entry.name)?;
    match &entry.owner {
        None => to.write_str("static")?,
        Some(owner) => write_short(to, owner)?,
    }
    let mut addresses = entry.addresses.iter();
    addresses.try_for_each(|address| write!(to, " {address}"))
}

/// Who holds a name, by the first four octets of the DHCID.
fn write_short(to: &mut fmt::Formatter, owner: &Dhcid) -> fmt::Result {
    to.write_str("held by ")?;
    let mut front = owner.as_bytes().iter().take(4);
    front.try_for_each(|octet| write!(to, "{octet:02x}"))?;
    to.write_str("..")
}
