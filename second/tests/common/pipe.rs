//! What fixed lists of steps are made of: the name `pipe`, which X holds, and
//! the jobs of X and Y for it.

use second::zone::{Dhcid, Entry, Name, Set, Zone, HELD};

use super::requests::{Kind, Request};

/// The owners.
pub const X: Dhcid = [1; 35];
pub const Y: Dhcid = [2; 35];

fn name() -> Name {
    Name::new(b"\x04pipe\0").expect("short")
}

/// The zone where X holds the name, with 10.0.0.1 only.
pub fn zone() -> Zone {
    let mut zone = Zone::EMPTY;
    zone.entries[0] = Entry {
        kind: HELD,
        name: name(),
        dhcid: X,
        v4: Set::only([10, 0, 0, 1]),
        ..Entry::FREE
    };
    zone
}

/// A job for the name, with policy 0 and the address 10.0.0.`last`: an add
/// where the request is A.
pub fn request(kind: Kind, dhcid: Dhcid, last: u8) -> Request {
    let mut address = [0; 16];
    address[..4].copy_from_slice(&[10, 0, 0, last]);
    Request {
        kind,
        name: name(),
        dhcid,
        family: 4,
        address,
        policy: 0,
    }
}
