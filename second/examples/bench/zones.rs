//! Names, and zones that hold them.

use second::zone::{Entry, Name, Zone, HELD};

pub const OWNER: [u8; 35] = [7; 35];
pub const ADDRESS: [u8; 16] = [9; 16];

/// A short name.
pub fn short(number: usize) -> Name {
    let octets = [
        4,
        b'h',
        b'o',
        b'a' + (number / 8) as u8,
        b'0' + (number % 8) as u8,
    ];
    Name::new(&[&octets[..], b"\x05stage\x00"].concat()).expect("short")
}

/// A name of 255 octets; only the last octet of its last label tells.
pub fn long(number: usize) -> Name {
    let mut octets = vec![b'n'; 255];
    for length in [0, 64, 128, 192] {
        octets[length] = 63;
    }
    octets[192] = 61;
    octets[253] = number as u8;
    octets[254] = 0;
    Name::new(&octets).expect("255 octets")
}

/// One of the 64 numbers for each of them, in no order.
pub fn shuffled(number: usize) -> usize {
    let mixed = (number * 37 + 11) % 64;
    let mixed = (mixed ^ mixed >> 3) * 29 % 64;
    mixed ^ mixed >> 2
}

/// A zone of `count` names that the owner holds, with the addresses of
/// `entry`.
pub fn zone_of(count: usize, name: impl Fn(usize) -> Name, entry: Entry) -> Zone {
    let mut zone = Zone::EMPTY;
    for (number, place) in zone.entries[..count].iter_mut().enumerate() {
        *place = Entry {
            kind: HELD,
            name: name(number),
            dhcid: OWNER,
            ..entry
        };
    }
    zone
}
