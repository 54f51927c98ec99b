//! The DHCPv4 packet of a lease query or its reply (document 01, "Lease table
//! and queries"): where the fields stand, the options, and the checks that a
//! query and a reply have in common.

/// Bounds of a packet's length.
const PACKET_MIN: usize = 240;
const PACKET_MAX: usize = 1_500;

/// Offsets of the fixed fields (RFC 2131).
pub(crate) const OP: usize = 0;
pub(crate) const HTYPE: usize = 1;
pub(crate) const HLEN: usize = 2;
pub(crate) const XID: usize = 4;
pub(crate) const FLAGS: usize = 10;
pub(crate) const CIADDR: usize = 12;
pub(crate) const GIADDR: usize = 24;
pub(crate) const CHADDR: usize = 28;
pub(crate) const COOKIE: usize = 236;
pub(crate) const OPTIONS: usize = 240;

/// The op of a query and that of a reply.
pub(crate) const REQUEST: u8 = 1;
pub(crate) const REPLY: u8 = 2;

pub(crate) const MAGIC: [u8; 4] = [99, 130, 83, 99];

/// Octets of the field for the hardware address.
pub(crate) const CHADDR_MAX: usize = 16;

/// Option codes.
const PAD: u8 = 0;
pub(crate) const LEASE_TIME: u8 = 51;
pub(crate) const MESSAGE_TYPE: u8 = 53;
pub(crate) const SERVER_ID: u8 = 54;
pub(crate) const REQUEST_LIST: u8 = 55;
pub(crate) const CLIENT_ID: u8 = 61;
pub(crate) const RELAY_INFORMATION: u8 = 82;
pub(crate) const LAST_TRANSACTION: u8 = 91;
pub(crate) const ASSOCIATED_IP: u8 = 92;
pub(crate) const END: u8 = 255;

/// The message type of a query.
pub(crate) const LEASEQUERY: u8 = 10;

/// Addresses one option 92 can carry.
pub const ASSOCIATED_MAX: usize = 63;

/// Check 1: whether the length and the cookie are a packet's.
pub(crate) fn is_packet(octets: &[u8]) -> bool {
    (PACKET_MIN..=PACKET_MAX).contains(&octets.len()) && octets[COOKIE..OPTIONS] == MAGIC
}

/// Hands on each option's code and value up to the end option. False where an
/// option runs past the end of the area or there is no end option.
pub(crate) fn walk_options<'a>(mut area: &'a [u8], mut each: impl FnMut(u8, &'a [u8])) -> bool {
    while let Some((&code, rest)) = area.split_first() {
        if code == END {
            return true;
        }
        area = rest;
        if code == PAD {
            continue;
        }
        let Some((value, rest)) = split_value(area) else {
            return false;
        };
        each(code, value);
        area = rest;
    }
    false
}

/// An option's value, by the length before it, and what follows.
fn split_value(area: &[u8]) -> Option<(&[u8], &[u8])> {
    let (&length, rest) = area.split_first()?;
    rest.split_at_checked(usize::from(length))
}

/// The number of four octets that stands at an offset.
pub(crate) fn number_at(octets: &[u8], at: usize) -> u32 {
    u32::from_be_bytes(octets[at..at + 4].try_into().expect("four octets"))
}

/// A packet being written from its front.
pub(crate) struct Writer<'a> {
    pub(crate) packet: &'a mut [u8],
    pub(crate) at: usize,
}

impl Writer<'_> {
    pub(crate) fn octets(&mut self, octets: &[u8]) {
        self.packet[self.at..self.at + octets.len()].copy_from_slice(octets);
        self.at += octets.len();
    }

    pub(crate) fn option(&mut self, code: u8, value: &[u8]) {
        self.octets(&[code, value.len() as u8]);
        self.octets(value);
    }
}
