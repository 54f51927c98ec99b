//! The reply to a lease query as the desk reads it (document 02, d and e).
//!
//! A reply is taken where the box could have written its options, in any
//! order and among others. What the box doesn't write in a kind isn't looked
//! at in that kind. What the box tells of an active lease it leaves out where
//! the query didn't list it, so any of that may be absent.

use std::ops::RangeInclusive;

use crate::lease_query::{LEASEACTIVE, LEASEUNASSIGNED};
pub use crate::packet::ASSOCIATED_MAX;
use crate::packet::{
    is_packet, number_at, walk_options, ASSOCIATED_IP, CHADDR, CHADDR_MAX, CIADDR, CLIENT_ID, HLEN,
    HTYPE, LAST_TRANSACTION, LEASE_TIME, MESSAGE_TYPE, OP, OPTIONS, RELAY_INFORMATION, REPLY,
    SERVER_ID, XID,
};

/// What a reply says.
#[derive(Clone, Copy, PartialEq, Eq, Debug)]
pub struct Reading {
    /// The message type, 11 to 13.
    pub kind: u8,
    pub address: u32,
    pub htype: u8,
    pub hlen: u8,
    /// All octets of the field, also those past `hlen`.
    pub chaddr: [u8; 16],
    /// Seconds to the end of the lease, of an active lease alone and if the
    /// reply has them.
    pub left: Option<u32>,
    /// Seconds since the last transaction, likewise.
    pub since: Option<u32>,
    /// The client's addresses, 0 past the count.
    pub addresses: [u32; ASSOCIATED_MAX],
    pub count: usize,
}

/// How often an option stands in a reply, and its last value.
#[derive(Clone, Copy, Default)]
struct Found<'a> {
    times: usize,
    value: &'a [u8],
}

impl<'a> Found<'a> {
    fn take(&mut self, value: &'a [u8]) {
        self.times += 1;
        self.value = value;
    }

    /// Whether the option is there once, with a length out of these.
    fn is_once(&self, lengths: RangeInclusive<usize>) -> bool {
        self.times == 1 && lengths.contains(&self.value.len())
    }

    /// The same of an option that may also be absent.
    fn is_once_or_absent(&self, lengths: RangeInclusive<usize>) -> bool {
        self.times == 0 || self.is_once(lengths)
    }

    /// The number of four octets in the option, if it is there.
    fn number(&self) -> Option<u32> {
        (self.times > 0).then(|| number_at(self.value, 0))
    }
}

/// The options that the box writes.
#[derive(Default)]
struct Options<'a> {
    message_type: Found<'a>,
    server: Found<'a>,
    left: Found<'a>,
    since: Found<'a>,
    client_id: Found<'a>,
    relay: Found<'a>,
    associated: Found<'a>,
}

impl<'a> Options<'a> {
    /// Reads the options; none where they fail check 3.
    fn read(area: &'a [u8]) -> Option<Options<'a>> {
        let mut options = Options::default();
        let whole = walk_options(area, |code, value| options.take(code, value));
        let repeated = options.message_type.times > 1 || options.client_id.times > 1;
        (whole && !repeated).then_some(options)
    }

    fn take(&mut self, code: u8, value: &'a [u8]) {
        match code {
            MESSAGE_TYPE => self.message_type.take(value),
            SERVER_ID => self.server.take(value),
            LEASE_TIME => self.left.take(value),
            LAST_TRANSACTION => self.since.take(value),
            CLIENT_ID => self.client_id.take(value),
            RELAY_INFORMATION => self.relay.take(value),
            ASSOCIATED_IP => self.associated.take(value),
            _ => {}
        }
    }

    /// The kind of the reply, if option 53 says one.
    fn kind(&self) -> Option<u8> {
        match self.message_type.value {
            [kind @ LEASEUNASSIGNED..=LEASEACTIVE] => Some(*kind),
            _ => None,
        }
    }

    /// Whether the box could have written the options of an active lease.
    /// Option 92 carries two addresses at the least.
    fn is_active(&self) -> bool {
        let lengths = 8..=4 * ASSOCIATED_MAX;
        self.left.is_once_or_absent(4..=4)
            && self.since.is_once_or_absent(4..=4)
            && self.client_id.is_once_or_absent(2..=64)
            && self.relay.is_once_or_absent(1..=64)
            && self.associated.is_once_or_absent(lengths)
            && self.associated.value.len().is_multiple_of(4)
    }
}

/// The fixed fields, with nothing of the options but the kind.
fn read_fixed(reply: &[u8], kind: u8) -> Reading {
    let chaddr = &reply[CHADDR..CHADDR + CHADDR_MAX];
    Reading {
        kind,
        address: number_at(reply, CIADDR),
        htype: reply[HTYPE],
        hlen: reply[HLEN],
        chaddr: chaddr.try_into().expect("the whole field"),
        left: None,
        since: None,
        addresses: [0; ASSOCIATED_MAX],
        count: 0,
    }
}

/// What a reply says; none where it is malformed.
fn read_reply(reply: &[u8]) -> Option<Reading> {
    if !is_packet(reply) || reply[OP] != REPLY || usize::from(reply[HLEN]) > CHADDR_MAX {
        return None;
    }
    let options = Options::read(&reply[OPTIONS..])?;
    let kind = options.kind()?;
    if !options.server.is_once(4..=4) {
        return None;
    }
    let mut reading = read_fixed(reply, kind);
    if kind != LEASEACTIVE {
        return Some(reading);
    }
    if !options.is_active() {
        return None;
    }
    reading.left = options.left.number();
    reading.since = options.since.number();
    let octets = options.associated.value.chunks_exact(4);
    reading.count = octets.len();
    for (address, octets) in reading.addresses.iter_mut().zip(octets) {
        *address = number_at(octets, 0);
    }
    Some(reading)
}

/// Reads the reply to the query with this xid.
///
/// Refusal 20 for a malformed reply, then 21 where its xid is another.
pub fn read(xid: u32, reply: &[u8]) -> Result<Reading, u8> {
    let reading = read_reply(reply).ok_or(20)?;
    if number_at(reply, XID) == xid {
        Ok(reading)
    } else {
        Err(21)
    }
}

#[cfg(test)]
mod tests {
    use super::*;

    const XID_GIVEN: u32 = 0x0102_0304;
    const SERVER: &[u8] = &[54, 4, 192, 0, 2, 1];
    const LEFT: &[u8] = &[51, 4, 0, 0, 3, 232];
    const SINCE: &[u8] = &[91, 4, 0, 0, 0, 100];

    /// A reply of the given options, the end option put behind them.
    fn reply(options: &[&[u8]]) -> Vec<u8> {
        let mut reply = vec![0; 240];
        reply[..4].copy_from_slice(&[2, 1, 6, 0]);
        reply[4..8].copy_from_slice(&[1, 2, 3, 4]);
        reply[12..16].copy_from_slice(&[10, 0, 0, 7]);
        reply[28..44].copy_from_slice(&[5; 16]);
        reply[236..].copy_from_slice(&[99, 130, 83, 99]);
        reply.extend(options.concat());
        reply.push(255);
        reply
    }

    /// A reply about an active lease, with these options beside 53, 54 and
    /// both times.
    fn active(others: &[&[u8]]) -> Vec<u8> {
        let always: [&[u8]; 4] = [&[53, 1, 13], SERVER, LEFT, SINCE];
        reply(&[&always, others].concat())
    }

    fn told(kind: u8) -> Reading {
        Reading {
            kind,
            address: 0x0a00_0007,
            htype: 1,
            hlen: 6,
            chaddr: [5; 16],
            left: None,
            since: None,
            addresses: [0; 63],
            count: 0,
        }
    }

    fn is_malformed(reply: &[u8]) -> bool {
        read(XID_GIVEN, reply) == Err(20)
    }

    /// An option of so many octets.
    fn option(code: u8, octets: usize) -> Vec<u8> {
        [&[code, octets as u8][..], &vec![1; octets]].concat()
    }

    #[test]
    fn active_lease() {
        let expected = Reading {
            left: Some(1_000),
            since: Some(100),
            ..told(13)
        };
        assert_eq!(read(XID_GIVEN, &active(&[])), Ok(expected));
        let (id, relay) = (option(61, 64), option(82, 1));
        let two: &[u8] = &[92, 8, 10, 0, 0, 7, 10, 0, 0, 3];
        let all = active(&[&id, &relay, &[0, 0, 12, 0], two]);
        let mut listed = expected;
        listed.addresses[..2].copy_from_slice(&[0x0a00_0007, 0x0a00_0003]);
        listed.count = 2;
        assert_eq!(read(XID_GIVEN, &all), Ok(listed));
        let full = read(XID_GIVEN, &active(&[&option(92, 252)])).unwrap();
        assert_eq!((full.count, full.addresses), (63, [0x0101_0101; 63]));
    }

    #[test]
    fn times_that_are_absent() {
        for (times, left, since) in [
            (&[][..], None, None),
            (&[LEFT], Some(1_000), None),
            (&[SINCE], None, Some(100)),
        ] {
            let given: [&[u8]; 2] = [SERVER, &[53, 1, 13]];
            let read = read(XID_GIVEN, &reply(&[&given, times].concat()));
            assert_eq!(
                read,
                Ok(Reading {
                    left,
                    since,
                    ..told(13)
                })
            );
        }
    }

    #[test]
    fn request_lists_are_ignored() {
        let lists: [&[&[u8]]; 4] = [
            &[&[55, 0]],
            &[&[55, 1, 51]],
            &[&[55, 0], &[55, 2, 61, 82]],
            &[&[55, 1, 91], &[55, 1, 91], &[55, 0]],
        ];
        for list in lists {
            let reading = read(XID_GIVEN, &active(list)).unwrap();
            assert_eq!((reading.left, reading.since), (Some(1_000), Some(100)));
        }
    }

    #[test]
    fn other_kinds_look_at_53_and_54_alone() {
        for kind in [11, 12] {
            let type_of: &[u8] = &[53, 1, kind];
            let bare = reply(&[SERVER, type_of]);
            assert_eq!(read(XID_GIVEN, &bare), Ok(told(kind)));
            let (id, relay, two) = (option(61, 1), option(82, 90), option(92, 3));
            let extra: [&[u8]; 9] = [LEFT, LEFT, SINCE, &id, &relay, &relay, &two, &two, &[91, 0]];
            let both: [&[u8]; 2] = [type_of, SERVER];
            let filled = reply(&[&extra[..], &both].concat());
            assert_eq!(read(XID_GIVEN, &filled), Ok(told(kind)));
            assert!(is_malformed(&reply(&[type_of, SERVER, &id, &id])));
            assert!(is_malformed(&reply(&[type_of])));
            assert!(is_malformed(&reply(&[type_of, SERVER, SERVER])));
            assert!(is_malformed(&reply(&[type_of, &option(54, 5)])));
        }
    }

    #[test]
    fn kinds_that_are_none() {
        for options in [
            &[][..],
            &[53, 0],
            &[53, 1, 10],
            &[53, 1, 14],
            &[53, 2, 13, 13],
        ] {
            assert!(is_malformed(&reply(&[options, SERVER, LEFT, SINCE])));
        }
        assert!(is_malformed(&active(&[&[53, 1, 13]])));
    }

    #[test]
    fn options_of_an_active_lease() {
        let always: [&[u8]; 4] = [&[53, 1, 13], SERVER, LEFT, SINCE];
        for (at, needed) in [true, true, false, false].into_iter().enumerate() {
            let mut without = always.to_vec();
            let taken = without.remove(at);
            assert_eq!(is_malformed(&reply(&without)), needed);
            assert!(is_malformed(&active(&[taken])));
        }
        for (code, lengths) in [(61, 2..=64), (82, 1..=64), (92, 8..=252)] {
            for octets in 0..=255 {
                let good = lengths.contains(&octets) && (code != 92 || octets % 4 == 0);
                let with = active(&[&option(code, octets)]);
                assert_eq!(is_malformed(&with), !good, "{code} of {octets}");
            }
            let twice = option(code, *lengths.start());
            assert!(is_malformed(&active(&[&twice, &twice])));
        }
        for (at, code) in [(1, 54), (2, 51), (3, 91)] {
            for octets in (0..=255).filter(|&octets| octets != 4) {
                let other = option(code, octets);
                let mut changed = always;
                changed[at] = &other;
                assert!(is_malformed(&reply(&changed)));
            }
        }
    }

    #[test]
    fn packets_that_are_no_replies() {
        let faults: [fn(&mut Vec<u8>); 8] = [
            |reply| reply.truncate(239),
            |reply| reply.resize(1_501, 0),
            |reply| reply[236] = 98,
            |reply| reply[0] = 1,
            |reply| reply[2] = 17,
            |reply| reply.truncate(240),
            |reply| *reply.last_mut().unwrap() = 0,
            |reply| *reply.last_mut().unwrap() = 12,
        ];
        for fault in faults {
            let mut bad = active(&[]);
            fault(&mut bad);
            assert!(is_malformed(&bad));
            assert_eq!(read(XID_GIVEN + 1, &bad), Err(20));
        }
        let mut long = active(&[]);
        long[2] = 16;
        long.resize(1_500, 53);
        assert!(read(XID_GIVEN, &long).is_ok());
        assert_eq!(read(XID_GIVEN + 1, &long), Err(21));
    }
}
