//! The DNS server option as a router writes it (document 02, g).
//!
//! RFC 5006 and RFC 8106 lay the option out alike and differ in the Lifetimes
//! that they allow. What is written is an option that acts on the server list.

use std::ops::RangeInclusive;

use crate::server_list::RDNSS;

/// The rules for the Lifetime, by the numbers of their RFCs.
pub const RULE_5006: u32 = 5_006;
pub const RULE_8106: u32 = 8_106;

/// Addresses that one option may carry. Of an area of 1,500 octets, which has
/// whole units of 8, they leave nothing.
pub const ADDRESSES_MAX: usize = 93;
/// Octets of an address.
pub const ADDRESS: usize = 16;
/// Octets ahead of the addresses: Type, Length, two of zero and the Lifetime.
pub const FIXED: usize = 8;

/// MaxRtrAdvInterval, in seconds (RFC 4861).
const INTERVALS: RangeInclusive<u32> = 4..=1_800;
/// Octets that the Length counts as one.
const UNIT: usize = 8;

/// Writes the option at the front of `option`; the octets written.
///
/// The addresses stand one behind the other, 16 octets each. Refusals in
/// order: 22 for the rule or the interval, 23 for the Lifetime, 24 for the
/// addresses, 25 for a buffer shorter than the option.
pub fn write(
    rule: u32,
    interval: u32,
    lifetime: u32,
    addresses: &[u8],
    option: &mut [u8],
) -> Result<usize, u8> {
    let allowed = lifetimes(rule, interval).ok_or(22)?;
    // A Lifetime of 0 withdraws, and that no rule forbids.
    if lifetime != 0 && !allowed.contains(&lifetime) {
        return Err(23);
    }
    if !are_addresses(addresses) {
        return Err(24);
    }
    let length = FIXED + addresses.len();
    let written = option.get_mut(..length).ok_or(25)?;
    written[..4].copy_from_slice(&[RDNSS, (length / UNIT) as u8, 0, 0]);
    written[4..FIXED].copy_from_slice(&lifetime.to_be_bytes());
    written[FIXED..].copy_from_slice(addresses);
    Ok(length)
}

/// The Lifetimes that a rule allows at an interval, 0 aside; none where the
/// rule isn't listed or the interval isn't a router's.
fn lifetimes(rule: u32, interval: u32) -> Option<RangeInclusive<u32>> {
    if !INTERVALS.contains(&interval) {
        return None;
    }
    match rule {
        RULE_5006 => Some(interval..=2 * interval),
        RULE_8106 => Some(3 * interval..=u32::MAX),
        _ => None,
    }
}

/// Whether the octets are whole addresses, as many as an option may carry.
fn are_addresses(octets: &[u8]) -> bool {
    octets.len().is_multiple_of(ADDRESS)
        && (1..=ADDRESSES_MAX).contains(&(octets.len() / ADDRESS))
}

#[cfg(test)]
mod tests {
    use super::*;
    use crate::server_list::{update, ServerList};
    use crate::NEVER;

    const BOTH: [u32; 2] = [RULE_5006, RULE_8106];

    /// Addresses that are told apart by their last octets.
    fn addresses(lasts: &[u8]) -> Vec<u8> {
        let address = |&last: &u8| u128::from(last).to_be_bytes();
        lasts.iter().flat_map(address).collect()
    }

    /// The refusal of a call with so many octets of addresses and so much
    /// room, which is left alone then.
    fn refusal(rule: u32, interval: u32, lifetime: u32, octets: usize, room: usize) -> Option<u8> {
        let mut option = vec![0xee; room];
        let refused = write(rule, interval, lifetime, &vec![7; octets], &mut option).err();
        assert!(refused.is_none() || option.iter().all(|&octet| octet == 0xee));
        refused
    }

    /// The refusal of a call whose addresses and buffer are sound.
    fn settings(rule: u32, interval: u32, lifetime: u32) -> Option<u8> {
        refusal(rule, interval, lifetime, 16, 24)
    }

    /// The option that is written.
    fn written(rule: u32, interval: u32, lifetime: u32, addresses: &[u8]) -> Vec<u8> {
        let mut option = vec![0xee; FIXED + addresses.len()];
        let length = write(rule, interval, lifetime, addresses, &mut option);
        assert_eq!(length, Ok(option.len()));
        option
    }

    #[test]
    fn layout_is_that_of_both_rules() {
        let given = addresses(&[1, 2]);
        for (rule, lifetime) in [(5_006, 0x0102), (8_106, 0x0102_0304)] {
            let mut option = [0xee; 44];
            assert_eq!(write(rule, 0x81, lifetime, &given, &mut option), Ok(40));
            assert_eq!(option[..4], [25, 5, 0, 0]);
            assert_eq!(option[4..8], lifetime.to_be_bytes());
            assert_eq!(option[8..40], given);
            assert_eq!(option[40..], [0xee; 4]);
        }
        let most = written(8_106, 4, 12, &[7; 1_488]);
        assert_eq!((most.len(), most[1]), (1_496, 187));
    }

    #[test]
    fn lifetimes_by_rfc_5006() {
        for interval in [4, 5, 600, 1_799, 1_800] {
            let taken = [0, interval, interval + 1, 2 * interval - 1, 2 * interval];
            for lifetime in taken {
                assert_eq!(settings(5_006, interval, lifetime), None);
            }
            let over = [2 * interval + 1, 3 * interval, u32::MAX - 1, u32::MAX];
            for lifetime in [1, interval - 1].into_iter().chain(over) {
                assert_eq!(settings(5_006, interval, lifetime), Some(23));
            }
        }
    }

    #[test]
    fn lifetimes_by_rfc_8106() {
        for interval in [4, 5, 600, 1_799, 1_800] {
            let taken = [0, 3 * interval, 3 * interval + 1, u32::MAX - 1, u32::MAX];
            for lifetime in taken {
                assert_eq!(settings(8_106, interval, lifetime), None);
            }
            for lifetime in [1, interval, 2 * interval, 3 * interval - 1] {
                assert_eq!(settings(8_106, interval, lifetime), Some(23));
            }
        }
    }

    #[test]
    fn rules_and_intervals_refused() {
        for rule in [0, 5_005, 5_007, 6_106, 8_105, 8_107, 70_542, u32::MAX] {
            assert_eq!(settings(rule, 600, 0), Some(22));
        }
        for rule in BOTH {
            for interval in [0, 1, 3, 1_801, 65_540, u32::MAX] {
                assert_eq!(settings(rule, interval, 0), Some(22));
            }
            assert_eq!([4, 1_800].map(|it| settings(rule, it, 0)), [None; 2]);
        }
    }

    #[test]
    fn addresses_refused() {
        let count = |octets| refusal(5_006, 4, 4, octets, 1 << 13);
        for octets in [0, 1, 8, 15, 17, 24, 1_487, 1_489, 1_504, 2_048, 4_112] {
            assert_eq!(count(octets), Some(24));
        }
        assert_eq!([16, 32, 48, 1_472, 1_488].map(count), [None; 5]);
    }

    #[test]
    fn buffers_refused() {
        for octets in [16, 48, 1_488] {
            let room = |room| refusal(8_106, 4, 12, octets, room);
            assert_eq!([0, 7, 8, octets, octets + 7].map(room), [Some(25); 5]);
            assert_eq!([octets + 8, octets + 9, 1_500].map(room), [None; 3]);
        }
    }

    #[test]
    fn refusals_come_in_order() {
        for rule in BOTH {
            for interval in [3, 1_801] {
                assert_eq!(refusal(rule, interval, 1, 17, 0), Some(22));
            }
            assert_eq!(refusal(rule, 4, 1, 17, 0), Some(23));
            assert_eq!(refusal(rule, 4, 1, 16, 0), Some(23));
            assert_eq!(refusal(rule, 4, 0, 17, 0), Some(24));
            assert_eq!(refusal(rule, 4, 0, 1_504, 1_511), Some(24));
            assert_eq!(refusal(rule, 4, 0, 16, 23), Some(25));
        }
        assert_eq!(refusal(0, 4, 1, 17, 0), Some(22));
    }

    #[test]
    fn the_list_takes_the_first_three() {
        let given = addresses(&[1, 2, 3, 4]);
        let empty = ServerList::default();
        for (rule, lifetime, expiry) in [
            (5_006, 600, 700),
            (8_106, 1_800, 1_900),
            (8_106, u32::MAX, NEVER),
        ] {
            let option = written(rule, 600, lifetime, &given);
            let area = [&option[..], &[1, 1, 0, 0, 0, 0, 0, 0]].concat();
            let list = update(&empty, 100, 1_800, &area).expect("a sound area");
            assert_eq!(update(&empty, 100, 1_800, &option), Ok(list));
            assert_eq!(list.count, 3);
            for (entry, address) in list.entries.iter().zip(given.chunks(16).take(3)) {
                assert_eq!((&entry.address[..], entry.expiry), (address, expiry));
            }
            let withdrawn = written(rule, 600, 0, &given);
            let left = update(&list, 100, 1_800, &withdrawn).expect("a sound area");
            assert_eq!(left.count, 0);
        }
    }
}
