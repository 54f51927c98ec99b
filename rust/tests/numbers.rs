//! The enums stand for the numbers that C has, and for no others.

use std::fmt::Debug;
use std::net::{IpAddr, Ipv4Addr, Ipv6Addr};

use jespurla::{raw, UnlistedNumber};
use jespurla::{Answer, Family, FlagDecision, LeaseState, Policy, ReplyKind, Stage};

/// The numbers that are listed, each of which is converted back to itself.
fn listed<N, T>(numbers: impl Iterator<Item = N>) -> Vec<u32>
where
    N: Copy + Into<u32> + PartialEq + Debug + From<T>,
    T: Copy + TryFrom<N, Error = UnlistedNumber>,
{
    let kept = numbers.filter(|&number| match T::try_from(number) {
        Ok(listed) => N::from(listed) == number,
        Err(unlisted) => {
            assert_eq!(unlisted.number(), number.into());
            false
        }
    });
    kept.map(Into::into).collect()
}

#[test]
fn listed_numbers_are_those_of_c() {
    assert_eq!(listed::<u8, Family>(0..=255), [4, 6]);
    assert_eq!(listed::<u8, Policy>(0..=255), [0, 1, 2]);
    assert_eq!(listed::<u8, FlagDecision>(0..=255), [0, 1, 2, 4]);
    assert_eq!(listed::<u8, LeaseState>(0..=255), [0, 1]);
    let stages = [1, 2, 3, 4, 5, 6, 11, 12, 13, 14, 15];
    assert_eq!(listed::<u8, Stage>(0..=255), stages);
    assert_eq!(listed::<u32, Answer>(0..=1000), [0, 3, 6, 7, 8, 256]);
    assert_eq!(listed::<u32, ReplyKind>(0..=1000), [11, 12, 13]);
    assert_eq!(
        Answer::try_from(u32::MAX).map_err(|e| e.number()),
        Err(u32::MAX)
    );
}

#[test]
fn an_address_tells_its_family() {
    let (v4, v6) = (Ipv4Addr::new(10, 0, 0, 7), Ipv6Addr::LOCALHOST);
    assert_eq!(Family::from(IpAddr::from(v4)), Family::V4);
    assert_eq!(Family::from(IpAddr::from(v6)), Family::V6);
    let (four, six) = (raw::Address::from(v4), raw::Address::from(v6));
    assert_eq!(
        four.octets,
        [10, 0, 0, 7, 0, 0, 0, 0, 0, 0, 0, 0, 0, 0, 0, 0]
    );
    assert_eq!(six.octets, v6.octets());
    assert_eq!(raw::Address::from(IpAddr::from(v4)), four);
    assert_eq!(four.of_family(Family::V4), v4);
    assert_eq!(six.of_family(Family::V6), v6);
}
