//! The DNS server option that a router sends.

use core::net::Ipv6Addr;

use crate::limits::ANNOUNCED_MAX;
use crate::numbers::numbers;
use crate::{raw, Refusal, Span};

numbers! {
    /// Which Lifetimes a DNS server option may have, by the number of the RFC that says so. Under
    /// either rule it may also be 0, which withdraws the servers.
    LifetimeRule: u32 {
        /// From one to two times the interval of the router's advertisements.
        Rfc5006 = raw::RULE_5006,
        /// Three times the interval or more; [`Span::ENDLESS`] says without end.
        Rfc8106 = raw::RULE_8106,
    }
}

/// The DNS server option of a router advertisement (RFC 5006, RFC 8106), for a box that is the
/// router.
///
/// `rule` says which Lifetimes are allowed. `interval` is the router's MaxRtrAdvInterval (RFC 4861),
/// the longest time between two of its advertisements,
/// [`INTERVAL_MIN`](crate::limits::INTERVAL_MIN) to [`INTERVAL_MAX`](crate::limits::INTERVAL_MAX)
/// seconds. `lifetime` is for how long a host may use the servers after it has heard of them; 0
/// withdraws them. `addresses` are the servers', 1 to [`ANNOUNCED_MAX`] of them. The option goes to
/// the front of `option`, which has at least as many octets, 8 and 16 for each address;
/// [`SERVER_OPTION_MAX`](crate::limits::SERVER_OPTION_MAX) are enough for any. The octets past it
/// keep their values; what is answered is the option as an advertisement is to carry it.
///
/// The option has Type 25, its Length, two octets of zero, the Lifetime and the addresses as they
/// were given. Under [`LifetimeRule::Rfc5006`] the lifetime is from one to two times the interval,
/// under [`LifetimeRule::Rfc8106`] three times or more, the ends included, and under either it may
/// be 0. A [`ServerList`](crate::ServerList) acts on every option that is written here, also among
/// others in an area: it takes this Lifetime and the first
/// [`OPTION_SERVERS_MAX`](crate::limits::OPTION_SERVERS_MAX) of the addresses.
///
/// # Errors
///
/// In the order in which they are tried: [`Refusal::Interval`] an interval out of its range;
/// [`Refusal::Lifetime`] a lifetime that the rule does not allow at this interval;
/// [`Refusal::AddressCount`] no address, or over [`ANNOUNCED_MAX`]; [`Refusal::ServerOptionRoom`]
/// `option` shorter than the option to be written. A program that gets one of the first three has
/// wrong settings, and tells whoever made them; the last is about its own memory.
///
/// # Examples
///
/// A router announces two servers, and a host hears of them; then it withdraws them:
///
/// ```
/// use jespurla::limits::SERVER_OPTION_MAX;
/// use jespurla::{server_option, LifetimeRule, Moment, Refusal, ServerList, Span};
/// use std::net::Ipv6Addr;
///
/// // The router speaks at least every ten minutes, and names the servers for half an hour.
/// let (rule, interval) = (LifetimeRule::Rfc8106, Span(600));
/// let addresses = [1, 2].map(|number| Ipv6Addr::new(0x2001, 0xdb8, 0, 0, 0, 0, 0, number));
/// let mut buffer = [0; SERVER_OPTION_MAX];
/// let option = server_option(rule, interval, Span(1_800), &addresses, &mut buffer)?;
/// assert_eq!((option.len(), &option[..8]), (40, &[25, 5, 0, 0, 0, 0, 7, 8][..]));
///
/// let mut servers = ServerList::new();
/// servers.advance(Moment::try_from(100)?, Span(1_800), option)?;
/// assert!(servers.iter().map(|server| server.address).eq(addresses));
///
/// let option = server_option(rule, interval, Span(0), &addresses, &mut buffer)?;
/// servers.advance(Moment::try_from(200)?, Span(1_800), option)?;
/// assert!(servers.is_empty());
///
/// // Under this rule half an hour is too short for a router that may be silent for longer than
/// // ten minutes.
/// let refused = server_option(rule, Span(601), Span(1_800), &addresses, &mut buffer);
/// assert_eq!(refused, Err(Refusal::Lifetime));
/// # Ok::<(), Refusal>(())
/// ```
pub fn server_option<'o>(
    rule: LifetimeRule,
    interval: Span,
    lifetime: Span,
    addresses: &[Ipv6Addr],
    option: &'o mut [u8],
) -> Result<&'o [u8], Refusal> {
    // One address more than an option has is enough for the library to refuse them, in its order.
    let mut octets = [[0; 16]; ANNOUNCED_MAX + 1];
    let count = addresses.len().min(octets.len());
    for (place, address) in octets.iter_mut().zip(addresses) {
        *place = address.octets();
    }
    let told = raw::server_option(
        rule.into(),
        interval.to_raw(),
        lifetime.to_raw(),
        octets[..count].as_flattened(),
        option,
    );
    Refusal::check(told.refusal).map(|()| &option[..told.length as usize])
}
