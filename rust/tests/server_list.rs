//! The list of DNS servers, and moments and spans.

use std::net::Ipv6Addr;

use jespurla::limits::ROUTER_LIFETIME_MAX;
use jespurla::{Expiry, Moment, Refusal, Server, ServerList, Span};

/// The lifetime of most routers here, half an hour.
const ROUTER: Span = Span(1_800);

fn at(seconds: u64) -> Moment {
    Moment::try_from(seconds).expect("a moment")
}

fn address(number: u16) -> Ipv6Addr {
    Ipv6Addr::new(0x2001, 0xdb8, 0, 0, 0, 0, 0, number)
}

/// An option for these servers.
fn option(lifetime: Span, servers: &[u16]) -> Vec<u8> {
    let mut option = vec![25, 1 + 2 * servers.len() as u8, 0, 0];
    option.extend(lifetime.seconds().to_be_bytes());
    option.extend(servers.iter().flat_map(|&number| address(number).octets()));
    option
}

/// The list of a host that hears sound areas alone.
#[derive(Default)]
struct Host(ServerList);

impl Host {
    /// A router of this lifetime names servers at a clock.
    fn hears(&mut self, clock: u64, router: Span, lifetime: Span, servers: &[u16]) {
        let area = option(lifetime, servers);
        let told = self.0.advance(at(clock), router, &area);
        told.expect("a sound area");
    }

    /// The servers after no router has spoken up to this clock.
    fn after_silence(&self, clock: u64) -> Vec<Ipv6Addr> {
        let mut list = self.0.clone();
        list.expire(at(clock)).expect("a later clock");
        addresses(&list)
    }

    fn addresses(&self) -> Vec<Ipv6Addr> {
        addresses(&self.0)
    }

    /// Expiry and router's moment of each server.
    fn moments(&self) -> Vec<(Expiry, Moment)> {
        let servers = self.0.iter();
        servers
            .map(|server| (server.expiry, server.router))
            .collect()
    }
}

fn addresses(list: &ServerList) -> Vec<Ipv6Addr> {
    list.iter().map(|server| server.address).collect()
}

#[test]
fn servers_come_and_go() {
    let mut host = Host::default();
    assert_eq!((host.0.clock(), host.0.is_empty()), (at(0), true));
    host.hears(100, ROUTER, Span(60), &[3]);
    host.hears(100, ROUTER, Span::ENDLESS, &[1, 2]);
    assert_eq!(host.addresses(), [1, 2, 3].map(address));
    let expiries = [Expiry::Never, Expiry::Never, at(160).into()];
    assert_eq!(host.moments(), expiries.map(|expiry| (expiry, at(1900))));
    assert_eq!(host.after_silence(160).len(), 3);
    assert_eq!(host.after_silence(161).len(), 2);
    host.hears(161, ROUTER, Span(0), &[1]);
    assert_eq!(
        (host.addresses(), host.0.clock()),
        (vec![address(2)], at(161))
    );
}

#[test]
fn a_server_goes_when_the_earlier_of_its_moments_has_passed() {
    let mut host = Host::default();
    host.hears(100, Span(50), Span(60), &[1]);
    host.hears(100, Span(60), Span(50), &[2]);
    host.hears(100, Span(70), Span::ENDLESS, &[3]);
    let until: Vec<_> = host.0.iter().map(|server| server.until()).collect();
    assert_eq!(until, [at(170), at(150), at(150)]);
    assert_eq!(host.after_silence(150), [3, 2, 1].map(address));
    assert_eq!(host.after_silence(151), [address(3)]);
    assert_eq!(host.after_silence(170), [address(3)]);
    assert!(host.after_silence(171).is_empty());
}

#[test]
fn the_router_that_named_a_server_last_counts() {
    let mut host = Host::default();
    host.hears(100, Span(9_000), Span::ENDLESS, &[1, 2]);
    host.hears(200, Span(30), Span::ENDLESS, &[2]);
    host.hears(210, ROUTER, Span(60), &[3]);
    assert_eq!(host.addresses(), [3, 1, 2].map(address));
    let expected = [
        (at(270).into(), at(2010)),
        (Expiry::Never, at(9100)),
        (Expiry::Never, at(230)),
    ];
    assert_eq!(host.moments(), expected);
    assert_eq!(host.after_silence(231), [3, 1].map(address));
}

#[test]
fn a_router_that_says_goodbye_takes_what_it_names_along() {
    let mut host = Host::default();
    host.hears(100, ROUTER, Span::ENDLESS, &[1, 2]);
    host.hears(100, ROUTER, Span(60), &[3]);
    let before = host.0.clone();
    host.hears(100, Span(0), Span::ENDLESS, &[4, 5]);
    host.hears(100, Span(0), Span(60), &[]);
    assert_eq!(host.0, before);
    host.hears(100, Span(0), Span::ENDLESS, &[2, 4, 3]);
    assert_eq!(host.addresses(), [address(1)]);
    assert_eq!(host.moments(), [(Expiry::Never, at(1900))]);
}

#[test]
fn a_server_that_had_expired_is_put_in_as_a_new_one() {
    let mut host = Host::default();
    host.hears(100, ROUTER, Span::ENDLESS, &[1, 2]);
    host.hears(100, Span(60), Span::ENDLESS, &[3]);
    host.hears(110, Span(50), Span::ENDLESS, &[2]);
    assert_eq!(host.addresses(), [3, 1, 2].map(address));
    let mut early = Host(host.0.clone());
    early.hears(160, ROUTER, Span::ENDLESS, &[2]);
    assert_eq!(early.addresses(), [3, 1, 2].map(address));
    host.hears(161, ROUTER, Span::ENDLESS, &[2]);
    assert_eq!(host.addresses(), [2, 1].map(address));
}

/// Four servers that expire soon and four whose router goes soon: what makes room.
#[test]
fn the_server_whose_earlier_moment_is_first_makes_room() {
    let mut host = Host::default();
    host.hears(100, Span(80), Span(400), &[1, 2]);
    host.hears(100, Span(70), Span::ENDLESS, &[3, 4]);
    host.hears(100, ROUTER, Span(75), &[5, 6]);
    host.hears(100, ROUTER, Span(70), &[7]);
    host.hears(100, ROUTER, Span(70), &[8]);
    assert_eq!(host.addresses(), [8, 7, 5, 6, 3, 4, 1, 2].map(address));
    host.hears(100, ROUTER, ROUTER, &[9, 10]);
    assert_eq!(host.addresses(), [9, 10, 8, 7, 5, 6, 1, 2].map(address));
    host.hears(100, ROUTER, ROUTER, &[11, 12, 13]);
    assert_eq!(host.addresses(), [11, 12, 13, 9, 10, 5, 1, 2].map(address));
}

#[test]
fn areas_clocks_and_router_lifetimes_are_refused() {
    let mut host = Host::default();
    host.hears(100, ROUTER, Span(60), &[1]);
    let mut list = host.0;
    let before = list.clone();
    let cut = &option(Span(60), &[2])[..23];
    let over = Span(ROUTER_LIFETIME_MAX + 1);
    assert_eq!(list.advance(at(99), ROUTER, cut), Err(Refusal::Clock));
    assert_eq!(list.advance(at(100), over, cut), Err(Refusal::Clock));
    let endless = list.advance(at(100), Span::ENDLESS, &[]);
    assert_eq!(endless, Err(Refusal::Clock));
    for broken in [cut, &[1, 0], &[1; 1501]] {
        assert_eq!(list.advance(at(100), ROUTER, broken), Err(Refusal::Area));
    }
    assert_eq!(list.expire(at(99)), Err(Refusal::Clock));
    assert_eq!(list, before);
    let longest = Span(ROUTER_LIFETIME_MAX);
    assert_eq!(list.advance(at(100), longest, &[]), Ok(()));
    assert_eq!(list, before);
}

#[test]
fn a_list_is_stored_and_made_again() {
    let mut host = Host::default();
    host.hears(100, ROUTER, Span(60), &[1, 2]);
    host.hears(101, Span(70), Span::ENDLESS, &[3]);
    host.hears(101, ROUTER, Span::ENDLESS, &[4]);
    let list = host.0;
    let mut stored: Vec<Server> = list.iter().collect();
    let again = ServerList::from_servers(list.clock(), &stored);
    assert_eq!(again, Ok(list.clone()));
    assert_ne!(ServerList::from_servers(at(102), &stored), Ok(list.clone()));
    let mut renewed = stored.clone();
    renewed[0].router = at(2000);
    let other = ServerList::from_servers(list.clock(), &renewed);
    assert_ne!(other, Ok(list.clone()));
    let later = ServerList::from_servers(at(161), &stored).expect("a sound list");
    assert_eq!(addresses(&later), [4, 3].map(address));
    let later = ServerList::from_servers(at(172), &stored).expect("a sound list");
    assert_eq!(addresses(&later), [address(4)]);
    stored.push(stored[0]);
    let twice = ServerList::from_servers(list.clock(), &stored);
    assert_eq!(twice, Err(Refusal::ServerList));
}

/// A server to store.
fn server(number: u16, expiry: Expiry, router: u64) -> Server {
    Server {
        address: address(number),
        expiry,
        router: at(router),
    }
}

#[test]
fn a_list_has_at_most_eight_servers() {
    let nine: Vec<_> = (0..9)
        .map(|number| server(number, Expiry::Never, 60))
        .collect();
    let told = |servers| ServerList::from_servers(at(0), servers).map(|list| list.len());
    assert_eq!(told(&nine), Err(Refusal::ServerList));
    assert_eq!(told(&nine[..8]), Ok(8));
}

#[test]
fn a_list_is_printed_in_a_line() {
    let servers = [server(1, Expiry::Never, 8), server(2, at(9).into(), 10)];
    let list = ServerList::from_servers(at(7), &servers).expect("a sound list");
    assert_eq!(
        format!("{list:?}"),
        "ServerList at 7 [2001:db8::1 until never, its router until 8; \
         2001:db8::2 until 9, its router until 10]"
    );
}

/// The one server of a list without others, for a lifetime and a router's lifetime at a clock.
fn told(clock: Moment, router: Span, lifetime: Span) -> Server {
    let list = ServerList::new()
        .after(clock, router, &option(lifetime, &[1]))
        .expect("a sound area");
    let server = list.iter().next();
    server.expect("a server")
}

#[test]
fn a_span_on_is_what_the_server_list_says() {
    let latest = Moment::LATEST.seconds();
    let least = latest - u64::from(u32::MAX);
    for clock in [0, 1, 100, least, latest - 60, latest - 1, latest].map(at) {
        for span in [1, 2, 59, 60, 61, u32::MAX - 1, u32::MAX].map(Span) {
            let expiry = told(clock, ROUTER, span).expiry;
            assert_eq!(clock.after(span), expiry, "{clock} {span}");
        }
        for span in [1, 59, 60, 61, 1_800, ROUTER_LIFETIME_MAX].map(Span) {
            let router = told(clock, span, Span::ENDLESS).router;
            assert_eq!(clock.after(span), router.into(), "{clock} {span}");
        }
    }
}

#[test]
fn moments_have_a_range_and_never_is_last() {
    assert_eq!(Moment::new(1 << 48), None);
    assert_eq!(Moment::try_from(u64::MAX), Err(Refusal::Clock));
    assert_eq!(Moment::new((1 << 48) - 1), Some(Moment::LATEST));
    assert_eq!(u64::from(at(7)), 7);
    assert!(Expiry::At(Moment::LATEST) < Expiry::Never);
    assert!(Expiry::At(at(1)) < at(2).into());
}

#[test]
fn spans_are_made_of_seconds_and_of_octets() {
    assert_eq!(Span::from_octets([0, 0, 1, 2]), Span(258));
    assert_eq!(Span::from(258), Span(258));
    assert_eq!((u32::from(Span(258)), Span(258).seconds()), (258, 258));
    assert_eq!(format!("{:>5} {}", Span(60), at(60)), "   60 60");
}
