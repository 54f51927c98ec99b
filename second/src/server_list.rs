//! The DNS server list, fed by router options (document 01, "Server list",
//! and document 02, b).
//!
//! The most preferred server stands first. Recursive DNS server options
//! (RDNSS, Type 25) of a router's option area refresh, insert and remove
//! servers. A server is held while both run: the Lifetime of the option that
//! last named it and the lifetime of the router that sent that option.

use std::fmt::Write;

use crate::{is_expiry, LATEST_MOMENT, NEVER};

/// Places in the list.
pub const PLACES: usize = 8;
/// Longest option area that is read.
pub const AREA_MAX: usize = 1_500;
/// Longest router lifetime, in seconds.
pub const ROUTER_LIFETIME_MAX: u32 = 65_535;

/// The option type of RDNSS.
const RDNSS: u8 = 25;
/// Addresses of one option that count.
const ADDRESSES_READ: usize = 3;
/// The Lifetime that stands for no end.
const LIFETIME_NEVER: u32 = u32::MAX;

/// A server and its two ends.
#[derive(Clone, Copy, PartialEq, Eq, Debug, Default)]
pub struct Entry {
    pub address: [u8; 16],
    /// The end by the option: a moment or never; other numbers break the form.
    pub expiry: u64,
    /// The end by the router: a moment; other numbers break the form, never
    /// included, since every router lifetime ends.
    pub router: u64,
}

impl Entry {
    /// Whether both ends have their form; the earlier alone doesn't tell.
    fn is_well_formed(&self) -> bool {
        is_expiry(self.expiry) && self.router <= LATEST_MOMENT
    }

    /// The moment up to which the server is held: the earlier of its ends.
    fn end(&self) -> u64 {
        self.expiry.min(self.router)
    }
}

/// Up to eight servers, most preferred first, and the last accepted clock.
#[derive(Clone, Copy, PartialEq, Eq, Debug, Default)]
pub struct ServerList {
    /// Servers held; above eight breaks the form.
    pub count: usize,
    /// Places past the count are ignored, and zero in a returned list.
    pub entries: [Entry; PLACES],
    pub clock: u64,
}

impl ServerList {
    /// The entries held; all places if the count claims more.
    fn held(&self) -> &[Entry] {
        &self.entries[..self.count.min(PLACES)]
    }

    /// The form whose breach is refusal 31.
    fn is_well_formed(&self) -> bool {
        let held = self.held();
        let distinct = |(at, entry): (usize, &Entry)| {
            !held[..at]
                .iter()
                .any(|other| other.address == entry.address)
        };
        self.count <= PLACES
            && self.clock <= LATEST_MOMENT
            && held.iter().all(Entry::is_well_formed)
            && held.iter().enumerate().all(distinct)
    }

    /// The list at `now`, without the entries whose end has passed. An entry
    /// stays through the moment of its end.
    fn at_moment(&self, now: u64) -> ServerList {
        let mut list = ServerList {
            clock: now,
            ..ServerList::default()
        };
        for entry in self.held() {
            if entry.end() >= now {
                list.entries[list.count] = *entry;
                list.count += 1;
            }
        }
        list
    }

    /// Where the server with this address stands.
    fn place_of(&self, address: &[u8; 16]) -> Option<usize> {
        self.held()
            .iter()
            .position(|entry| entry.address == *address)
    }

    /// Takes one entry out; those behind it move up.
    fn remove(&mut self, at: usize) {
        self.entries.copy_within(at + 1..self.count, at);
        self.count -= 1;
        self.entries[self.count] = Entry::default();
    }

    /// Puts an entry in; those from `at` on move back. There must be room.
    fn insert(&mut self, at: usize, entry: Entry) {
        self.entries.copy_within(at..self.count, at + 1);
        self.entries[at] = entry;
        self.count += 1;
    }

    /// The entry to give up: it ends first, furthest back among equals.
    fn first_to_end(&self) -> usize {
        let mut first = 0;
        for (at, entry) in self.held().iter().enumerate() {
            if entry.end() <= self.entries[first].end() {
                first = at;
            }
        }
        first
    }

    /// Applies one option, given with its Type and Length octets.
    fn apply(&mut self, router_lifetime: u32, option: &[u8]) {
        // Even Lengths hold half an address and don't act.
        if option[0] != RDNSS || option[1] < 3 || option[1].is_multiple_of(2) {
            return;
        }
        let lifetime = u32::from_be_bytes([option[4], option[5], option[6], option[7]]);
        let expiry = expiry_after(self.clock, lifetime);
        let router = moment_after(self.clock, router_lifetime);
        // Either lifetime withdraws by being 0.
        let withdraws = lifetime == 0 || router_lifetime == 0;
        // The option's own inserts stand together at the front.
        let mut inserted = 0;
        for address in option[8..].chunks_exact(16).take(ADDRESSES_READ) {
            let named = Entry {
                address: address.try_into().expect("chunks of 16"),
                expiry,
                router,
            };
            match self.place_of(&named.address) {
                Some(at) if withdraws => self.remove(at),
                Some(at) => self.entries[at] = named,
                None if withdraws => {}
                None => {
                    if self.held().len() == PLACES {
                        let gone = self.first_to_end();
                        self.remove(gone);
                        inserted -= usize::from(gone < inserted);
                    }
                    self.insert(inserted, named);
                    inserted += 1;
                }
            }
        }
    }
}

/// The moment a span after `now`, held to the clock's last moment.
fn moment_after(now: u64, span: u32) -> u64 {
    (now + u64::from(span)).min(LATEST_MOMENT)
}

/// The expiry a Lifetime gives.
fn expiry_after(now: u64, lifetime: u32) -> u64 {
    if lifetime == LIFETIME_NEVER {
        NEVER
    } else {
        moment_after(now, lifetime)
    }
}

/// Splits the first option off an area that isn't empty, or refuses with 16
/// where its Length is missing, 0 or past the end.
fn split_option(area: &[u8]) -> Result<(&[u8], &[u8]), u8> {
    let octets = 8 * usize::from(*area.get(1).ok_or(16)?);
    if octets == 0 || octets > area.len() {
        return Err(16);
    }
    Ok(area.split_at(octets))
}

/// The list after the option area of a router that lives for
/// `router_lifetime` seconds from the moment `now` on.
///
/// The options act on a copy, which a refusal further on drops, so the area
/// counts whole or not at all. Refusals in order: 31, 15 for the clock, 15
/// for the router lifetime, 16.
pub fn update(
    list: &ServerList,
    now: u64,
    router_lifetime: u32,
    area: &[u8],
) -> Result<ServerList, u8> {
    if !list.is_well_formed() {
        return Err(31);
    }
    if now > LATEST_MOMENT || now < list.clock {
        return Err(15);
    }
    if router_lifetime > ROUTER_LIFETIME_MAX {
        return Err(15);
    }
    if area.len() > AREA_MAX {
        return Err(16);
    }
    let mut next = list.at_moment(now);
    let mut rest = area;
    while !rest.is_empty() {
        let (option, behind) = split_option(rest)?;
        next.apply(router_lifetime, option);
        rest = behind;
    }
    Ok(next)
}

/// What the small program prints for a result, each line ended. Of a server's
/// two ends it has the earlier, which is a moment, as the router's is one.
pub fn print(result: &Result<ServerList, u8>) -> String {
    let list = match result {
        Ok(list) => list,
        Err(refusal) => return format!("refused {refusal}\n"),
    };
    let mut lines = format!("servers {}\n", list.count);
    for entry in list.held() {
        for octet in entry.address {
            write!(lines, "{octet:02x}").expect("a string takes all");
        }
        writeln!(lines, " {}", entry.end()).expect("a string takes all");
    }
    lines
}

#[cfg(test)]
mod tests {
    use super::*;

    /// The router lifetime of the small program and of P7 to P9.
    const ROUTER: u32 = 1_800;

    fn address(last: u8) -> [u8; 16] {
        let mut address = [0; 16];
        address[15] = last;
        address
    }

    /// An RDNSS option with these addresses, given by their last octets.
    fn option(lifetime: u32, servers: &[u8]) -> Vec<u8> {
        let mut octets = vec![25, 1 + 2 * servers.len() as u8, 0, 0];
        octets.extend(lifetime.to_be_bytes());
        servers
            .iter()
            .for_each(|&last| octets.extend(address(last)));
        octets
    }

    /// A list of servers, each with its end by the option and by the router.
    fn list(clock: u64, servers: &[(u8, u64, u64)]) -> ServerList {
        let mut list = ServerList {
            clock,
            count: servers.len(),
            ..Default::default()
        };
        for (place, &(last, expiry, router)) in list.entries.iter_mut().zip(servers) {
            *place = Entry {
                address: address(last),
                expiry,
                router,
            };
        }
        list
    }

    /// The servers 1 to 8 with these ends.
    fn full(expiry: u64, router: u64) -> [(u8, u64, u64); 8] {
        let mut servers = [(0, expiry, router); 8];
        (1..)
            .zip(&mut servers)
            .for_each(|(last, server)| server.0 = last);
        servers
    }

    fn lasts(list: &ServerList) -> Vec<u8> {
        list.held().iter().map(|entry| entry.address[15]).collect()
    }

    /// What the small program prints for an area.
    fn printed(area: &[u8]) -> String {
        print(&update(&ServerList::default(), 0, ROUTER, area))
    }

    #[test]
    fn worked_example_prints() {
        let mut area = vec![0x19, 3, 0, 0, 0, 0, 0, 0x3c, 0x20, 0x01, 0x0d, 0xb8];
        area.extend([0; 11]);
        area.push(1);
        let lines = "servers 1\n20010db8000000000000000000000001 60\n";
        assert_eq!(printed(&area), lines);
        area.push(25);
        assert_eq!(printed(&area), "refused 16\n");
        assert_eq!(printed(&[]), "servers 0\n");
    }

    #[test]
    fn the_earlier_end_prints() {
        for (lifetime, end) in [
            (u32::MAX, "1800"),
            (u32::MAX - 1, "1800"),
            (1_801, "1800"),
            (1_800, "1800"),
            (1_799, "1799"),
        ] {
            let lines = format!("servers 1\n{:032x} {end}\n", 1);
            assert_eq!(printed(&option(lifetime, &[1])), lines);
        }
    }

    #[test]
    fn p7_even_length_is_ignored() {
        let mut area = option(60, &[1]);
        area[1] = 4;
        area.extend([0; 8]);
        assert_eq!(
            update(&ServerList::default(), 0, ROUTER, &area),
            Ok(ServerList::default())
        );
    }

    #[test]
    fn p8_inserts_go_ahead_in_their_order() {
        let held = list(0, &[(3, NEVER, 9)]);
        let next = update(&held, 0, ROUTER, &option(60, &[1, 2])).unwrap();
        let servers = [(1, 60, 1_800), (2, 60, 1_800), (3, NEVER, 9)];
        assert_eq!(next, list(0, &servers));
    }

    #[test]
    fn p9_held_at_its_expiry_and_gone_after() {
        let held = update(&ServerList::default(), 100, ROUTER, &option(60, &[1])).unwrap();
        assert_eq!(held, list(100, &[(1, 160, 1_900)]));
        let still = update(&held, 160, ROUTER, &[]);
        assert_eq!(still, Ok(list(160, &[(1, 160, 1_900)])));
        assert_eq!(update(&held, 161, ROUTER, &[]), Ok(list(161, &[])));
    }

    #[test]
    fn held_at_the_routers_end_and_gone_after() {
        for lifetime in [61, u32::MAX] {
            let area = option(lifetime, &[1]);
            let held = update(&ServerList::default(), 100, 60, &area).unwrap();
            assert_eq!(held.entries[0].router, 160);
            assert_eq!(lasts(&update(&held, 160, 0, &[]).unwrap()), [1]);
            assert_eq!(update(&held, 161, 65_535, &[]), Ok(list(161, &[])));
        }
    }

    #[test]
    fn lifetime_zero_removes_or_does_nothing() {
        let held = list(5, &[(1, NEVER, 9), (2, 9, 9), (3, 9, 9)]);
        let next = update(&held, 5, ROUTER, &option(0, &[2, 7])).unwrap();
        assert_eq!(next, list(5, &[(1, NEVER, 9), (3, 9, 9)]));
    }

    #[test]
    fn router_lifetime_zero_removes_what_the_area_names() {
        let held = list(5, &[(1, NEVER, 9), (2, 9, 9), (3, 9, 9), (4, 9, 5)]);
        for lifetime in [0, 60, u32::MAX] {
            let next = update(&held, 5, 0, &option(lifetime, &[2, 7])).unwrap();
            assert_eq!(next, list(5, &[(1, NEVER, 9), (3, 9, 9), (4, 9, 5)]));
        }
        assert_eq!(update(&held, 5, 0, &[]), Ok(held));
        // A fourth address isn't named, nor one of an option that doesn't act.
        let mut even = option(60, &[1]);
        even[1] = 4;
        even.extend([0; 8]);
        let area = [option(60, &[7, 8, 4, 2]), even].concat();
        let next = update(&held, 5, 0, &area).unwrap();
        assert_eq!(next, list(5, &[(1, NEVER, 9), (2, 9, 9), (3, 9, 9)]));
    }

    #[test]
    fn refresh_keeps_the_place_and_caps_the_moment() {
        let held = list(5, &[(1, NEVER, LATEST_MOMENT), (2, 9, 9)]);
        let next = update(&held, 6, ROUTER, &option(60, &[2, 2])).unwrap();
        let servers = [(1, NEVER, LATEST_MOMENT), (2, 66, 1_806)];
        assert_eq!(next, list(6, &servers));
        let late = LATEST_MOMENT - 1;
        let next = update(&held, late, ROUTER, &option(60, &[1])).unwrap();
        assert_eq!(next, list(late, &[(1, LATEST_MOMENT, LATEST_MOMENT)]));
        let next = update(&held, 5, ROUTER, &option(u32::MAX, &[2])).unwrap();
        let servers = [(1, NEVER, LATEST_MOMENT), (2, NEVER, 1_805)];
        assert_eq!(next, list(5, &servers));
    }

    #[test]
    fn the_last_area_to_name_a_server_gives_its_router_moment() {
        let held = list(5, &[(1, 90, 70), (2, 90, 70)]);
        for router_lifetime in [1, 40, 65_535] {
            let next = update(&held, 10, router_lifetime, &option(80, &[2])).unwrap();
            let router = 10 + u64::from(router_lifetime);
            assert_eq!(next, list(10, &[(1, 90, 70), (2, 90, router)]));
        }
        // Within an area the last option has its say on the expiry alone.
        let area = [option(80, &[2]), option(7, &[2])].concat();
        let next = update(&held, 10, 40, &area).unwrap();
        assert_eq!(next, list(10, &[(1, 90, 70), (2, 17, 50)]));
    }

    #[test]
    fn full_list_gives_up_the_first_to_end() {
        let mut servers = full(50, 100);
        servers[2].1 = 40;
        servers[5].1 = 40;
        let next = update(&list(0, &servers), 0, ROUTER, &option(60, &[9])).unwrap();
        assert_eq!(lasts(&next), [9, 1, 2, 3, 4, 5, 7, 8]);
        // Beside never the router's moment decides.
        let mut servers = full(NEVER, LATEST_MOMENT);
        servers[0].2 = LATEST_MOMENT - 1;
        let next = update(&list(0, &servers), 0, ROUTER, &option(60, &[9])).unwrap();
        assert_eq!(lasts(&next), [9, 2, 3, 4, 5, 6, 7, 8]);
    }

    #[test]
    fn full_list_gives_up_by_the_earlier_of_both_ends() {
        // By the expiries alone the first would go.
        let mut servers = full(50, 100);
        servers[0].1 = 40;
        servers[6] = (7, NEVER, 39);
        let next = update(&list(0, &servers), 0, ROUTER, &option(60, &[9])).unwrap();
        assert_eq!(lasts(&next), [9, 1, 2, 3, 4, 5, 6, 8]);
        // Equal ends of unlike kinds: the one furthest back.
        servers[6].2 = 40;
        let next = update(&list(0, &servers), 0, ROUTER, &option(60, &[9])).unwrap();
        assert_eq!(lasts(&next), [9, 1, 2, 3, 4, 5, 6, 8]);
        // By the router moments alone the seventh would go.
        servers[6].2 = 41;
        let next = update(&list(0, &servers), 0, ROUTER, &option(60, &[9])).unwrap();
        assert_eq!(lasts(&next), [9, 2, 3, 4, 5, 6, 7, 8]);
    }

    #[test]
    fn an_option_may_give_up_its_own_insert() {
        let held = list(0, &full(NEVER, 1_801));
        for lifetime in [60, u32::MAX] {
            let next = update(&held, 0, ROUTER, &option(lifetime, &[9, 10, 11])).unwrap();
            assert_eq!(lasts(&next), [11, 1, 2, 3, 4, 5, 6, 7]);
        }
    }

    #[test]
    fn only_three_addresses_count_and_later_options_go_ahead() {
        let area = [option(60, &[1, 2, 3, 4]), option(70, &[5, 2, 6])].concat();
        let next = update(&ServerList::default(), 0, ROUTER, &area).unwrap();
        assert_eq!(lasts(&next), [5, 6, 1, 2, 3]);
        assert_eq!(next.entries[3].expiry, 70);
    }

    #[test]
    fn expired_and_named_again_is_inserted() {
        for gone in [(2, 9, 90), (2, NEVER, 9), (2, 9, 9)] {
            let held = list(5, &[(1, 90, 90), gone, (3, 90, 90)]);
            let next = update(&held, 10, ROUTER, &option(60, &[2])).unwrap();
            let servers = [(2, 70, 1_810), (1, 90, 90), (3, 90, 90)];
            assert_eq!(next, list(10, &servers));
        }
    }

    #[test]
    fn refusals_come_in_order() {
        let good = list(7, &[(1, 9, 9), (2, NEVER, LATEST_MOMENT)]);
        let twice = list(7, &[(1, 9, 9), (1, NEVER, 9)]);
        let late = list(7, &[(1, LATEST_MOMENT + 1, 9)]);
        let below_never = list(7, &[(1, NEVER - 1, 9)]);
        let over = ServerList { count: 9, ..good };
        let clock = ServerList {
            clock: LATEST_MOMENT + 1,
            ..good
        };
        for bad in [twice, late, below_never, over, clock] {
            assert_eq!(update(&bad, 6, 65_536, &[25]), Err(31));
            assert_eq!(update(&bad, 7, 65_536, &[]), Err(31));
        }
        for now in [6, LATEST_MOMENT + 1] {
            assert_eq!(update(&good, now, ROUTER, &[25]), Err(15));
        }
        for area in [&[25][..], &[1, 0], &[1, 1, 0, 0, 0, 0, 0], &[0; 1_501]] {
            assert_eq!(update(&good, 7, ROUTER, area), Err(16));
            assert_eq!(update(&good, 7, 65_536, area), Err(15));
        }
    }

    #[test]
    fn router_moments_are_moments() {
        for expiry in [6, 9, NEVER] {
            for router in [LATEST_MOMENT + 1, 1 << 63, NEVER - 1, NEVER] {
                let bad = list(7, &[(1, 9, 9), (2, expiry, router)]);
                assert_eq!(update(&bad, 7, ROUTER, &[]), Err(31));
            }
            let last = list(7, &[(2, expiry, LATEST_MOMENT)]);
            assert!(update(&last, 7, ROUTER, &[]).is_ok());
        }
    }

    #[test]
    fn router_lifetimes_have_sixteen_bits() {
        let held = list(7, &[(1, 9, 9)]);
        let next = update(&held, 7, 65_535, &option(u32::MAX, &[1])).unwrap();
        assert_eq!(next, list(7, &[(1, NEVER, 65_542)]));
        for router_lifetime in [65_536, 65_537, 1 << 31, u32::MAX] {
            let next = update(&held, 7, router_lifetime, &option(60, &[1]));
            assert_eq!(next, Err(15));
        }
    }

    #[test]
    fn the_walk_refuses_the_whole_area() {
        let good = list(7, &[(1, 9, 9), (2, NEVER, 9)]);
        let after = [&option(60, &[4])[..], &[25, 0]].concat();
        assert_eq!(update(&good, 7, ROUTER, &after), Err(16));
        let longest = [&[1, 187][..], &[0; 1_494]].concat();
        assert_eq!(update(&good, 7, ROUTER, &longest), Ok(good));
        let longer = [1, 1, 0, 0, 0, 0, 0, 0].repeat(188);
        assert_eq!(update(&good, 7, ROUTER, &longer), Err(16));
    }

    #[test]
    fn places_past_the_count_are_ignored_and_returned_zero() {
        let mut held = list(7, &[(1, 9, 9)]);
        held.entries[1] = Entry {
            address: address(1),
            expiry: NEVER - 9,
            router: NEVER,
        };
        assert_eq!(update(&held, 7, ROUTER, &[]), Ok(list(7, &[(1, 9, 9)])));
    }
}
