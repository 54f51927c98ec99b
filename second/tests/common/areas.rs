//! Router option areas and the lists they are applied to.

use second::server_list::{Entry, ServerList, PLACES, ROUTER_LIFETIME_MAX};
use second::{LATEST_MOMENT, NEVER};

use super::moments::{no_clock, no_moment};
use super::random::Random;

/// The option Type of RDNSS.
const RDNSS: u8 = 25;
/// Lengths that act, mostly.
const LENGTHS: [u8; 20] = [1, 2, 3, 3, 3, 3, 4, 5, 5, 5, 5, 6, 7, 7, 7, 7, 8, 9, 11, 13];

/// Addresses that differ from a common one in one bit each, at most 16.
pub fn pool(random: &mut Random) -> Vec<[u8; 16]> {
    let mut base = [0; 16];
    random.fill(&mut base);
    let count = random.pick(&[2, 9, 10, 12, 16]);
    let mut pool = Vec::with_capacity(count);
    for number in 0..count {
        let mut address = base;
        address[5 * number % 16] ^= 1 << random.below(8);
        pool.push(address);
    }
    pool
}

/// A moment about the clock or at the clock's end.
fn moment(random: &mut Random, clock: u64) -> u64 {
    match random.below(7) {
        0 => LATEST_MOMENT,
        1 => clock.saturating_sub(1),
        2 => clock,
        3 => clock.saturating_sub(random.below(1_000) as u64),
        _ => (clock + random.below(6) as u64).min(LATEST_MOMENT),
    }
}

/// An expiry: a moment, at times never.
fn expiry(random: &mut Random, clock: u64) -> u64 {
    if random.one_in(6) {
        NEVER
    } else {
        moment(random, clock)
    }
}

/// A router moment right before, at or right after the expiry, or wherever an
/// expiry may be.
fn router_moment(random: &mut Random, clock: u64, expiry: u64) -> u64 {
    let near = if expiry == NEVER { clock } else { expiry };
    match random.below(8) {
        0 => near.saturating_sub(1),
        1 => near,
        2 => (near + 1).min(LATEST_MOMENT),
        _ => moment(random, clock),
    }
}

fn clock(random: &mut Random) -> u64 {
    match random.below(12) {
        0 => 0,
        1 => LATEST_MOMENT,
        2 => LATEST_MOMENT - random.below(40) as u64,
        3..=6 => random.below(100) as u64,
        _ => random.next() & LATEST_MOMENT,
    }
}

/// A sound list of addresses from the pool, often full, with anything in the
/// places past its count.
pub fn list(random: &mut Random, pool: &[[u8; 16]]) -> ServerList {
    let mut list = ServerList {
        clock: clock(random),
        ..ServerList::default()
    };
    let most = pool.len().min(PLACES);
    list.count = if random.one_in(2) {
        most
    } else {
        random.between(0, most)
    };
    let first = random.below(pool.len());
    for (at, entry) in list.entries.iter_mut().enumerate() {
        entry.address = pool[(first + at) % pool.len()];
        entry.expiry = expiry(random, list.clock);
        entry.router = router_moment(random, list.clock, entry.expiry);
    }
    if random.one_in(2) {
        litter(random, &mut list);
    }
    list
}

/// Octets without a plan, or a held server again, past the count.
fn litter(random: &mut Random, list: &mut ServerList) {
    let held = list.entries[0];
    for place in &mut list.entries[list.count..] {
        *place = held;
        if random.one_in(2) {
            random.fill(&mut place.address);
            place.expiry = no_moment(random);
            place.router = no_clock(random);
        }
    }
}

/// Breaks the list's form in one of the five ways.
pub fn break_list(random: &mut Random, list: &mut ServerList) {
    match random.below(5) {
        0 => {
            let small = random.below(9);
            list.count = random.pick(&[
                9,
                10,
                16,
                255,
                256 + small,
                (1 << 32) + small,
                (1 << 63) + small,
                usize::MAX,
            ]);
        }
        1 => {
            list.count = list.count.clamp(2, PLACES);
            let one = random.below(list.count);
            let other = (one + random.between(1, list.count - 1)) % list.count;
            list.entries[one].address = list.entries[other].address;
        }
        2 => {
            list.count = list.count.clamp(1, PLACES);
            list.entries[random.below(list.count)].expiry = no_moment(random);
        }
        3 => {
            list.count = list.count.clamp(1, PLACES);
            list.entries[random.below(list.count)].router = no_clock(random);
        }
        _ => list.clock = no_clock(random),
    }
}

/// A moment for the next call: mostly the list's clock or a little later,
/// else behind it or none at all.
pub fn next_clock(random: &mut Random, clock: u64) -> u64 {
    let later = |span: usize| clock.saturating_add(span as u64).min(LATEST_MOMENT);
    match random.below(48) {
        0 => no_clock(random),
        1 => clock.saturating_sub(1),
        2 => random.next() % clock.max(1),
        3 => LATEST_MOMENT - random.below(10) as u64,
        4..=20 => clock,
        21..=24 => later(random.below(5_000)),
        25..=27 => later(random.pick(&[59, 60, 61, 62])),
        28 => later(random.pick(&[1_799, 1_800, 1_801])),
        29 => later(random.pick(&[65_534, 65_535, 65_536])),
        _ => later(random.between(1, 6)),
    }
}

/// A Lifetime that ends soon mostly, else at once, late or never.
fn lifetime(random: &mut Random) -> u32 {
    match random.below(10) {
        0..=2 => 0,
        3 => u32::MAX,
        4 => random.pick(&[256, 65_536, 1 << 24, 1 << 31, u32::MAX - 1]),
        5 => random.next() as u32,
        _ => random.pick(&[1, 2, 3, 5, 60]),
    }
}

/// A router lifetime that is taken: about the Lifetimes in use, longer, at the
/// limits or anywhere.
pub fn router_lifetime(random: &mut Random) -> u32 {
    match random.below(16) {
        0 => 0,
        1 => 1,
        2..=4 => ROUTER_LIFETIME_MAX,
        5..=7 => 1_800,
        8 => random.next() as u32 & ROUTER_LIFETIME_MAX,
        9 => random.pick(&[255, 256, 32_767, 32_768, 65_534]),
        10 => random.pick(&[59, 60, 61]),
        _ => random.between(2, 6) as u32,
    }
}

/// A router lifetime that is refused: right above the limit, at the end of its
/// 32 bits, with low bits that alone would be taken, or any.
pub fn no_router_lifetime(random: &mut Random) -> u32 {
    let high = 1 << random.between(16, 31);
    match random.below(8) {
        0..=2 => ROUTER_LIFETIME_MAX + 1,
        3 => ROUTER_LIFETIME_MAX + 2,
        4 => u32::MAX,
        5 => u32::MAX - 1,
        6 => high | router_lifetime(random),
        _ => high | random.next() as u32,
    }
}

/// One option with addresses from the pool; the Length is 8 octets' count.
pub fn option_of(random: &mut Random, pool: &[[u8; 16]], length: u8) -> Vec<u8> {
    let mut option = vec![0; 8 * usize::from(length)];
    option[0] = match random.below(24) {
        0 => random.octet(),
        1 => RDNSS ^ 1 << random.below(8),
        _ => RDNSS,
    };
    option[1] = length;
    let reserved = [random.octet(), random.octet()];
    option[2..4].copy_from_slice(&reserved);
    option[4..8].copy_from_slice(&lifetime(random).to_be_bytes());
    for part in option[8..].chunks_mut(16) {
        let address = random.pick(pool);
        part.copy_from_slice(&address[..part.len()]);
    }
    option
}

pub fn option(random: &mut Random, pool: &[[u8; 16]]) -> Vec<u8> {
    let length = if random.one_in(200) {
        random.between(1, 255) as u8
    } else {
        random.pick(&LENGTHS)
    };
    option_of(random, pool, length)
}

/// Options of at least `octets` octets in all.
pub fn options(random: &mut Random, pool: &[[u8; 16]], octets: usize) -> Vec<u8> {
    let mut area = Vec::with_capacity(octets + 64);
    while area.len() < octets {
        area.extend(option(random, pool));
    }
    area
}

/// Options of exactly `units` times 8 octets.
pub fn exact(random: &mut Random, pool: &[[u8; 16]], units: usize) -> Vec<u8> {
    let mut area = Vec::with_capacity(8 * units);
    while area.len() < 8 * units {
        let left = units - area.len() / 8;
        let length = usize::from(random.pick(&LENGTHS)).min(left);
        area.extend(option_of(random, pool, length as u8));
    }
    area
}

/// One of the faults an area can have, or a harmless change.
fn damage(random: &mut Random, pool: &[[u8; 16]], area: &mut Vec<u8>) {
    match random.below(7) {
        0 => area.push(random.octet()),
        1 => area.extend([random.octet(), 0]),
        2 => area.truncate(area.len() - area.len().min(random.between(1, 9))),
        3 if !area.is_empty() => {
            let at = random.below(area.len());
            area[at] = random.octet();
        }
        4 if !area.is_empty() => area[1] = random.pick(&[0, 1, 2, 4, 255]),
        5 => {
            let units = random.between(188, 192);
            *area = exact(random, pool, units);
            if random.one_in(3) {
                area.push(random.octet());
            }
        }
        _ => {
            area.extend([RDNSS, 3]);
            area.resize(area.len() + random.below(22), 7);
        }
    }
}

/// A few options mostly, at times as many as there is room for, and at times
/// with a fault.
pub fn area(random: &mut Random, pool: &[[u8; 16]]) -> Vec<u8> {
    let mut area = if random.one_in(60) {
        let units = random.between(150, 187);
        exact(random, pool, units)
    } else {
        let octets = random.pick(&[0, 1, 1, 1, 1, 60, 60, 100, 200]);
        options(random, pool, octets)
    };
    if random.one_in(6) {
        damage(random, pool, &mut area);
    }
    area
}

/// The acting part of an option: its first `count` addresses.
pub fn shortened(option: &[u8], count: usize) -> Vec<u8> {
    let mut short = option[..8 + 16 * count].to_vec();
    short[1] = 1 + 2 * count as u8;
    short
}

/// A held server's place.
pub fn place_of(list: &ServerList, address: &[u8]) -> Option<usize> {
    let held: &[Entry] = &list.entries[..list.count];
    held.iter().position(|entry| entry.address == *address)
}
