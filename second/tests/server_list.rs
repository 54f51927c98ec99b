//! Compares the product's server list call with the second program.

mod common;

use common::areas::{self, place_of};
use common::moments::no_moment;
use common::random::from_both_seeds;
use common::run::Run;
use common::tally::Tally;
use common::twin::Twin;
use jespurla::raw::{self, Moment, Span};
use second::server_list::{update, Entry, ServerList, AREA_MAX, PLACES, ROUTER_LIFETIME_MAX};
use second::{LATEST_MOMENT, NEVER};

/// Calls compared by one run, at the least.
const CALLS: usize = 1_000_000;
/// Cases of each kind, at the least.
const EACH: usize = 1_000;

/// Moments about the clocks that lists have.
const MOMENTS: [u64; PLACES] = [0, 1, 2, 99, 100, 101, LATEST_MOMENT - 1, LATEST_MOMENT];

const KINDS: &[&str] = &[
    "31: over eight entries",
    "31: two of one address",
    "31: moment of an entry",
    "31: router moment of an entry",
    "31: router moment of never",
    "31: clock of the list",
    "31: several faults",
    "31: the later moment, the earlier in form",
    "31: router moment beside an expiry of never",
    "31 ahead of 15",
    "31 ahead of 15 (router lifetime)",
    "31 ahead of 16",
    "15: above the last moment",
    "15: behind the list's clock",
    "15: router lifetime over 65,535",
    "15: router lifetime 65,536",
    "15: router lifetime 4,294,967,295",
    "15: clock and router lifetime",
    "15 ahead of 16",
    "15 (router lifetime) ahead of 16",
    "16: over 1,500 octets",
    "16: over 1,500 octets, walk sound",
    "16: Length 0",
    "16: past the end",
    "16: lone octet at the end",
    "accepted",
    "accepted, full list before",
    "expired",
    "expired by both moments",
    "expired by the option's moment, the router's still ahead",
    "expired by the router's moment, the option's still ahead",
    "expired with never, by the router's moment",
    "held at its expiry moment",
    "held at its router moment",
    "held with never, by the router's moment",
    "router lifetime 0",
    "router lifetime 1",
    "router lifetime 65,535",
    "removed",
    "removed by router lifetime 0",
    "absent with Lifetime 0",
    "absent with router lifetime 0",
    "Lifetime 0 and router lifetime 0",
    "unnamed at router lifetime 0 stays",
    "fourth address at router lifetime 0 stays",
    "renewed",
    "renewed, never",
    "router moment renewed",
    "router moment renewed to an earlier one",
    "router moment renewed, expiry as it was",
    "inserted",
    "inserted, never",
    "expired and named again: inserted",
    "expired by the router's moment and named again: inserted",
    "inserted with eviction",
    "evicted among equals",
    "evicted among equals, one by either moment",
    "evicted by the router's moment, the option's expiry would choose another",
    "evicted by the option's expiry, the router's moment would choose another",
    "evicted own insert",
    "capped at the last moment",
    "router moment capped at the last moment",
    "address twice in one option",
    "fourth address",
    "even Length",
    "Length 1",
    "other Type",
];

/// The earlier of an entry's two moments.
fn end(entry: &Entry) -> u64 {
    entry.expiry.min(entry.router)
}

/// The entries that a list holds, or all where it claims more.
fn held(list: &ServerList) -> &[Entry] {
    &list.entries[..list.count.min(PLACES)]
}

/// The options of an area, or the reason why its walk ends.
fn walk(area: &[u8]) -> Result<Vec<&[u8]>, &'static str> {
    let mut options = Vec::new();
    let mut rest = area;
    while !rest.is_empty() {
        let Some(&length) = rest.get(1) else {
            return Err("16: lone octet at the end");
        };
        if length == 0 {
            return Err("16: Length 0");
        }
        let Some((option, behind)) = rest.split_at_checked(8 * usize::from(length)) else {
            return Err("16: past the end");
        };
        options.push(option);
        rest = behind;
    }
    Ok(options)
}

/// The option's part that names addresses, where it acts.
fn named(option: &[u8]) -> &[u8] {
    match option[..2] {
        [25, length] if length >= 3 && length % 2 == 1 => &option[8..],
        _ => &[],
    }
}

fn is_no_expiry(number: u64) -> bool {
    number > LATEST_MOMENT && number != NEVER
}

/// Every way in which the moments of entries break their form.
fn moment_faults(held: &[Entry]) -> Vec<&'static str> {
    let mut faults = Vec::new();
    if held.iter().any(|entry| is_no_expiry(entry.expiry)) {
        faults.push("31: moment of an entry");
    }
    if held.iter().any(|entry| is_no_expiry(entry.router)) {
        faults.push("31: router moment of an entry");
    }
    if held.iter().any(|entry| entry.router == NEVER) {
        faults.push("31: router moment of never");
    }
    faults
}

/// Every way in which a list breaks its form.
fn list_faults(list: &ServerList) -> Vec<&'static str> {
    let held = held(list);
    let twice = |at: usize| {
        let mut before = held[..at].iter();
        before.any(|entry| entry.address == held[at].address)
    };
    let mut faults = Vec::new();
    if list.count > PLACES {
        faults.push("31: over eight entries");
    } else {
        if (0..held.len()).any(twice) {
            faults.push("31: two of one address");
        }
        faults.extend(moment_faults(held));
    }
    if list.clock > LATEST_MOMENT {
        faults.push("31: clock of the list");
    }
    faults
}

/// One call's arguments.
#[derive(Clone, Debug)]
struct Case {
    list: ServerList,
    now: u64,
    router_lifetime: u32,
    area: Vec<u8>,
}

impl Case {
    fn clock_is_refused(&self) -> bool {
        self.now > LATEST_MOMENT || self.now < self.list.clock
    }

    fn router_lifetime_is_refused(&self) -> bool {
        self.router_lifetime > ROUTER_LIFETIME_MAX
    }

    fn area_is_refused(&self) -> bool {
        self.area.len() > AREA_MAX || walk(&self.area).is_err()
    }

    /// The entry of this address that was handed in and had ended by now.
    fn had_ended(&self, address: &[u8]) -> Option<&Entry> {
        let mut held = held(&self.list).iter();
        held.find(|entry| entry.address == *address && end(entry) < self.now)
    }
}

fn count_31(tally: &mut Tally, case: &Case) {
    match list_faults(&case.list)[..] {
        [only] => {
            tally.count(only);
            count_broken_moments(tally, &case.list);
        }
        _ => tally.count("31: several faults"),
    }
    if case.clock_is_refused() {
        tally.count("31 ahead of 15");
    } else if case.router_lifetime_is_refused() {
        tally.count("31 ahead of 15 (router lifetime)");
    }
    if case.area_is_refused() {
        tally.count("31 ahead of 16");
    }
}

/// Counts lists whose one fault is a moment that the other one of its entry
/// could hide.
fn count_broken_moments(tally: &mut Tally, list: &ServerList) {
    let broken = |entry: &&Entry| is_no_expiry(entry.expiry) || entry.router > LATEST_MOMENT;
    let mut broken = held(list).iter().filter(broken);
    let (Some(entry), true) = (broken.next(), list.count <= PLACES) else {
        return;
    };
    if end(entry) <= LATEST_MOMENT {
        tally.count("31: the later moment, the earlier in form");
    } else if entry.expiry == NEVER {
        tally.count("31: router moment beside an expiry of never");
    }
}

fn count_15(tally: &mut Tally, case: &Case) {
    if !case.clock_is_refused() {
        return count_router_lifetime_refused(tally, case);
    }
    tally.count(if case.now > LATEST_MOMENT {
        "15: above the last moment"
    } else {
        "15: behind the list's clock"
    });
    if case.router_lifetime_is_refused() {
        tally.count("15: clock and router lifetime");
    }
    if case.area_is_refused() {
        tally.count("15 ahead of 16");
    }
}

fn count_router_lifetime_refused(tally: &mut Tally, case: &Case) {
    tally.count("15: router lifetime over 65,535");
    match case.router_lifetime {
        0..=ROUTER_LIFETIME_MAX => panic!("refused without a reason: {case:02x?}"),
        65_536 => tally.count("15: router lifetime 65,536"),
        u32::MAX => tally.count("15: router lifetime 4,294,967,295"),
        _ => {}
    }
    if case.area_is_refused() {
        tally.count("15 (router lifetime) ahead of 16");
    }
}

fn count_16(tally: &mut Tally, case: &Case) {
    match (case.area.len() > AREA_MAX, walk(&case.area)) {
        (true, Ok(_)) => tally.count("16: over 1,500 octets, walk sound"),
        (true, Err(_)) => tally.count("16: over 1,500 octets"),
        (false, Err(reason)) => tally.count(reason),
        (false, Ok(_)) => panic!("refused without a reason: {case:02x?}"),
    }
}

/// Counts what an accepted call did, one option and one address at a time.
fn count_accepted(tally: &mut Tally, case: &Case, expected: &ServerList) {
    tally.count("accepted");
    if case.list.count == PLACES {
        tally.count("accepted, full list before");
    }
    for entry in held(&case.list) {
        if end(entry) < case.now {
            count_expired(tally, entry, case.now);
        } else {
            count_held(tally, entry, case.now);
        }
    }
    let left = update(&case.list, case.now, case.router_lifetime, &[]);
    let left = left.expect("accepted with an area");
    let mut list = left;
    let options = walk(&case.area).expect("accepted");
    for option in &options {
        match option[..2] {
            [25, 1] => tally.count("Length 1"),
            [25, length] if length % 2 == 0 => tally.count("even Length"),
            [25, _] => list = count_option(tally, case, &list, option),
            _ => tally.count("other Type"),
        }
    }
    assert_eq!(list, *expected, "option by option it is another list");
    if case.router_lifetime == 0 {
        count_unnamed(tally, &options, &left, expected);
    }
}

/// Counts by which of its moments an entry went.
fn count_expired(tally: &mut Tally, entry: &Entry, now: u64) {
    tally.count("expired");
    if entry.expiry < now && entry.router < now {
        tally.count("expired by both moments");
    } else if entry.router > now {
        tally.count("expired by the option's moment, the router's still ahead");
    } else if entry.expiry > now {
        tally.count("expired by the router's moment, the option's still ahead");
    }
    if entry.expiry == NEVER {
        tally.count("expired with never, by the router's moment");
    }
}

/// Counts how close to its moments an entry stayed.
fn count_held(tally: &mut Tally, entry: &Entry, now: u64) {
    if entry.expiry == now {
        tally.count("held at its expiry moment");
    }
    if entry.router == now {
        tally.count("held at its router moment");
    }
    if entry.expiry == NEVER {
        tally.count("held with never, by the router's moment");
    }
}

/// With router lifetime 0 the entries that the area doesn't name are all that
/// stays, as they were. Counts them where the area names some address.
fn count_unnamed(tally: &mut Tally, options: &[&[u8]], left: &ServerList, expected: &ServerList) {
    let (mut first, mut past): (Vec<&[u8]>, Vec<&[u8]>) = (vec![], vec![]);
    for option in options {
        let addresses: Vec<&[u8]> = named(option).chunks(16).collect();
        first.extend(addresses.iter().take(3));
        past.extend(addresses.iter().skip(3));
    }
    let mut unnamed = held(left).to_vec();
    unnamed.retain(|entry| !first.contains(&&entry.address[..]));
    assert_eq!(unnamed, held(expected), "more than the named changed");
    for entry in unnamed.iter().filter(|_| !first.is_empty()) {
        tally.count("unnamed at router lifetime 0 stays");
        if past.contains(&&entry.address[..]) {
            tally.count("fourth address at router lifetime 0 stays");
        }
    }
}

/// Counts what an acting option does; the list after it.
fn count_option(tally: &mut Tally, case: &Case, list: &ServerList, option: &[u8]) -> ServerList {
    let lifetime = u32::from_be_bytes(option[4..8].try_into().expect("four octets"));
    let addresses: Vec<&[u8]> = option[8..].chunks(16).collect();
    if addresses.len() > 3 {
        tally.count("fourth address");
    }
    match case.router_lifetime {
        0 => tally.count("router lifetime 0"),
        1 => tally.count("router lifetime 1"),
        65_535 => tally.count("router lifetime 65,535"),
        _ => {}
    }
    let mut own: Vec<&[u8]> = Vec::new();
    let mut before = *list;
    for (at, address) in addresses.iter().take(3).enumerate() {
        // The option cut behind this address shows the list behind it.
        let cut = areas::shortened(option, at + 1);
        let after = update(list, list.clock, case.router_lifetime, &cut).expect("accepted");
        if addresses[..at].contains(address) {
            tally.count("address twice in one option");
        }
        if lifetime == 0 || case.router_lifetime == 0 {
            count_withdrawn(tally, case, &before, address, lifetime);
        } else if let Some(place) = place_of(&before, address) {
            count_renewed(tally, &before.entries[place], &after.entries[place]);
            count_capped(tally, case, lifetime);
        } else {
            count_inserted(tally, case, address, lifetime);
            count_capped(tally, case, lifetime);
            count_eviction(tally, &before, &after, &mut own);
            own.push(address);
        }
        before = after;
    }
    before
}

/// Counts an address that an option names with a lifetime of 0.
fn count_withdrawn(
    tally: &mut Tally,
    case: &Case,
    before: &ServerList,
    address: &[u8],
    lifetime: u32,
) {
    tally.count(match (place_of(before, address), lifetime) {
        (Some(_), 0) => "removed",
        (Some(_), _) => "removed by router lifetime 0",
        (None, 0) => "absent with Lifetime 0",
        (None, _) => "absent with router lifetime 0",
    });
    if lifetime == 0 && case.router_lifetime == 0 {
        tally.count("Lifetime 0 and router lifetime 0");
    }
}

/// Counts a renewal by what became of the two moments.
fn count_renewed(tally: &mut Tally, before: &Entry, after: &Entry) {
    tally.count("renewed");
    if after.expiry == NEVER {
        tally.count("renewed, never");
    }
    if after.router != before.router {
        tally.count("router moment renewed");
        if after.expiry == before.expiry {
            tally.count("router moment renewed, expiry as it was");
        }
    }
    if after.router < before.router {
        tally.count("router moment renewed to an earlier one");
    }
}

fn count_inserted(tally: &mut Tally, case: &Case, address: &[u8], lifetime: u32) {
    tally.count("inserted");
    if lifetime == u32::MAX {
        tally.count("inserted, never");
    }
    if let Some(entry) = case.had_ended(address) {
        tally.count("expired and named again: inserted");
        if entry.expiry >= case.now {
            tally.count("expired by the router's moment and named again: inserted");
        }
    }
}

/// Counts the moments that an address gets and that the clock's end cuts.
fn count_capped(tally: &mut Tally, case: &Case, lifetime: u32) {
    if lifetime != u32::MAX && case.now + u64::from(lifetime) > LATEST_MOMENT {
        tally.count("capped at the last moment");
    }
    if case.now + u64::from(case.router_lifetime) > LATEST_MOMENT {
        tally.count("router moment capped at the last moment");
    }
}

/// Counts the entry that an insertion took out of a full list.
fn count_eviction(
    tally: &mut Tally,
    before: &ServerList,
    after: &ServerList,
    own: &mut Vec<&[u8]>,
) {
    if before.count < PLACES {
        return;
    }
    tally.count("inserted with eviction");
    let mut held = before.entries.iter();
    let gone = held.find(|entry| place_of(after, &entry.address).is_none());
    let gone = gone.expect("one of eight is gone");
    count_choice(tally, before, gone);
    if let Some(at) = own.iter().position(|address| gone.address == **address) {
        tally.count("evicted own insert");
        own.remove(at);
    }
}

/// Counts which of its moments an evicted entry was chosen by.
fn count_choice(tally: &mut Tally, before: &ServerList, gone: &Entry) {
    let equals = || before.entries.iter().filter(|e| end(e) == end(gone));
    if equals().count() > 1 {
        tally.count("evicted among equals");
    }
    if equals().any(|e| e.expiry < e.router) && equals().any(|e| e.router < e.expiry) {
        tally.count("evicted among equals, one by either moment");
    }
    // Of equal ones the first that is met from the back.
    let from_the_back = || before.entries.iter().rev();
    if from_the_back().min_by_key(|entry| entry.expiry) != Some(gone) {
        tally.count("evicted by the router's moment, the option's expiry would choose another");
    }
    if from_the_back().min_by_key(|entry| entry.router) != Some(gone) {
        tally.count("evicted by the option's expiry, the router's moment would choose another");
    }
}

impl Run<1> {
    /// Runs both programs on one case and compares refusal, list and lent
    /// memory. The list for the next call is the product's.
    fn compare(&mut self, case: &Case) -> ServerList {
        self.memory
            .lay_out(&mut self.random, [case.area.len()], &[&case.area]);
        let expected = update(&case.list, case.now, case.router_lifetime, &case.area);
        let [lent] = self.memory.product();
        let (now, router_lifetime) = (Moment(case.now), Span(case.router_lifetime));
        let got = raw::server_list(&case.list.twin(), now, router_lifetime, lent);
        // A refusal hands back the very list, unused places included.
        let list = *expected.as_ref().unwrap_or(&case.list);
        let refusal = expected.err().map_or(0, u32::from);
        let same = (got.refusal, got.list) == (refusal, list.twin());
        if !same || !self.memory.is_alike() {
            println!("second {refusal} {list:02x?}, product {got:02x?}, {case:02x?}");
            panic!("the programs differ, seed {}", self.random.seed);
        }
        self.count(case, &expected);
        got.list.twin()
    }

    fn count(&mut self, case: &Case, expected: &Result<ServerList, u8>) {
        self.tally.cases += 1;
        match expected {
            Ok(list) => count_accepted(&mut self.tally, case, list),
            Err(31) => count_31(&mut self.tally, case),
            Err(15) => count_15(&mut self.tally, case),
            Err(_) => count_16(&mut self.tally, case),
        }
    }

    /// One call with a drawn clock, router lifetime and area; the list it
    /// leaves.
    fn call(&mut self, pool: &[[u8; 16]], list: ServerList) -> ServerList {
        let now = areas::next_clock(&mut self.random, list.clock);
        let router_lifetime = if self.random.one_in(12) {
            areas::no_router_lifetime(&mut self.random)
        } else {
            areas::router_lifetime(&mut self.random)
        };
        let area = areas::area(&mut self.random, pool);
        self.compare(&Case {
            list,
            now,
            router_lifetime,
            area,
        })
    }

    /// Calls of which each gets the list that the one before it left, and at
    /// times two more with a broken list at last.
    fn chain(&mut self) {
        let pool = areas::pool(&mut self.random);
        let mut list = areas::list(&mut self.random, &pool);
        for _ in 0..self.random.between(1, 20) {
            list = self.call(&pool, list);
        }
        if self.random.one_in(2) {
            areas::break_list(&mut self.random, &mut list);
            if self.random.one_in(4) {
                areas::break_list(&mut self.random, &mut list);
            }
            list = self.call(&pool, list);
            self.call(&pool, list);
        }
    }

    /// A short sound case.
    fn sound_case(&mut self) -> (Vec<[u8; 16]>, Case) {
        let pool = areas::pool(&mut self.random);
        let list = areas::list(&mut self.random, &pool);
        let area = areas::options(&mut self.random, &pool, 60);
        let case = Case {
            now: list.clock,
            router_lifetime: areas::router_lifetime(&mut self.random),
            list,
            area,
        };
        (pool, case)
    }

    /// Every octet of an area changed, one at a time, and every cut of it.
    fn damage(&mut self) {
        let (_, mut case) = self.sound_case();
        for at in 0..case.area.len().min(200) {
            let octet = case.area[at];
            let (up, down) = (octet.wrapping_add(1), octet.wrapping_sub(1));
            for changed in [0, 25, 255, up, down, self.random.octet(), octet] {
                case.area[at] = changed;
                self.compare(&case);
            }
        }
        while case.area.pop().is_some() {
            self.compare(&case);
        }
    }

    /// Every Length, with the area cut and lengthened about its end.
    fn lengths(&mut self) {
        for length in 1..=187 {
            let (pool, mut case) = self.sound_case();
            let option = areas::option_of(&mut self.random, &pool, length);
            for octets in [option.len() - 1, option.len()] {
                case.area = option[..octets].to_vec();
                self.compare(&case);
            }
            for tail in [&[25][..], &[25, 0], &[25, 1], &[1, 1, 0, 0, 0, 0, 0, 0]] {
                case.area = [&option[..], tail].concat();
                self.compare(&case);
            }
        }
    }

    /// Areas of lengths about the limit, with few and with many options.
    fn long_areas(&mut self) {
        for octets in (1_484..=1_520).chain([1_600, 2_048, 65_536, 65_544, 66_560]) {
            let (pool, mut case) = self.sound_case();
            case.area = areas::exact(&mut self.random, &pool, octets / 8);
            case.area.resize(octets, 25);
            self.compare(&case);
            case.area = areas::options(&mut self.random, &pool, octets);
            case.area.truncate(octets);
            self.compare(&case);
            case.area = areas::option_of(&mut self.random, &pool, 187);
            case.area.resize(octets, 1);
            self.compare(&case);
        }
    }

    /// Clocks about the list's own and about the last moment.
    fn clocks(&mut self) {
        let beyond = [LATEST_MOMENT + 1, 1 << 63, NEVER - 1, NEVER];
        for clock in MOMENTS.into_iter().chain(beyond) {
            for now in MOMENTS.into_iter().chain(beyond) {
                let (_, mut case) = self.sound_case();
                case.list.clock = clock;
                case.now = now;
                self.compare(&case);
                self.moments(&mut case);
                case.area.push(25);
                self.compare(&case);
            }
        }
    }

    /// The case with each of the moments for an expiry, and with each of them
    /// for a router moment beside it.
    fn moments(&mut self, case: &mut Case) {
        for apart in 0..MOMENTS.len() {
            let held = &mut case.list.entries[..case.list.count];
            for (at, entry) in held.iter_mut().enumerate() {
                entry.expiry = MOMENTS[at];
                entry.router = MOMENTS[(at + apart) % MOMENTS.len()];
            }
            self.compare(case);
        }
    }

    /// Router lifetimes about every power of two, with a sound case, at the
    /// clock's end, with a fault in the area and with one in the list.
    fn router_lifetimes(&mut self) {
        for power in (0..32).map(|bit| 1 << bit) {
            for router_lifetime in [power - 1, power, power + 1, u32::MAX - power, u32::MAX] {
                let (_, mut case) = self.sound_case();
                case.router_lifetime = router_lifetime;
                self.compare(&case);
                case.now = LATEST_MOMENT - self.random.below(70_000) as u64;
                self.compare(&case);
                case.area.push(25);
                self.compare(&case);
                areas::break_list(&mut self.random, &mut case.list);
                self.compare(&case);
            }
        }
    }

    /// Full lists whose moments are close together, so that entries that end
    /// first are often equals, and an option for each.
    fn close_moments(&mut self) {
        for _ in 0..500 {
            let (pool, mut case) = self.sound_case();
            case.list.count = pool.len().min(PLACES);
            for entry in &mut case.list.entries {
                let mut soon = || (case.now + self.random.below(4) as u64).min(LATEST_MOMENT);
                (entry.expiry, entry.router) = (soon(), soon());
            }
            case.area = areas::option_of(&mut self.random, &pool, 7);
            self.compare(&case);
        }
    }

    /// Every count and every pair of places with one address.
    fn broken_lists(&mut self) {
        for count in (0..=20).chain([255, 256, 264, 1 << 16, 1 << 32, usize::MAX]) {
            let (_, mut case) = self.sound_case();
            case.list.count = count;
            self.compare(&case);
        }
        for (one, other) in (0..PLACES).flat_map(|one| (0..one).map(move |other| (one, other))) {
            for count in 0..=PLACES {
                let (_, mut case) = self.sound_case();
                case.list.count = count;
                case.list.entries[one].address = case.list.entries[other].address;
                self.compare(&case);
                case.list.entries[one].expiry = no_moment(&mut self.random);
                self.compare(&case);
            }
        }
    }

    /// Every place of lists of every length with a moment that is none.
    fn broken_moments(&mut self) {
        let broken = [LATEST_MOMENT + 1, 1 << 63, NEVER - 1, NEVER];
        for (place, count) in (0..PLACES).flat_map(|at| (0..=PLACES).map(move |of| (at, of))) {
            for number in broken {
                let (_, mut case) = self.sound_case();
                case.list.count = count;
                let router = case.list.entries[place].router;
                case.list.entries[place].router = number;
                self.compare(&case);
                case.list.entries[place].expiry = number;
                self.compare(&case);
                case.list.entries[place].router = router;
                self.compare(&case);
            }
        }
    }

    fn whole(mut self) {
        self.lengths();
        self.clocks();
        self.router_lifetimes();
        for _ in 0..20 {
            self.long_areas();
            self.close_moments();
            self.broken_lists();
            self.broken_moments();
            self.damage();
        }
        while self.tally.cases < CALLS {
            self.chain();
        }
        let title = format!("seed {}, server lists", self.random.seed);
        self.tally.report(&title, CALLS, EACH);
    }
}

#[test]
fn lists_are_the_same() {
    from_both_seeds(|seed| Run::new(seed, KINDS).whole());
}
