//! Lease tables and the clients that hold the leases.

use second::lease_query::{Lease, TABLE_MAX};
use second::{LATEST_MOMENT, NEVER};

use super::moments::no_moment;
use super::random::Random;

/// What tells a client apart: its hardware address and its id.
#[derive(Clone, Debug)]
pub struct Client {
    pub htype: u8,
    pub hlen: u8,
    pub chaddr: [u8; 16],
    pub id: Vec<u8>,
}

/// A client with a record's limits in mind.
fn client(random: &mut Random) -> Client {
    let hlen = random.pick(&[0, 1, 6, 6, 6, 8, 15, 16]);
    let mut chaddr = [0; 16];
    random.fill(&mut chaddr[..usize::from(hlen)]);
    let id_len = random.pick(&[0, 2, 2, 3, 7, 19, 63, 64, 64, 64, 64]);
    let mut id = vec![0; id_len];
    random.fill(&mut id);
    Client {
        htype: if hlen == 0 {
            0
        } else {
            random.pick(&[1, 6, 255])
        },
        hlen,
        chaddr,
        id,
    }
}

/// A client that is nearly another one.
fn neighbour(random: &mut Random, client: &Client) -> Client {
    let mut near = client.clone();
    let (hlen, id_len) = (usize::from(near.hlen), near.id.len());
    match random.below(6) {
        0 if hlen > 0 => near.chaddr[random.below(hlen)] ^= 1 << random.below(8),
        1 if hlen > 0 => near.htype ^= 1 << random.below(8),
        2 if hlen > 1 => {
            near.hlen -= 1;
            near.chaddr[hlen - 1] = 0;
        }
        3 if id_len > 0 => near.id[random.below(id_len)] ^= 1 << random.below(8),
        4 if id_len > 2 => near.id.truncate(id_len - 1),
        _ if id_len < 64 && id_len > 0 => near.id.push(random.octet()),
        _ => {}
    }
    near
}

/// A few clients, some of them nearly alike.
pub fn clients(random: &mut Random) -> Vec<Client> {
    let mut clients = vec![client(random)];
    for _ in 0..random.between(0, 6) {
        let other = clients[random.below(clients.len())].clone();
        clients.push(if random.one_in(2) {
            client(random)
        } else {
            neighbour(random, &other)
        });
    }
    clients
}

/// A moment about the clock, or about as far back as option 91 can say.
fn last_transaction(random: &mut Random, now: u64) -> u64 {
    match random.below(12) {
        0 => random.next() & LATEST_MOMENT,
        1..=3 => now.saturating_sub(u64::from(u32::MAX) - 1 + random.below(3) as u64),
        4 => random.pick(&[0, LATEST_MOMENT]),
        5 => (now + random.below(3) as u64).min(LATEST_MOMENT),
        _ => now.saturating_sub(random.below(4) as u64),
    }
}

fn expiry(random: &mut Random, now: u64) -> u64 {
    let span = match random.below(10) {
        0 | 1 => return NEVER,
        2 => return random.next() & LATEST_MOMENT,
        3 => return now.saturating_sub(random.between(0, 3) as u64),
        4 | 5 => u64::from(u32::MAX) - 2 + random.below(4) as u64,
        6 => LATEST_MOMENT,
        7 => random.between(0, 2) as u64,
        _ => random.between(1, 90_000) as u64,
    };
    (now + span).min(LATEST_MOMENT)
}

/// How the records of a table are drawn.
#[derive(Clone, Copy, PartialEq)]
enum Style {
    Mixed,
    Expired,
    /// Nearly all records are active ones of the first client.
    OneClient,
}

/// A sound record, but for its address.
fn lease(random: &mut Random, clients: &[Client], now: u64, style: Style) -> Lease {
    let one = style == Style::OneClient && !random.one_in(100);
    let client = if one {
        &clients[0]
    } else {
        &clients[random.below(clients.len())]
    };
    let mut lease = Lease {
        address: 0,
        state: u8::from(one || !random.one_in(6)),
        htype: client.htype,
        hlen: client.hlen,
        chaddr: client.chaddr,
        id_len: client.id.len() as u8,
        id: [0; 64],
        relay_len: random.pick(&[0, 0, 1, 20, 63, 64]),
        relay: [0; 64],
        last_transaction: last_transaction(random, now),
        expiry: expiry(random, now),
    };
    if one {
        lease.expiry = random.pick(&[NEVER, (now + 500).min(LATEST_MOMENT)]);
        lease.relay_len = random.pick(&[64, 64, 64, 0]);
    } else if style == Style::Expired {
        lease.expiry = now.saturating_sub(random.below(3) as u64);
    }
    // Octets past the lengths are ignored and may be anything.
    random.fill(&mut lease.id);
    random.fill(&mut lease.relay);
    lease.id[..client.id.len()].copy_from_slice(&client.id);
    lease
}

/// A sound record by itself, but for its address.
pub fn record(random: &mut Random) -> Lease {
    let clients = clients(random);
    lease(random, &clients, 0, Style::Mixed)
}

/// Addresses that rise from above 0, low, high or anywhere.
fn give_addresses(random: &mut Random, table: &mut [Lease]) {
    let room = u32::MAX as usize - 8 * TABLE_MAX;
    let start = random.below(room) as u32;
    let mut address = random.pick(&[0, 0, 0x0a00_0000, start]);
    if random.one_in(8) {
        address = u32::MAX - table.len() as u32;
        for lease in table {
            address += 1;
            lease.address = address;
        }
        return;
    }
    for lease in table {
        address += random.between(1, 3) as u32;
        lease.address = address;
    }
}

/// A sound table.
pub fn table(random: &mut Random, clients: &[Client], now: u64) -> Vec<Lease> {
    let style = random.pick(&[
        Style::Mixed,
        Style::Mixed,
        Style::Mixed,
        Style::OneClient,
        Style::OneClient,
        Style::Expired,
    ]);
    let count = match style {
        Style::OneClient => random.pick(&[2, 3, 63, 63, 64, 65, 70, 256]),
        _ => random.pick(&[0, 1, 2, 3, 5, 8, 12, 20, 20, 60, 255, 256]),
    };
    let mut table: Vec<Lease> = (0..count)
        .map(|_| lease(random, clients, now, style))
        .collect();
    give_addresses(random, &mut table);
    table
}

/// A moment for a table to be made about.
pub fn about(random: &mut Random) -> u64 {
    let any = random.next() & LATEST_MOMENT;
    let late = LATEST_MOMENT - random.below(1_000) as u64;
    random.pick(&[0, 1_000, any, any, late, 1 << 33])
}

/// A sound clock for a case; mostly the moment the table was made about.
pub fn clock(random: &mut Random, about: u64) -> u64 {
    match random.below(4) {
        0 => (about + random.below(4) as u64).min(LATEST_MOMENT),
        _ => about,
    }
}

/// Breaks a record's form in one way.
type Plant = fn(&mut Random, &mut Lease);

/// The ways in which a record breaks its form.
const RECORD_FAULTS: [(&str, Plant); 11] = [
    ("9: address 0", |_, lease| lease.address = 0),
    ("9: state", |random, lease| {
        lease.state = random.pick(&[2, 3, 128, 255])
    }),
    ("9: hlen above 16", |random, lease| {
        lease.hlen = random.pick(&[17, 18, 32, 255])
    }),
    ("9: htype with hlen 0", |random, lease| {
        (lease.hlen, lease.chaddr) = (0, [0; 16]);
        lease.htype = random.between(1, 255) as u8;
    }),
    ("9: chaddr past hlen", |random, lease| {
        lease.hlen = lease.hlen.min(15);
        if lease.hlen == 0 {
            lease.htype = 0;
        }
        lease.chaddr[usize::from(lease.hlen)..].fill(0);
        let at = random.between(usize::from(lease.hlen), 15);
        lease.chaddr[at] = 1 << random.below(8);
    }),
    ("9: client id of 1", |_, lease| lease.id_len = 1),
    ("9: client id above 64", |random, lease| {
        lease.id_len = random.pick(&[65, 66, 128, 255])
    }),
    ("9: relay information above 64", |random, lease| {
        lease.relay_len = random.pick(&[65, 66, 128, 255])
    }),
    ("9: last transaction", |random, lease| {
        lease.last_transaction = no_moment(random)
    }),
    ("9: last transaction never", |_, lease| {
        lease.last_transaction = NEVER
    }),
    ("9: expiry", |random, lease| {
        lease.expiry = no_moment(random)
    }),
];

/// Breaks a table's form; the way it was done.
pub fn break_table(
    random: &mut Random,
    clients: &[Client],
    table: &mut Vec<Lease>,
) -> &'static str {
    let fault = random.below(RECORD_FAULTS.len() + 2);
    if fault == RECORD_FAULTS.len() {
        let more = random.pick(&[257, 258, 300, 512]);
        table.resize_with(more, || lease(random, clients, 0, Style::Mixed));
        (1..)
            .zip(table)
            .for_each(|(address, lease)| lease.address = address);
        return "9: over 256 records";
    }
    while table.len() < 2 {
        table.push(lease(random, clients, 0, Style::Mixed));
        give_addresses(random, table);
    }
    let inside = random.below(table.len());
    let at = random.pick(&[0, inside, table.len() - 1]);
    if let Some((name, plant)) = RECORD_FAULTS.get(fault) {
        plant(random, &mut table[at]);
        return name;
    }
    let at = at.max(1);
    table[at].address = table[at - 1].address - u32::from(random.one_in(2));
    "9: addresses don't rise"
}
