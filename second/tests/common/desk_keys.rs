//! The keys that the desk asks by, and what the box owes to a query by one.

use std::cmp::Reverse;

use jespurla::raw::{self, QueryAnswer};
use second::desk_query;
use second::lease_query::Lease;

use super::leases::Client;
use super::random::Random;

#[derive(Clone, Debug)]
pub enum Key {
    Address(u32),
    Hardware { htype: u8, octets: Vec<u8> },
    ClientId(Vec<u8>),
}

impl Key {
    /// A key that no call refuses, often one that the table has.
    pub fn sound(random: &mut Random, table: &[Lease], clients: &[Client]) -> Key {
        let any = random.below(clients.len());
        let client = &clients[random.pick(&[0, any])];
        match random.below(3) {
            0 => Key::Address(some_address(random, table)),
            1 => some_hardware(random, client),
            _ => Key::ClientId(some_id(random, client)),
        }
    }

    pub fn title(&self) -> &'static str {
        match self {
            Key::Address(_) => "by address",
            Key::Hardware { .. } => "by hardware",
            Key::ClientId(_) => "by client id",
        }
    }

    /// The octets that are lent beside the buffer.
    pub fn octets(&self) -> &[u8] {
        match self {
            Key::Address(_) => &[],
            Key::Hardware { octets, .. } => octets,
            Key::ClientId(id) => id,
        }
    }

    /// Writes the query by the second program, the key's octets being lent.
    pub fn by_second(
        &self,
        (xid, giaddr): (u32, u32),
        lent: &[u8],
        query: &mut [u8],
    ) -> Result<usize, u8> {
        match *self {
            Key::Address(address) => desk_query::by_address(xid, giaddr, address, query),
            Key::Hardware { htype, .. } => desk_query::by_hardware(xid, giaddr, htype, lent, query),
            Key::ClientId(_) => desk_query::by_client_id(xid, giaddr, lent, query),
        }
    }

    /// Writes the query by the product, the key's octets being lent.
    pub fn by_product(
        &self,
        (xid, giaddr): (u32, u32),
        lent: &[u8],
        query: &mut [u8],
    ) -> QueryAnswer {
        match *self {
            Key::Address(address) => raw::query_by_address(xid, giaddr, address, query),
            Key::Hardware { htype, .. } => raw::query_by_hardware(xid, giaddr, htype, lent, query),
            Key::ClientId(_) => raw::query_by_client_id(xid, giaddr, lent, query),
        }
    }

    /// Whether a record has this key.
    fn is_of(&self, lease: &Lease) -> bool {
        match self {
            Key::Address(address) => lease.address == *address,
            Key::Hardware { htype, octets } => {
                lease.htype == *htype && lease.chaddr[..usize::from(lease.hlen)] == octets[..]
            }
            Key::ClientId(id) => lease.id[..usize::from(lease.id_len)] == id[..],
        }
    }

    /// The active records with this key, the one that answers first.
    pub fn active<'a>(&self, now: u64, table: &'a [Lease]) -> Vec<&'a Lease> {
        let is_active = |lease: &&Lease| lease.state == 1 && lease.expiry > now;
        let with_key = table.iter().filter(|lease| self.is_of(lease));
        let mut active: Vec<&Lease> = with_key.filter(is_active).collect();
        active.sort_by_key(|lease| (Reverse(lease.last_transaction), lease.address));
        active
    }

    /// The kind of reply that is due.
    pub fn kind(&self, now: u64, table: &[Lease]) -> u8 {
        let by_address = matches!(self, Key::Address(_));
        if !self.active(now, table).is_empty() {
            13
        } else if by_address && table.iter().any(|lease| self.is_of(lease)) {
            11
        } else {
            12
        }
    }
}

/// An address other than 0, of the table or near one of it.
fn some_address(random: &mut Random, table: &[Lease]) -> u32 {
    let any = random.next() as u32 | 1;
    if table.is_empty() || random.one_in(6) {
        return random.pick(&[1, any, u32::MAX]);
    }
    let held = table[random.below(table.len())].address;
    let near = held.wrapping_add(1).max(1);
    random.pick(&[held, held, held, near])
}

/// A hardware address of 1 to 16 octets, the client's or near it; at times all
/// zeros.
fn some_hardware(random: &mut Random, client: &Client) -> Key {
    let mut octets = client.chaddr[..usize::from(client.hlen)].to_vec();
    let mut htype = client.htype;
    if octets.is_empty() || random.one_in(10) {
        octets = vec![0; random.between(1, 16)];
        htype = random.pick(&[0, 0, 1, 255]);
    }
    let at = random.below(octets.len());
    match random.below(12) {
        0 => octets[at] ^= 1 << random.below(8),
        1 => htype ^= 1 << random.below(8),
        2 if octets.len() > 1 => octets.truncate(octets.len() - 1),
        3 if octets.len() < 16 => octets.push(0),
        4 => htype = 0,
        _ => {}
    }
    Key::Hardware { htype, octets }
}

/// A client id of 2 to 255 octets, the client's or near it.
fn some_id(random: &mut Random, client: &Client) -> Vec<u8> {
    let mut id = client.id.clone();
    if id.is_empty() {
        id = vec![7; random.pick(&[2, 3, 64])];
    }
    let at = random.below(id.len());
    match random.below(10) {
        0 => id[at] ^= 1 << random.below(8),
        1 if id.len() > 2 => id.truncate(id.len() - 1),
        2 => id.push(random.octet()),
        3 => id.resize(random.between(65, 255), 7),
        4 => id.resize(random.pick(&[65, 254, 255]), 0),
        _ => {}
    }
    id
}
