//! Lease queries, sound and with faults that are known.

use second::lease_query::Lease;

use super::leases::Client;
use super::random::Random;
use super::request_lists::{some_list, LIST_MAX};

const MAGIC: [u8; 4] = [99, 130, 83, 99];
/// Codes beside 53, 55 and 61 that a query may carry; none is read.
const OTHERS: [u8; 9] = [1, 12, 51, 52, 54, 82, 91, 92, 254];
/// Octets that the options of a sound query have at the most, its key aside,
/// so that what is planted in it still fits into a packet.
const OPTIONS_MAX: usize = 430;

/// Where the options stop, and how.
#[derive(Clone, Copy, PartialEq, Debug)]
enum Ending {
    End,
    Missing,
    /// The last option, of this code, claims more octets than there are.
    Past(u8),
    /// The last octet is this code, without a length.
    Code(u8),
}

/// A query before it is laid out.
#[derive(Clone, Debug)]
pub struct Query {
    op: u8,
    cookie: [u8; 4],
    ciaddr: u32,
    giaddr: u32,
    htype: u8,
    hlen: u8,
    chaddr: [u8; 16],
    options: Vec<(u8, Vec<u8>)>,
    ending: Ending,
    /// The length it is filled up to behind its end option.
    at_least: usize,
    /// The length it is cut or filled to, come what may.
    octets: Option<usize>,
}

impl Query {
    /// A query that asks by nothing yet.
    fn new(random: &mut Random) -> Query {
        Query {
            op: 1,
            cookie: MAGIC,
            ciaddr: 0,
            giaddr: random.next() as u32 | 1,
            htype: 0,
            hlen: 0,
            chaddr: [0; 16],
            options: vec![(53, vec![10])],
            ending: Ending::End,
            at_least: 0,
            octets: None,
        }
    }

    fn by_address(&mut self, random: &mut Random, table: &[Lease]) {
        let any = random.next() as u32 | 1;
        let mut address = random.pick(&[1, any, u32::MAX]);
        if !table.is_empty() && !random.one_in(6) {
            let held = table[random.below(table.len())].address;
            let near = held.wrapping_add(1).max(1);
            address = random.pick(&[held, held, held, near]).max(1);
        }
        self.ciaddr = address;
    }

    fn by_hardware(&mut self, random: &mut Random, client: &Client) {
        (self.htype, self.hlen, self.chaddr) = (client.htype, client.hlen, client.chaddr);
        if self.hlen == 0 {
            self.hlen = random.between(1, 16) as u8;
        }
        let hlen = usize::from(self.hlen);
        match random.below(8) {
            // Octets past hlen take no part.
            0..=2 => random.fill(&mut self.chaddr[hlen..]),
            3 => self.chaddr[random.below(hlen)] ^= 1 << random.below(8),
            4 => self.htype ^= 1 << random.below(8),
            5 => self.hlen = random.between(1, 16) as u8,
            _ => {}
        }
    }

    fn by_id(&mut self, random: &mut Random, client: &Client) {
        let mut id = client.id.clone();
        if id.is_empty() || random.one_in(12) {
            id = vec![7; random.pick(&[2, 3, 64, 65, 66, 128, 255])];
        }
        let at = random.below(id.len());
        match random.below(8) {
            0 => id[at] ^= 1 << random.below(8),
            1 if id.len() < 255 => id.push(random.octet()),
            2 => id.resize(65, 7),
            3 if id.len() > 2 => id.truncate(id.len() - 1),
            _ => {}
        }
        self.options.push((61, id));
    }

    fn add_key(&mut self, random: &mut Random, table: &[Lease], client: &Client, key: usize) {
        match key {
            0 => self.by_address(random, table),
            1 => self.by_hardware(random, client),
            _ => self.by_id(random, client),
        }
    }

    fn drop_keys(&mut self) {
        (self.ciaddr, self.htype, self.hlen, self.chaddr) = (0, 0, 0, [0; 16]);
        self.options.retain(|option| option.0 != 61);
    }

    /// Octets of the options, the key aside.
    fn size(&self) -> usize {
        let options = self.options.iter().filter(|option| option.0 != 61);
        options.map(|(_, value)| 2 + value.len()).sum()
    }

    /// Options nobody reads, in any order with those that are.
    fn add_others(&mut self, random: &mut Random) {
        for _ in 0..random.pick(&[0, 0, 1, 2, 5]) {
            let length = random.pick(&[0, 1, 4, 20, 80]);
            let mut value = vec![0; length];
            random.fill(&mut value);
            if self.size() + 2 + length <= OPTIONS_MAX {
                self.options.push((random.pick(&OTHERS), value));
            }
        }
        random.shuffle(&mut self.options);
    }

    /// A query that meets no refusal.
    pub fn sound(random: &mut Random, table: &[Lease], clients: &[Client]) -> Query {
        let mut query = Query::new(random);
        let any = random.below(clients.len());
        let client = &clients[random.pick(&[0, any])];
        let key = random.below(3);
        query.add_key(random, table, client, key);
        if !random.one_in(3) {
            query.options.push((55, some_list(random, LIST_MAX)));
        }
        query.add_others(random);
        if random.one_in(8) {
            query.at_least = random.pick(&[300, 576, 1_499, 1_500]);
        }
        query
    }

    /// Plants a fault that is refused with `number`; how it was done. Faults
    /// with higher numbers are to be planted first.
    pub fn plant(
        &mut self,
        random: &mut Random,
        table: &[Lease],
        clients: &[Client],
        number: u8,
    ) -> &'static str {
        match number {
            1 => self.plant_1(random),
            2 => {
                self.op = random.pick(&[0, 2, 3, 129, 255]);
                "2: op"
            }
            3 => self.plant_3(random),
            4 => self.plant_4(random),
            5 => {
                self.giaddr = 0;
                "5: giaddr"
            }
            6 => self.plant_6(random, table, clients),
            _ => self.plant_7(random),
        }
    }

    fn plant_1(&mut self, random: &mut Random) -> &'static str {
        match random.below(3) {
            0 => {
                self.octets = Some(random.pick(&[0, 1, 236, 237, 239]));
                "1: under 240 octets"
            }
            1 => {
                self.octets = Some(random.pick(&[1_501, 1_502, 2_000, 65_536 + 300]));
                "1: over 1,500 octets"
            }
            _ => {
                self.cookie[random.below(4)] ^= 1 << random.below(8);
                "1: cookie"
            }
        }
    }

    fn plant_3(&mut self, random: &mut Random) -> &'static str {
        self.at_least = 0;
        match random.below(9) {
            0 => {
                self.ending = Ending::Missing;
                "3: no end option"
            }
            1 => {
                self.ending = Ending::Past(random.pick(&[12, 53, 61, 254]));
                "3: past the end"
            }
            2 => {
                self.ending = Ending::Code(random.pick(&[1, 53, 61, 254]));
                "3: past the end"
            }
            3 => {
                self.double(random, 53);
                "3: 53 twice"
            }
            4 => {
                self.double(random, 61);
                "3: 61 twice"
            }
            _ => self.plant_list(random),
        }
    }

    /// Puts an option among the others.
    fn insert(&mut self, random: &mut Random, code: u8, value: Vec<u8>) {
        let at = random.between(0, self.options.len());
        self.options.insert(at, (code, value));
    }

    /// Two more of an option.
    fn double(&mut self, random: &mut Random, code: u8) {
        let value = random.pick(&[&[10][..], &[], &[10, 10], &[1, 2, 3]]);
        for _ in 0..2 {
            self.insert(random, code, value.to_vec());
        }
    }

    /// Makes the request list what is refused with 3.
    fn plant_list(&mut self, random: &mut Random) -> &'static str {
        let fault = random.below(5);
        if fault < 2 {
            self.double_list(random);
            return "3: 55 twice";
        }
        self.options.retain(|option| option.0 != 55);
        match fault {
            2 => {
                self.insert(random, 55, vec![]);
                let other = random.pick(&[&[][..], &[51], &[61, 82], &[0]]);
                self.insert(random, 55, other.to_vec());
                "3: 55 twice, empty"
            }
            3 => {
                self.insert(random, 55, vec![]);
                "3: 55 empty"
            }
            _ if random.one_in(2) => {
                self.ending = Ending::Past(55);
                "3: 55 past the end"
            }
            _ => {
                self.ending = Ending::Code(55);
                "3: 55 without a length"
            }
        }
    }

    /// Two lists or three, none empty, side by side or apart; at times alike.
    fn double_list(&mut self, random: &mut Random) {
        let alike = some_list(random, 60);
        let is_list = |option: &&(u8, Vec<u8>)| option.0 == 55;
        let wanted = random.pick(&[2, 2, 2, 3]);
        while self.options.iter().filter(is_list).count() < wanted {
            let list = if random.one_in(2) {
                alike.clone()
            } else {
                some_list(random, 60)
            };
            self.insert(random, 55, list);
        }
    }

    fn plant_4(&mut self, random: &mut Random) -> &'static str {
        self.options.retain(|option| option.0 != 53);
        let at = random.between(0, self.options.len());
        match random.below(3) {
            0 => "4: 53 absent",
            1 => {
                let length = random.pick(&[0, 2, 3, 255]);
                self.options.insert(at, (53, vec![10; length]));
                "4: 53 not one octet"
            }
            _ => {
                let kind = random.pick(&[0, 1, 9, 11, 12, 13, 255]);
                self.options.insert(at, (53, vec![kind]));
                "4: 53 not 10"
            }
        }
    }

    /// Whether there is a key of each kind.
    fn keys(&self) -> [bool; 3] {
        let hardware = self.htype != 0 || self.hlen != 0 || self.chaddr != [0; 16];
        let id = self.options.iter().any(|option| option.0 == 61);
        [self.ciaddr != 0, hardware, id]
    }

    fn plant_6(
        &mut self,
        random: &mut Random,
        table: &[Lease],
        clients: &[Client],
    ) -> &'static str {
        if random.one_in(3) {
            self.drop_keys();
            return "6: no key";
        }
        let client = &clients[random.below(clients.len())];
        let mut missing: Vec<usize> = (0..3).filter(|&key| !self.keys()[key]).collect();
        if random.one_in(2) {
            missing.remove(random.below(missing.len()));
        }
        for &key in &missing {
            self.add_key(random, table, client, key);
        }
        if missing.len() == 2 {
            "6: three keys"
        } else {
            "6: two keys"
        }
    }

    fn plant_7(&mut self, random: &mut Random) -> &'static str {
        self.drop_keys();
        match random.below(3) {
            0 => {
                self.htype = random.pick(&[0, 1, 255]);
                self.chaddr[random.below(16)] = 1 << random.below(8);
                "7: hlen 0"
            }
            1 => {
                self.hlen = random.pick(&[17, 18, 32, 128, 255]);
                self.htype = random.pick(&[0, 1]);
                "7: hlen above 16"
            }
            _ => {
                let at = random.between(0, self.options.len());
                let length = random.below(2);
                self.options.insert(at, (61, vec![7; length]));
                if length == 0 {
                    "7: client id of 0"
                } else {
                    "7: client id of 1"
                }
            }
        }
    }

    /// The packet, with anything in the fields that nobody reads.
    pub fn packet(&self, random: &mut Random) -> Vec<u8> {
        let mut packet = vec![0; 240];
        random.fill(&mut packet);
        packet[..3].copy_from_slice(&[self.op, self.htype, self.hlen]);
        packet[12..16].copy_from_slice(&self.ciaddr.to_be_bytes());
        packet[24..28].copy_from_slice(&self.giaddr.to_be_bytes());
        packet[28..44].copy_from_slice(&self.chaddr);
        packet[236..].copy_from_slice(&self.cookie);
        for (code, value) in &self.options {
            if random.one_in(4) {
                packet.resize(packet.len() + random.between(1, 5), 0);
            }
            packet.extend([*code, value.len() as u8]);
            packet.extend(value);
        }
        self.end(random, &mut packet);
        let octets = packet.len().max(self.at_least);
        packet.resize(
            self.octets.unwrap_or(octets),
            random.pick(&[0, 53, 55, 61, 255]),
        );
        packet
    }

    fn end(&self, random: &mut Random, packet: &mut Vec<u8>) {
        match self.ending {
            Ending::End => {
                packet.push(255);
                // What follows is ignored, though it looks like options.
                let list = [55, 0, 55, 1, 51];
                let tail = random.pick(&[&[][..], &[0, 0, 0], &[53, 1, 10, 61, 9], &[61], &list]);
                packet.extend(tail);
            }
            Ending::Missing => packet.resize(packet.len() + random.below(3), 0),
            Ending::Past(code) => {
                let claimed = random.between(1, 255);
                packet.extend([code, claimed as u8]);
                packet.resize(packet.len() + random.below(claimed), 255);
            }
            Ending::Code(code) => packet.push(code),
        }
    }
}
