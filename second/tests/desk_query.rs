//! Compares the product's calls that write a lease query with the second
//! program, and hands what they wrote to the box.

mod common;

use common::desk_keys::Key;
use common::faults::{first, has_another, number};
use common::leases::{self, Client};
use common::product::{lease_answer, query_answer};
use common::random::{from_both_seeds, Random};
use common::run::Run;
use common::tables::Tables;
use jespurla::raw::{self, Moment};
use second::desk_query::QUERY_MIN;
use second::lease_query::{answer, Lease, REPLY_MIN};

/// Queries compared by one run, at the least.
const QUERIES: usize = 250_000;
/// Cases of each kind, at the least.
const EACH: usize = 1_000;
/// Refusals in the order in which they are given.
const ORDER: [u8; 2] = [19, 32];
/// Buffers that are too short, and buffers that are not.
const SHORT: [usize; 9] = [0, 1, 239, 240, 244, 247, 300, 499, 500];
const LONG: [usize; 7] = [501, 501, 502, 520, 648, 1_000, 1_500];

const KINDS: &[&str] = &[
    "19: giaddr 0",
    "19: address 0",
    "19: hardware of 0 octets",
    "19: hardware over 16 octets",
    "19: client id of 0 octets",
    "19: client id of 1 octet",
    "19: client id over 255 octets",
    "19 for giaddr and key",
    "19 ahead of 32",
    "32: buffer",
    "32: though the query would fit",
    "written by address",
    "written by hardware",
    "written by client id",
    "buffer of 501 octets",
    "buffer over 501 octets",
    "xid 0",
    "hardware of 1 octet",
    "hardware of 16 octets",
    "hardware of type 0",
    "hardware of zeros",
    "hardware of type 0 and zeros",
    "client id of 2 octets",
    "client id of 64 octets",
    "client id of 65 to 254 octets",
    "client id of 255 octets",
    "box, by address: active",
    "box, by address: unassigned",
    "box, by address: unknown",
    "box, by hardware: active",
    "box, by hardware: unknown",
    "box, by client id: active",
    "box, by client id: unknown",
    "box, client id over 64 octets: unknown",
    "on a small stack",
];

/// One call's arguments, and the clock and the address of the box that gets
/// the query.
#[derive(Clone, Debug)]
struct Case {
    xid: u32,
    giaddr: u32,
    key: Key,
    room: usize,
    now: u64,
    server: [u8; 4],
}

impl Case {
    /// A case that meets no refusal.
    fn sound(random: &mut Random, about: u64, table: &[Lease], clients: &[Client]) -> Case {
        let any = random.next() as u32;
        Case {
            xid: random.pick(&[0, 1, u32::MAX, any, any, any]),
            giaddr: random.pick(&[1, 1 << 24, u32::MAX, any | 1, any | 1]),
            key: Key::sound(random, table, clients),
            room: random.pick(&LONG),
            now: leases::clock(random, about),
            server: (random.next() as u32).to_be_bytes(),
        }
    }

    /// The faults of the arguments.
    fn faults(&self) -> Vec<&'static str> {
        let key = match &self.key {
            Key::Address(0) => Some("19: address 0"),
            Key::Address(_) => None,
            Key::Hardware { octets, .. } => match octets.len() {
                0 => Some("19: hardware of 0 octets"),
                1..=16 => None,
                _ => Some("19: hardware over 16 octets"),
            },
            Key::ClientId(id) => match id.len() {
                0 => Some("19: client id of 0 octets"),
                1 => Some("19: client id of 1 octet"),
                2..=255 => None,
                _ => Some("19: client id over 255 octets"),
            },
        };
        let giaddr = (self.giaddr == 0).then_some("19: giaddr 0");
        let room = (self.room < 501).then_some("32: buffer");
        [giaddr, key, room].into_iter().flatten().collect()
    }

    /// The length of the query, if there were room.
    fn length(&self) -> usize {
        match &self.key {
            Key::ClientId(id) => 240 + 3 + 2 + id.len() + 1,
            _ => 240 + 3 + 1,
        }
    }
}

/// A key that is refused.
fn refused_key(random: &mut Random) -> Key {
    let hardware = random.pick(&[0, 0, 17, 17, 18, 19, 20, 255, 256, 262, 65_542]);
    let id = random.pick(&[0, 0, 1, 1, 256, 257, 258, 300, 65_538]);
    let mut octets = vec![0; hardware.max(id)];
    if !random.one_in(4) {
        random.fill(&mut octets);
    }
    match random.below(5) {
        0 => Key::Address(0),
        1 | 2 => {
            octets.truncate(hardware);
            let htype = random.pick(&[0, 1, 255]);
            Key::Hardware { htype, octets }
        }
        _ => {
            octets.truncate(id);
            Key::ClientId(octets)
        }
    }
}

/// Some octets, or zeros.
fn some_octets(random: &mut Random, count: usize) -> Vec<u8> {
    let mut octets = vec![0; count];
    if !random.one_in(3) {
        random.fill(&mut octets);
    }
    octets
}

impl Run<3> {
    /// Runs both programs on one case and compares the whole memories; what
    /// was written goes to the box.
    fn compare(&mut self, tables: &Tables, case: &Case) {
        let lengths = [case.key.octets().len(), case.room, REPLY_MIN];
        let given = [case.key.octets()];
        self.memory.lay_out(&mut self.random, lengths, &given);
        let fields = (case.xid, case.giaddr);
        let [lent, query, _] = self.memory.second();
        let expected = case.key.by_second(fields, lent, query);
        let [lent, query, _] = self.memory.product();
        let got = case.key.by_product(fields, lent, query);
        if got != query_answer(expected) || !self.memory.is_alike() {
            println!("second {expected:?}, product {got:?}, {case:02x?}");
            panic!("the programs differ, seed {}", self.random.seed);
        }
        self.count(case, expected);
        if let Ok(length) = expected {
            self.ask(tables, case, length);
        }
    }

    /// Asks both boxes what was written. They take it, and answer alike what
    /// is due to the key.
    fn ask(&mut self, tables: &Tables, case: &Case, length: usize) {
        let (now, table) = (case.now, &tables.second);
        let [_, query, reply] = self.memory.second();
        let expected = answer(now, table, case.server, &query[..length], reply);
        let [_, query, reply] = self.memory.product();
        let server = u32::from_be_bytes(case.server);
        let query = &query[..length];
        let got = raw::lease_query(Moment(now), tables.lent(), server, query, reply);
        let kind = case.key.kind(now, table);
        let due = expected.map(|(kind, _)| kind) == Ok(kind);
        if !due || got != lease_answer(expected) || !self.memory.is_alike() {
            println!("second {expected:?}, product {got:?}, due {kind}, {case:02x?}");
            println!("table {table:02x?}");
            panic!("the answers are wrong, seed {}", self.random.seed);
        }
        let told = ["unassigned", "unknown", "active"][usize::from(kind - 11)];
        let title = case.key.title();
        self.tally.count(&format!("box, {title}: {told}"));
        if case.key.octets().len() > 64 {
            self.tally.count("box, client id over 64 octets: unknown");
        }
    }

    fn count(&mut self, case: &Case, expected: Result<usize, u8>) {
        self.tally.cases += 1;
        let faults = case.faults();
        let fault = first(&ORDER, &faults);
        assert_eq!(fault.map(number), expected.err(), "{case:02x?}");
        match fault {
            Some(fault) => self.count_refusal(case, &faults, fault),
            None => {
                assert_eq!(expected, Ok(case.length()), "{case:02x?}");
                self.count_written(case);
            }
        }
    }

    /// Counts the reason of a refusal where it is the only one for its
    /// number.
    fn count_refusal(&mut self, case: &Case, faults: &[&str], fault: &str) {
        let reasons = faults.iter().filter(|other| number(other) == 19).count();
        match (number(fault), reasons) {
            (19, 2) => self.tally.count("19 for giaddr and key"),
            _ => self.tally.count(fault),
        }
        if has_another(faults, fault) {
            self.tally.count("19 ahead of 32");
        }
        if number(fault) == 32 && case.room >= case.length() {
            self.tally.count("32: though the query would fit");
        }
    }

    fn count_written(&mut self, case: &Case) {
        let tally = &mut self.tally;
        tally.count(&format!("written {}", case.key.title()));
        match case.room {
            QUERY_MIN => tally.count("buffer of 501 octets"),
            _ => tally.count("buffer over 501 octets"),
        }
        if case.xid == 0 {
            tally.count("xid 0");
        }
        match &case.key {
            Key::Address(_) => {}
            Key::Hardware { htype, octets } => self.count_hardware(*htype, octets),
            Key::ClientId(id) => self.count_id(id),
        }
    }

    fn count_hardware(&mut self, htype: u8, octets: &[u8]) {
        match octets.len() {
            1 => self.tally.count("hardware of 1 octet"),
            16 => self.tally.count("hardware of 16 octets"),
            _ => {}
        }
        let zeros = octets.iter().all(|&octet| octet == 0);
        match (htype == 0, zeros) {
            (true, true) => self.tally.count("hardware of type 0 and zeros"),
            (true, false) => self.tally.count("hardware of type 0"),
            (false, true) => self.tally.count("hardware of zeros"),
            (false, false) => {}
        }
    }

    fn count_id(&mut self, id: &[u8]) {
        match id.len() {
            2 => self.tally.count("client id of 2 octets"),
            64 => self.tally.count("client id of 64 octets"),
            65..=254 => self.tally.count("client id of 65 to 254 octets"),
            255 => self.tally.count("client id of 255 octets"),
            _ => {}
        }
    }

    /// A table with its clients, and the moment that it was made about.
    fn table(&mut self) -> (u64, Vec<Client>, Vec<Lease>) {
        let about = leases::about(&mut self.random);
        let clients = leases::clients(&mut self.random);
        let table = leases::table(&mut self.random, &clients, about);
        (about, clients, table)
    }

    /// All cases with one table, at times on a small stack.
    fn write_all(&mut self, table: Vec<Lease>, cases: &[Case]) {
        let tables = Tables::new(&mut self.random, table);
        self.compare_all(cases, |run, case| run.compare(&tables, case));
        tables.assert_untouched();
    }

    /// Many queries to one box; some are refused.
    fn group(&mut self) {
        let (about, clients, table) = self.table();
        let mut cases = Vec::new();
        for _ in 0..30 {
            let mut case = Case::sound(&mut self.random, about, &table, &clients);
            if self.random.one_in(5) {
                case.key = refused_key(&mut self.random);
            }
            if self.random.one_in(10) {
                case.giaddr = 0;
            }
            if self.random.one_in(6) {
                case.room = self.random.pick(&SHORT);
            }
            cases.push(case);
        }
        self.write_all(table, &cases);
    }

    /// Every length of a hardware address and of a client id about and beyond
    /// their limits, in buffers at the limit.
    fn key_lengths(&mut self) {
        let (about, clients, table) = self.table();
        let mut case = Case::sound(&mut self.random, about, &table, &clients);
        let mut cases = Vec::new();
        for count in 0..=320 {
            let htype = self.random.pick(&[0, 1, 6, 255]);
            let octets = some_octets(&mut self.random, count);
            let by_hardware = Key::Hardware {
                htype,
                octets: octets.clone(),
            };
            case.room = self.random.pick(&[500, 501, 501, 501, 502]);
            let keys = [by_hardware, Key::ClientId(octets)];
            cases.extend(keys.map(|key| Case {
                key,
                ..case.clone()
            }));
        }
        self.write_all(table, &cases);
    }

    /// A key of each sort in buffers of every length about the limit.
    fn rooms(&mut self) {
        let (about, clients, table) = self.table();
        let mut cases = Vec::new();
        for room in (480..=520).chain([0, 1, 239, 240, 243, 244, 245, 1_499, 1_500]) {
            let mut case = Case::sound(&mut self.random, about, &table, &clients);
            case.room = room;
            let octets = self.random.between(1, 16);
            let id = self.random.pick(&[2, 17, 64, 65, 254, 255]);
            let by_hardware = Key::Hardware {
                htype: self.random.octet(),
                octets: some_octets(&mut self.random, octets),
            };
            let by_id = Key::ClientId(some_octets(&mut self.random, id));
            cases.extend([Key::Address(1), by_hardware, by_id].map(|key| Case {
                key,
                ..case.clone()
            }));
            cases.push(case);
        }
        self.write_all(table, &cases);
    }

    fn whole(mut self) {
        for _ in 0..60 {
            self.key_lengths();
            self.rooms();
        }
        while self.tally.cases < QUERIES {
            self.group();
        }
        let title = format!("seed {}, queries of the desk", self.random.seed);
        self.tally.report(&title, QUERIES, EACH);
    }
}

#[test]
fn queries_are_the_same() {
    from_both_seeds(|seed| Run::new(seed, KINDS).whole());
}
