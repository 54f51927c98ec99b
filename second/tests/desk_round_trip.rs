//! A query that the desk writes, the box's reply to it, and what the desk
//! reads there: by the product and by the second program. Both read what the
//! lease table says. The desk's own query is answered in full; with a request
//! list put into it, a time is read exactly if it is listed.

mod common;

use common::desk_keys::Key;
use common::leases::{self, Client};
use common::options::codes;
use common::product::lease_reading;
use common::random::{from_both_seeds, Random};
use common::request_lists::{set_kinds, set_of, some_list, LIST_MAX};
use common::run::Run;
use common::tables::Tables;
use jespurla::raw::{self, Moment};
use second::desk_query::QUERY_MIN;
use second::desk_reply::{read, Reading, ASSOCIATED_MAX};
use second::lease_query::{answer, Lease, REPLY_MIN};
use second::NEVER;

/// Round trips of one run, at the least.
const TRIPS: usize = 300_000;
/// Cases of each kind, at the least.
const EACH: usize = 1_000;
/// Fixed fields that the box copies or ignores: hops; secs and flags; yiaddr
/// and siaddr; sname and file.
const UNREAD: [(usize, usize); 4] = [(3, 4), (8, 12), (16, 24), (44, 236)];

/// Kinds of cases beside the sets of options that a reply to a list has.
const KINDS: &[&str] = &[
    "by address: active",
    "by address: unassigned",
    "by address: unknown",
    "by hardware: active",
    "by hardware: unknown",
    "by client id: active",
    "by client id: unknown",
    "client id over 64 octets",
    "other fixed fields filled",
    "chaddr past hlen, unknown",
    "left: without end",
    "left: capped",
    "left: 4,294,967,294",
    "left: less",
    "since: moment to come",
    "since: capped",
    "since: 4,294,967,295",
    "since: less",
    "record with hardware",
    "record without hardware",
    "record with client id",
    "record without client id",
    "record with relay information",
    "record without relay information",
    "by address, no addresses",
    "by client, no addresses",
    "2 addresses",
    "3 to 62 addresses",
    "63 addresses",
    "63 addresses of more",
    "by address: answered in full",
    "by hardware: answered in full",
    "by client id: answered in full",
    "by address: with a list",
    "by hardware: with a list",
    "by client id: with a list",
    "list ahead of the other options",
    "list behind option 53",
    "list ahead of the end option",
    "unassigned, with a list",
    "unknown, with a list",
    "no list: left and since",
    "list: left and since",
    "list: left alone",
    "list: since alone",
    "list: neither left nor since",
    "on a small stack",
];

/// What one desk asks, and the clock and the address of the box.
#[derive(Clone, Debug)]
struct Case {
    xid: u32,
    giaddr: u32,
    key: Key,
    now: u64,
    server: [u8; 4],
    /// What the fields that the box copies or ignores are filled with.
    noise: Option<[u8; 240]>,
    /// A request list that is put into the desk's query, and where.
    list: Option<(Vec<u8>, Place)>,
}

/// Where a request list stands in a query.
#[derive(Clone, Copy, Debug)]
enum Place {
    Ahead,
    Behind53,
    AtTheEnd,
}

impl Case {
    fn new(random: &mut Random, about: u64, table: &[Lease], clients: &[Client]) -> Case {
        let mut noise = [0; 240];
        random.fill(&mut noise);
        let place = random.pick(&[Place::Ahead, Place::Behind53, Place::AtTheEnd]);
        let list = some_list(random, LIST_MAX);
        Case {
            xid: random.next() as u32,
            giaddr: random.next() as u32 | 1,
            key: Key::sound(random, table, clients),
            now: leases::clock(random, about),
            server: (random.next() as u32).to_be_bytes(),
            noise: random.one_in(2).then_some(noise),
            list: (!random.one_in(3)).then_some((list, place)),
        }
    }

    /// Octets that the request list takes in a query.
    fn list_size(&self) -> usize {
        self.list.as_ref().map_or(0, |(list, _)| 2 + list.len())
    }

    /// Puts the request list, if there is one, into a query of this length;
    /// the length it has then.
    fn put_list(&self, query: &mut [u8], length: usize) -> usize {
        let Some((list, place)) = &self.list else {
            return length;
        };
        let at = match place {
            Place::Ahead => 240,
            Place::Behind53 => 243,
            Place::AtTheEnd => length - 1,
        };
        let size = self.list_size();
        query.copy_within(at..length, at + size);
        query[at..at + 2].copy_from_slice(&[55, list.len() as u8]);
        query[at + 2..at + size].copy_from_slice(list);
        length + size
    }

    /// Whether the query lets an option of the record go out.
    fn asks_for(&self, code: u8) -> bool {
        let list = self.list.as_ref();
        list.is_none_or(|(list, _)| list.contains(&code))
    }

    /// Fills the fields of a query that the box copies or ignores. With a
    /// hardware key the octets past the address are among them.
    fn fill(&self, query: &mut [u8]) {
        let Some(noise) = &self.noise else {
            return;
        };
        let past = match &self.key {
            Key::Hardware { octets, .. } => (28 + octets.len(), 44),
            _ => (44, 44),
        };
        for (from, to) in UNREAD.into_iter().chain([past]) {
            query[from..to].copy_from_slice(&noise[from..to]);
        }
    }

    /// What the desk is to read: the record that answers or, without one, the
    /// key as it stands in the query.
    fn due(&self, table: &[Lease], query: &[u8]) -> Reading {
        let active = self.key.active(self.now, table);
        let mut due = Reading {
            kind: self.key.kind(self.now, table),
            address: u32::from_be_bytes(query[12..16].try_into().expect("four octets")),
            htype: query[1],
            hlen: query[2],
            chaddr: query[28..44].try_into().expect("16 octets"),
            left: None,
            since: None,
            addresses: [0; ASSOCIATED_MAX],
            count: 0,
        };
        if let Some(lease) = active.first() {
            (due.address, due.htype) = (lease.address, lease.htype);
            (due.hlen, due.chaddr) = (lease.hlen, lease.chaddr);
            due.left = self.asks_for(51).then(|| left(lease, self.now));
            due.since = self.asks_for(91).then(|| since(lease, self.now));
        }
        if active.len() > 1 {
            due.count = active.len().min(ASSOCIATED_MAX);
            let places = due.addresses.iter_mut().zip(&active);
            places.for_each(|(place, lease)| *place = lease.address);
        }
        due
    }

    /// Checks that the desk's own query has no request list, and that its
    /// reply has all that there is to say.
    fn assert_in_full(&self, table: &[Lease], query: &[u8], reply: &[u8]) {
        let id = matches!(self.key, Key::ClientId(_));
        assert_eq!(codes(query), if id { vec![53, 61] } else { vec![53] });
        let active = self.key.active(self.now, table);
        let mut due = vec![53, 54];
        if let Some(lease) = active.first() {
            due.push(51);
            due.extend((lease.id_len > 0).then_some(61));
            due.extend((lease.relay_len > 0).then_some(82));
            due.push(91);
            due.extend((active.len() > 1).then_some(92));
        }
        assert_eq!(codes(reply), due, "{self:02x?}");
    }
}

/// Seconds to the expiry of an active lease, as a reply says them.
fn left(lease: &Lease, now: u64) -> u32 {
    match lease.expiry {
        NEVER => 4_294_967_295,
        expiry => u32::try_from(expiry - now).map_or(4_294_967_294, |span| span.min(4_294_967_294)),
    }
}

/// Seconds since the last transaction, as a reply says them.
fn since(lease: &Lease, now: u64) -> u32 {
    match now.checked_sub(lease.last_transaction) {
        None => 0,
        Some(span) => u32::try_from(span).unwrap_or(4_294_967_295),
    }
}

impl Run<3> {
    /// The round trip by each program, each from its own memory.
    fn compare(&mut self, tables: &Tables, case: &Case) {
        let room = QUERY_MIN + case.list_size();
        let lengths = [case.key.octets().len(), room, REPLY_MIN];
        let given = [case.key.octets()];
        self.memory.lay_out(&mut self.random, lengths, &given);
        let expected = self.by_second(tables, case);
        let got = self.by_product(tables, case);
        let [_, query, _] = self.memory.second();
        let due = case.due(&tables.second, query);
        if expected != Ok(due) || got != lease_reading(Ok(due)) || !self.memory.is_alike() {
            println!("second {expected:?}, product {got:?}, due {due:?}, {case:02x?}");
            println!("table {:02x?}", tables.second);
            panic!("another reading than is due, seed {}", self.random.seed);
        }
        self.count(&tables.second, case, &due);
        self.count_list(&tables.second, case, &due);
    }

    fn by_second(&mut self, tables: &Tables, case: &Case) -> Result<Reading, u8> {
        let [lent, query, reply] = self.memory.second();
        let length = case.key.by_second((case.xid, case.giaddr), lent, query)?;
        case.fill(query);
        let length = case.put_list(query, length);
        let query = &query[..length];
        let (_, length) = answer(case.now, &tables.second, case.server, query, reply)?;
        read(case.xid, &reply[..length])
    }

    fn by_product(&mut self, tables: &Tables, case: &Case) -> raw::LeaseReading {
        let [lent, query, reply] = self.memory.product();
        let written = case.key.by_product((case.xid, case.giaddr), lent, query);
        assert_eq!(written.refusal, 0, "{case:02x?}");
        case.fill(query);
        let length = case.put_list(query, written.length as usize);
        let query = &query[..length];
        let server = u32::from_be_bytes(case.server);
        let told = raw::lease_query(Moment(case.now), tables.lent(), server, query, reply);
        assert_eq!(told.refusal, 0, "{case:02x?}");
        raw::lease_reply_read(case.xid, &reply[..told.length as usize])
    }

    fn count(&mut self, table: &[Lease], case: &Case, due: &Reading) {
        let tally = &mut self.tally;
        tally.cases += 1;
        let kind = ["unassigned", "unknown", "active"][usize::from(due.kind - 11)];
        tally.count(&format!("{}: {kind}", case.key.title()));
        if case.key.octets().len() > 64 {
            tally.count("client id over 64 octets");
        }
        if case.noise.is_some() {
            tally.count("other fixed fields filled");
        }
        let past = &due.chaddr[usize::from(due.hlen)..];
        if due.kind == 12 && past.iter().any(|&octet| octet != 0) {
            tally.count("chaddr past hlen, unknown");
        }
        if let Some(lease) = case.key.active(case.now, table).first() {
            self.count_record(lease);
            self.count_addresses(table, case, due);
            if due.left.is_some() {
                self.count_left(lease, case.now);
            }
            if due.since.is_some() {
                self.count_since(lease, case.now);
            }
        }
    }

    /// Counts what a request list did, or that there was none.
    fn count_list(&mut self, table: &[Lease], case: &Case, due: &Reading) {
        let [_, query, reply] = self.memory.second();
        let title = case.key.title();
        if let Some((_, place)) = case.list {
            let reply = codes(reply);
            self.tally.count(&format!("{title}: with a list"));
            self.tally.count(match place {
                Place::Ahead => "list ahead of the other options",
                Place::Behind53 => "list behind option 53",
                Place::AtTheEnd => "list ahead of the end option",
            });
            if due.kind == 13 {
                let sent = set_of(|code| reply.contains(&code));
                self.tally.count(&format!("sent of what is listed: {sent}"));
            }
        } else {
            case.assert_in_full(table, query, reply);
            self.tally.count(&format!("{title}: answered in full"));
        }
        self.count_times(case.list.is_some(), due);
    }

    fn count_times(&mut self, listed: bool, due: &Reading) {
        let kind = match (due.kind, due.left, due.since) {
            (13, Some(_), Some(_)) if !listed => "no list: left and since",
            (13, Some(_), Some(_)) => "list: left and since",
            (13, Some(_), None) => "list: left alone",
            (13, None, Some(_)) => "list: since alone",
            (13, None, None) => "list: neither left nor since",
            (11, ..) if listed => "unassigned, with a list",
            _ if listed => "unknown, with a list",
            _ => return,
        };
        self.tally.count(kind);
    }

    fn count_record(&mut self, lease: &Lease) {
        for (length, part) in [
            (lease.hlen, "hardware"),
            (lease.id_len, "client id"),
            (lease.relay_len, "relay information"),
        ] {
            let with = if length > 0 { "with" } else { "without" };
            self.tally.count(&format!("record {with} {part}"));
        }
    }

    fn count_left(&mut self, lease: &Lease, now: u64) {
        let greatest = u64::from(u32::MAX) - 1;
        let kind = match lease.expiry {
            NEVER => "left: without end",
            expiry if expiry - now > greatest => "left: capped",
            expiry if expiry - now == greatest => "left: 4,294,967,294",
            _ => "left: less",
        };
        self.tally.count(kind);
    }

    fn count_since(&mut self, lease: &Lease, now: u64) {
        let greatest = u64::from(u32::MAX);
        let kind = match lease.last_transaction {
            last if last > now => "since: moment to come",
            last if now - last > greatest => "since: capped",
            last if now - last == greatest => "since: 4,294,967,295",
            _ => "since: less",
        };
        self.tally.count(kind);
    }

    fn count_addresses(&mut self, table: &[Lease], case: &Case, due: &Reading) {
        let active = case.key.active(case.now, table).len();
        let kind = match (&case.key, due.count) {
            (Key::Address(_), _) => "by address, no addresses",
            (_, 0) => "by client, no addresses",
            (_, 2) => "2 addresses",
            (_, 63) if active > 63 => "63 addresses of more",
            (_, 63) => "63 addresses",
            _ => "3 to 62 addresses",
        };
        self.tally.count(kind);
    }

    /// Many round trips to one box, at times on a small stack.
    fn group(&mut self) {
        let random = &mut self.random;
        let about = leases::about(random);
        let clients = leases::clients(random);
        let table = leases::table(random, &clients, about);
        let cases = (0..30).map(|_| Case::new(random, about, &table, &clients));
        let cases: Vec<Case> = cases.collect();
        let tables = Tables::new(random, table);
        self.compare_all(&cases, |run, case| run.compare(&tables, case));
        tables.assert_untouched();
    }

    fn whole(mut self) {
        while self.tally.cases < TRIPS {
            self.group();
        }
        let title = format!("seed {}, round trips of the desk", self.random.seed);
        self.tally.report(&title, TRIPS, EACH);
    }
}

#[test]
fn replies_are_read_back() {
    let kinds = [KINDS, &set_kinds("sent of what is listed")].concat();
    from_both_seeds(|seed| Run::new(seed, &kinds).whole());
}
