//! The DHCPv4 lease query (document 01, "Lease table and queries", with
//! document 02, e).
//!
//! A relay asks by address, by hardware address or by client id; the answer
//! is read from a lent table of leases. What it tells of a lease is cut down
//! to the options that the query lists, if it has a list.

use std::cmp::Reverse;

use crate::packet::{
    is_packet, number_at, walk_options, Writer, ASSOCIATED_IP, ASSOCIATED_MAX, CHADDR, CIADDR,
    CLIENT_ID, COOKIE, END, FLAGS, GIADDR, HLEN, HTYPE, LAST_TRANSACTION, LEASEQUERY, LEASE_TIME,
    MAGIC, MESSAGE_TYPE, OP, OPTIONS, RELAY_INFORMATION, REPLY, REQUEST, REQUEST_LIST, SERVER_ID,
    XID,
};
use crate::{is_expiry, LATEST_MOMENT, NEVER};

/// Records a table may have.
pub const TABLE_MAX: usize = 256;
/// Least room for a reply: the fixed fields and the longest options.
pub const REPLY_MIN: usize = 648;

/// Message types of the replies.
pub const LEASEUNASSIGNED: u8 = 11;
pub const LEASEUNKNOWN: u8 = 12;
pub const LEASEACTIVE: u8 = 13;

/// Option 51 keeps its greatest number for leases without end.
const LONGEST_SPAN: u64 = u32::MAX as u64 - 1;

/// One record of the table.
#[derive(Clone, Copy, PartialEq, Eq, Debug)]
pub struct Lease {
    /// The address as a number, most significant octet first.
    pub address: u32,
    /// 0 free, 1 leased; other numbers break the form.
    pub state: u8,
    pub htype: u8,
    pub hlen: u8,
    /// Zero past `hlen`.
    pub chaddr: [u8; 16],
    pub id_len: u8,
    /// Octets past `id_len` are ignored.
    pub id: [u8; 64],
    pub relay_len: u8,
    /// Octets past `relay_len` are ignored.
    pub relay: [u8; 64],
    pub last_transaction: u64,
    /// A moment or never; other numbers break the form.
    pub expiry: u64,
}

impl Lease {
    /// The record's own form; the order of addresses is the table's.
    fn is_well_formed(&self) -> bool {
        self.state <= 1
            && self.hlen <= 16
            && (self.hlen > 0 || self.htype == 0)
            && self.chaddr[usize::from(self.hlen)..] == [0; 16][usize::from(self.hlen)..]
            && self.id_len != 1
            && self.id_len <= 64
            && self.relay_len <= 64
            && self.last_transaction <= LATEST_MOMENT
            && is_expiry(self.expiry)
    }

    /// A lease ends at its expiry moment, not after it.
    fn is_active(&self, now: u64) -> bool {
        self.state == 1 && self.expiry > now
    }

    fn hardware(&self) -> &[u8] {
        &self.chaddr[..usize::from(self.hlen)]
    }

    fn client_id(&self) -> &[u8] {
        &self.id[..usize::from(self.id_len)]
    }

    fn relay_information(&self) -> &[u8] {
        &self.relay[..usize::from(self.relay_len)]
    }

    /// Option 51: seconds to the expiry.
    fn seconds_left(&self, now: u64) -> u32 {
        if self.expiry == NEVER {
            return u32::MAX;
        }
        (self.expiry - now).min(LONGEST_SPAN) as u32
    }

    /// Option 91: seconds since the last transaction, 0 if that is to come.
    fn seconds_since_transaction(&self, now: u64) -> u32 {
        let span = now.saturating_sub(self.last_transaction);
        span.min(u64::from(u32::MAX)) as u32
    }
}

/// The table's form: refusal 9 unless it is at most 256 sound records with
/// addresses that rise from above 0.
fn check_table(table: &[Lease]) -> Result<(), u8> {
    let mut last = 0;
    let sound = table.len() <= TABLE_MAX
        && table.iter().all(|lease| {
            let rises = lease.address > last;
            last = lease.address;
            rises && lease.is_well_formed()
        });
    if sound {
        Ok(())
    } else {
        Err(9)
    }
}

/// The options of a query that are read.
#[derive(Default)]
struct Options<'a> {
    message_type: Option<&'a [u8]>,
    request_list: Option<&'a [u8]>,
    client_id: Option<&'a [u8]>,
}

/// Walks the options up to the end option; refusal 3 where they are cut, one
/// of those that are read comes twice, or the request list is empty.
fn read_options(area: &[u8]) -> Result<Options<'_>, u8> {
    let mut options = Options::default();
    let mut repeated = false;
    let whole = walk_options(area, |code, value| {
        let before = match code {
            MESSAGE_TYPE => options.message_type.replace(value),
            REQUEST_LIST => options.request_list.replace(value),
            CLIENT_ID => options.client_id.replace(value),
            _ => None,
        };
        repeated |= before.is_some();
    });
    if whole && !repeated && options.request_list != Some(&[]) {
        Ok(options)
    } else {
        Err(3)
    }
}

/// What a query asks by.
pub(crate) enum Key<'a> {
    Address(u32),
    Hardware { htype: u8, address: &'a [u8] },
    ClientId(&'a [u8]),
}

impl Key<'_> {
    /// Whether a record belongs to this client. An id longer than a record
    /// can hold equals none.
    fn matches(&self, lease: &Lease) -> bool {
        match *self {
            Key::Address(address) => lease.address == address,
            Key::Hardware { htype, address } => lease.htype == htype && lease.hardware() == address,
            Key::ClientId(id) => lease.client_id() == id,
        }
    }
}

/// The one key of a query: refusal 6 unless there is exactly one, refusal 7
/// where its length can't be.
fn read_key<'a>(query: &'a [u8], client_id: Option<&'a [u8]>) -> Result<Key<'a>, u8> {
    let ciaddr = number_at(query, CIADDR);
    let chaddr = &query[CHADDR..CHADDR + 16];
    let (htype, hlen) = (query[HTYPE], usize::from(query[HLEN]));
    let hardware = htype != 0 || hlen != 0 || *chaddr != [0; 16];
    match (ciaddr != 0, hardware, client_id) {
        (true, false, None) => Ok(Key::Address(ciaddr)),
        (false, true, None) if hlen == 0 || hlen > 16 => Err(7),
        (false, true, None) => Ok(Key::Hardware {
            htype,
            address: &chaddr[..hlen],
        }),
        (false, false, Some(id)) if id.len() < 2 => Err(7),
        (false, false, Some(id)) => Ok(Key::ClientId(id)),
        _ => Err(6),
    }
}

/// A query that meets none of the refusals 1 to 7.
struct Query<'a> {
    packet: &'a [u8],
    key: Key<'a>,
    /// Option 55: the codes of the options that are asked for.
    request_list: Option<&'a [u8]>,
}

impl<'a> Query<'a> {
    /// Reads a query, with the refusals 1 to 7 in their order.
    fn read(packet: &'a [u8]) -> Result<Query<'a>, u8> {
        if !is_packet(packet) {
            return Err(1);
        }
        if packet[OP] != REQUEST {
            return Err(2);
        }
        let options = read_options(&packet[OPTIONS..])?;
        if options.message_type != Some(&[LEASEQUERY]) {
            return Err(4);
        }
        if number_at(packet, GIADDR) == 0 {
            return Err(5);
        }
        Ok(Query {
            packet,
            key: read_key(packet, options.client_id)?,
            request_list: options.request_list,
        })
    }

    /// Whether an option of the record may go out: all may where there is no
    /// list.
    fn asks_for(&self, code: u8) -> bool {
        self.request_list.is_none_or(|codes| codes.contains(&code))
    }
}

/// The places of a client's active records, best first. The table rises by
/// address, so the lower place is the lower address.
struct Ranking {
    places: [u16; TABLE_MAX],
    count: usize,
}

impl Ranking {
    fn new(now: u64, table: &[Lease], key: &Key) -> Ranking {
        let mut ranking = Ranking {
            places: [0; TABLE_MAX],
            count: 0,
        };
        for (place, lease) in table.iter().enumerate() {
            if key.matches(lease) && lease.is_active(now) {
                ranking.places[ranking.count] = place as u16;
                ranking.count += 1;
            }
        }
        ranking.places[..ranking.count].sort_unstable_by_key(|&place| {
            (Reverse(table[usize::from(place)].last_transaction), place)
        });
        ranking
    }

    fn places(&self) -> &[u16] {
        &self.places[..self.count]
    }
}

/// What a reply is written of.
impl Writer<'_> {
    /// The fixed fields; the client's come from the active record or, if
    /// there is none, from the query.
    fn fixed(&mut self, query: &[u8], lease: Option<&Lease>) {
        let reply = &mut self.packet[..OPTIONS];
        reply.fill(0);
        reply[OP] = REPLY;
        for field in [XID..XID + 4, FLAGS..FLAGS + 2, GIADDR..GIADDR + 4] {
            reply[field.clone()].copy_from_slice(&query[field]);
        }
        if let Some(lease) = lease {
            reply[HTYPE] = lease.htype;
            reply[HLEN] = lease.hlen;
            reply[CIADDR..CIADDR + 4].copy_from_slice(&lease.address.to_be_bytes());
            reply[CHADDR..CHADDR + 16].copy_from_slice(&lease.chaddr);
        } else {
            for field in [HTYPE..HLEN + 1, CIADDR..CIADDR + 4, CHADDR..CHADDR + 16] {
                reply[field.clone()].copy_from_slice(&query[field]);
            }
        }
        reply[COOKIE..].copy_from_slice(&MAGIC);
        self.at = OPTIONS;
    }

    /// The options that tell of an active lease: those that the record has
    /// and the query asks for.
    fn lease(&mut self, now: u64, lease: &Lease, query: &Query) {
        let left = lease.seconds_left(now).to_be_bytes();
        let since = lease.seconds_since_transaction(now).to_be_bytes();
        let options: [(u8, &[u8]); 4] = [
            (LEASE_TIME, &left),
            (CLIENT_ID, lease.client_id()),
            (RELAY_INFORMATION, lease.relay_information()),
            (LAST_TRANSACTION, &since),
        ];
        for (code, value) in options {
            if !value.is_empty() && query.asks_for(code) {
                self.option(code, value);
            }
        }
    }

    /// All the client's active addresses, where there are two or more. They
    /// need not be listed.
    fn associated(&mut self, table: &[Lease], places: &[u16]) {
        if places.len() < 2 {
            return;
        }
        let sent = &places[..places.len().min(ASSOCIATED_MAX)];
        self.octets(&[ASSOCIATED_IP, 4 * sent.len() as u8]);
        for &place in sent {
            self.octets(&table[usize::from(place)].address.to_be_bytes());
        }
    }
}

/// Answers a query from the table at moment `now`, at the front of `reply`.
/// Returns the message type and the octets written.
///
/// Refusals in the order of document 01, "Refusal numbers": 15, 9, 8, then 1
/// to 7.
pub fn answer(
    now: u64,
    table: &[Lease],
    server: [u8; 4],
    query: &[u8],
    reply: &mut [u8],
) -> Result<(u8, usize), u8> {
    if now > LATEST_MOMENT {
        return Err(15);
    }
    check_table(table)?;
    if reply.len() < REPLY_MIN {
        return Err(8);
    }
    let query = Query::read(query)?;
    let mut writer = Writer {
        packet: reply,
        at: 0,
    };
    let kind = match query.key {
        Key::Address(address) => by_address(&mut writer, now, table, server, &query, address),
        _ => by_client(&mut writer, now, table, server, &query),
    };
    writer.octets(&[END]);
    Ok((kind, writer.at))
}

/// The part every reply has.
fn start(writer: &mut Writer, query: &Query, lease: Option<&Lease>, kind: u8, server: [u8; 4]) {
    writer.fixed(query.packet, lease);
    writer.option(MESSAGE_TYPE, &[kind]);
    writer.option(SERVER_ID, &server);
}

/// By address the record itself decides, and a record that isn't active
/// still tells that the address is ours.
fn by_address(
    writer: &mut Writer,
    now: u64,
    table: &[Lease],
    server: [u8; 4],
    query: &Query,
    address: u32,
) -> u8 {
    let found = table.binary_search_by_key(&address, |lease| lease.address);
    let lease = found.ok().map(|place| &table[place]);
    let active = lease.filter(|lease| lease.is_active(now));
    let kind = match (lease, active) {
        (_, Some(_)) => LEASEACTIVE,
        (Some(_), None) => LEASEUNASSIGNED,
        (None, None) => LEASEUNKNOWN,
    };
    start(writer, query, active, kind, server);
    if let Some(lease) = active {
        writer.lease(now, lease, query);
    }
    kind
}

/// By client only active records count, and the best of them answers.
fn by_client(writer: &mut Writer, now: u64, table: &[Lease], server: [u8; 4], query: &Query) -> u8 {
    let ranking = Ranking::new(now, table, &query.key);
    let Some(&best) = ranking.places().first() else {
        start(writer, query, None, LEASEUNKNOWN, server);
        return LEASEUNKNOWN;
    };
    let lease = &table[usize::from(best)];
    start(writer, query, Some(lease), LEASEACTIVE, server);
    writer.lease(now, lease, query);
    writer.associated(table, ranking.places());
    LEASEACTIVE
}

#[cfg(test)]
mod tests {
    use super::*;

    const SERVER: [u8; 4] = [192, 0, 2, 1];
    const MAC: [u8; 6] = [2, 4, 6, 8, 10, 12];

    fn lease(address: u32) -> Lease {
        let mut lease = Lease {
            address,
            state: 1,
            htype: 1,
            hlen: 6,
            chaddr: [0; 16],
            id_len: 3,
            id: [7; 64],
            relay_len: 2,
            relay: [9; 64],
            last_transaction: 900,
            expiry: 2_000,
        };
        lease.chaddr[..6].copy_from_slice(&MAC);
        lease
    }

    /// A query without a key, giaddr set, with these options.
    fn query(options: &[u8]) -> Vec<u8> {
        let mut query = vec![0; 240];
        query[0] = 1;
        query[3] = 5;
        query[XID..XID + 4].copy_from_slice(&[1, 2, 3, 4]);
        query[8] = 6;
        query[FLAGS] = 0x80;
        query[GIADDR..GIADDR + 4].copy_from_slice(&[10, 0, 0, 1]);
        query[COOKIE..].copy_from_slice(&MAGIC);
        query.extend(options);
        query
    }

    fn by_address(address: u32) -> Vec<u8> {
        let mut query = query(&[53, 1, 10, 255]);
        query[CIADDR..CIADDR + 4].copy_from_slice(&address.to_be_bytes());
        query
    }

    fn by_hardware() -> Vec<u8> {
        let mut query = query(&[53, 1, 10, 255]);
        query[HTYPE] = 1;
        query[HLEN] = 6;
        query[CHADDR..CHADDR + 6].copy_from_slice(&MAC);
        query
    }

    fn ask(now: u64, table: &[Lease], query: &[u8]) -> (u8, Vec<u8>) {
        let mut reply = [0xee; 700];
        let (kind, length) = answer(now, table, SERVER, query, &mut reply).unwrap();
        assert!(reply[length..].iter().all(|&octet| octet == 0xee));
        assert_eq!(
            reply[OPTIONS..OPTIONS + 9],
            [53, 1, kind, 54, 4, 192, 0, 2, 1]
        );
        (kind, reply[..length].to_vec())
    }

    fn refusal(table: &[Lease], query: &[u8]) -> u8 {
        let mut reply = [0xee; 648];
        let refused = answer(1_000, table, SERVER, query, &mut reply).unwrap_err();
        assert_eq!(reply, [0xee; 648]);
        refused
    }

    #[test]
    fn by_address_active() {
        let (kind, reply) = ask(1_000, &[lease(5), lease(6)], &by_address(6));
        assert_eq!(kind, 13);
        let mut fixed = query(&[]);
        fixed[..4].copy_from_slice(&[2, 1, 6, 0]);
        fixed[8] = 0;
        fixed[CIADDR + 3] = 6;
        fixed[CHADDR..CHADDR + 6].copy_from_slice(&MAC);
        assert_eq!(reply[..240], fixed);
        let options = [
            51, 4, 0, 0, 3, 232, 61, 3, 7, 7, 7, 82, 2, 9, 9, 91, 4, 0, 0, 0, 100, 255,
        ];
        assert_eq!(reply[249..], options);
    }

    /// A query by address with a request list.
    fn listing(address: u32, codes: &[u8]) -> Vec<u8> {
        let list = [&[53, 1, 10, 55, codes.len() as u8], codes, &[255]].concat();
        let mut query = query(&list);
        query[CIADDR..CIADDR + 4].copy_from_slice(&address.to_be_bytes());
        query
    }

    #[test]
    fn listed_options_alone() {
        let options: [(u8, &[u8]); 4] = [
            (51, &[51, 4, 0, 0, 3, 232]),
            (61, &[61, 3, 7, 7, 7]),
            (82, &[82, 2, 9, 9]),
            (91, &[91, 4, 0, 0, 0, 100]),
        ];
        for chosen in 0..16 {
            let is_listed = |at: &usize| chosen >> at & 1 == 1;
            let listed = || (0..4).filter(is_listed).map(|at| options[at]);
            // Codes in another order than the reply's, twice, among others.
            let codes: Vec<u8> = listed().rev().map(|(code, _)| code).collect();
            let codes = [&codes, &[1, 92, 0, 255][..], &codes].concat();
            let expected: Vec<u8> = listed().flat_map(|(_, octets)| octets).copied().collect();
            let (kind, reply) = ask(1_000, &[lease(5)], &listing(5, &codes));
            assert_eq!(
                (kind, &reply[249..]),
                (13, &[&expected[..], &[255]].concat()[..])
            );
        }
    }

    #[test]
    fn listed_options_that_are_not_sent() {
        let bare = Lease {
            id_len: 0,
            relay_len: 0,
            ..lease(5)
        };
        let none = [255];
        assert_eq!(ask(1_000, &[bare], &listing(5, &[61, 82])).1[249..], none);
        let all = listing(5, &[51, 61, 82, 91, 92]);
        for (now, table, expected) in [(2_000, &[lease(5)][..], 11), (1_000, &[], 12)] {
            let (kind, reply) = ask(now, table, &all);
            assert_eq!((kind, &reply[249..]), (expected, &none[..]));
        }
    }

    #[test]
    fn option_92_without_being_listed() {
        let mut query = listing(0, &[3; 255]);
        query[HTYPE..HLEN + 1].copy_from_slice(&[1, 6]);
        query[CHADDR..CHADDR + 6].copy_from_slice(&MAC);
        let (_, reply) = ask(1_000, &[lease(5), lease(6)], &query);
        assert_eq!(reply[249..], [92, 8, 0, 0, 0, 5, 0, 0, 0, 6, 255]);
    }

    #[test]
    fn by_address_not_active() {
        let mut free = lease(5);
        free.state = 0;
        let table = [free, lease(7)];
        for (now, address, expected) in [
            (1_000, 5, 11),
            (2_000, 7, 11),
            (1_999, 7, 13),
            (1_000, 6, 12),
        ] {
            let (kind, reply) = ask(now, &table, &by_address(address));
            assert_eq!(kind, expected);
            if kind != 13 {
                assert_eq!(reply[249..], [255]);
                assert_eq!(reply[1..4], [0, 0, 0]);
                assert_eq!(number_at(&reply, CIADDR), address);
            }
        }
    }

    #[test]
    fn by_client_never_unassigned() {
        let mut free = lease(5);
        free.state = 0;
        let (kind, reply) = ask(1_000, &[free], &by_hardware());
        assert_eq!((kind, &reply[249..]), (12, &[255][..]));
        assert_eq!(
            reply[CHADDR..CHADDR + 16],
            by_hardware()[CHADDR..CHADDR + 16]
        );
        let id = query(&[61, 3, 7, 7, 7, 53, 1, 10, 255]);
        assert_eq!(ask(1_000, &[free], &id).0, 12);
        assert_eq!(ask(1_000, &[lease(5)], &id).0, 13);
    }

    #[test]
    fn p10_ties_go_to_the_lower_address() {
        let mut late = lease(9);
        late.last_transaction = 901;
        let (kind, reply) = ask(1_000, &[lease(5), lease(6)], &by_hardware());
        assert_eq!((kind, number_at(&reply, CIADDR)), (13, 5));
        assert_eq!(
            reply[reply.len() - 11..],
            [92, 8, 0, 0, 0, 5, 0, 0, 0, 6, 255]
        );
        let (_, reply) = ask(1_000, &[lease(5), lease(6), late], &by_hardware());
        assert_eq!(number_at(&reply, CIADDR), 9);
        let tail = [92, 12, 0, 0, 0, 9, 0, 0, 0, 5, 0, 0, 0, 6, 255];
        assert_eq!(reply[reply.len() - 15..], tail);
        // A single match, and a query by address, carry no option 92.
        assert_eq!(ask(1_000, &[lease(5)], &by_hardware()).1.len(), 271);
        assert_eq!(
            ask(1_000, &[lease(5), lease(6)], &by_address(5)).1.len(),
            271
        );
    }

    #[test]
    fn option_92_stops_at_63_and_the_reply_at_648() {
        let table: Vec<Lease> = (1..=256)
            .map(|address| Lease {
                id_len: 64,
                relay_len: 64,
                ..lease(address)
            })
            .collect();
        let (_, reply) = ask(1_000, &table, &by_hardware());
        assert_eq!(reply.len(), 648);
        assert_eq!(reply[648 - 255..][..2], [92, 252]);
        assert_eq!(number_at(&reply, 643), 63);
    }

    #[test]
    fn spans_at_their_limits() {
        let spans = |now, expiry, last_transaction| {
            let lease = Lease {
                expiry,
                last_transaction,
                id_len: 0,
                relay_len: 0,
                ..lease(5)
            };
            let (_, reply) = ask(now, &[lease], &by_address(5));
            assert_eq!((reply[249], reply[255], reply.len()), (51, 91, 262));
            (number_at(&reply, 251), number_at(&reply, 257))
        };
        assert_eq!(spans(0, NEVER, 1), (u32::MAX, 0));
        let long = 4_294_967_294;
        assert_eq!(spans(0, long, 0), (long as u32, 0));
        assert_eq!(spans(0, long + 1, 0), (long as u32, 0));
        assert_eq!(spans(0, LATEST_MOMENT, 0), (long as u32, 0));
        assert_eq!(spans(long + 2, NEVER, 0), (u32::MAX, u32::MAX));
        assert_eq!(spans(long + 2, NEVER, 2), (u32::MAX, long as u32));
    }

    #[test]
    fn keys_match_exactly() {
        let mut other = by_hardware();
        other[HTYPE] = 2;
        assert_eq!(ask(1_000, &[lease(5)], &other).0, 12);
        other[HTYPE] = 1;
        other[HLEN] = 5;
        assert_eq!(ask(1_000, &[lease(5)], &other).0, 12);
        // Octets past hlen take no part in the match.
        other[HLEN] = 6;
        other[CHADDR + 15] = 1;
        assert_eq!(ask(1_000, &[lease(5)], &other).0, 13);
        let mut long = vec![53, 1, 10, 61, 65];
        long.extend([7; 65]);
        long.push(255);
        let record = Lease {
            id_len: 64,
            ..lease(5)
        };
        assert_eq!(ask(1_000, &[record], &query(&long)).0, 12);
    }

    #[test]
    fn form_of_a_record() {
        let faults: [fn(&mut Lease); 12] = [
            |lease| lease.address = 0,
            |lease| lease.state = 2,
            |lease| lease.hlen = 17,
            |lease| lease.hlen = 5,
            |lease| (lease.hlen, lease.chaddr) = (0, [0; 16]),
            |lease| lease.chaddr[6] = 1,
            |lease| lease.id_len = 1,
            |lease| lease.id_len = 65,
            |lease| lease.relay_len = 65,
            |lease| lease.last_transaction = LATEST_MOMENT + 1,
            |lease| lease.expiry = LATEST_MOMENT + 1,
            |lease| lease.expiry = NEVER - 1,
        ];
        for fault in faults {
            let mut bad = lease(5);
            fault(&mut bad);
            assert_eq!(refusal(&[bad], &[]), 9);
        }
        let mut bare = lease(5);
        (bare.htype, bare.hlen, bare.chaddr) = (0, 0, [0; 16]);
        (bare.id_len, bare.relay_len) = (0, 0);
        assert_eq!(ask(1_000, &[bare], &by_address(5)).0, 13);
    }

    #[test]
    fn form_of_a_table() {
        assert_eq!(refusal(&[lease(5), lease(5)], &[]), 9);
        assert_eq!(refusal(&[lease(6), lease(5)], &[]), 9);
        let table: Vec<Lease> = (1..=257).map(lease).collect();
        assert_eq!(refusal(&table, &[]), 9);
        assert_eq!(refusal(&table[..256], &[]), 1);
    }

    #[test]
    fn refusals_15_9_8_come_first() {
        let late = LATEST_MOMENT + 1;
        let mut short = [1; 647];
        assert_eq!(answer(late, &[lease(0)], SERVER, &[], &mut short), Err(15));
        assert_eq!(answer(0, &[lease(0)], SERVER, &[], &mut short), Err(9));
        assert_eq!(answer(0, &[lease(1)], SERVER, &[], &mut short), Err(8));
        assert_eq!(answer(0, &[], SERVER, &[], &mut [1; 648]), Err(1));
        assert_eq!(short, [1; 647]);
    }

    #[test]
    fn refusals_1_and_2() {
        let mut long = query(&[53, 1, 10, 255]);
        long.resize(1_500, 0);
        long[CIADDR] = 1;
        assert_eq!(ask(0, &[], &long).0, 12);
        long.push(0);
        assert_eq!(refusal(&[], &long), 1);
        assert_eq!(refusal(&[], &query(&[])[..239]), 1);
        let mut cookie = query(&[]);
        cookie[0] = 2;
        cookie[239] = 0;
        assert_eq!(refusal(&[], &cookie), 1);
        cookie[239] = 99;
        assert_eq!(refusal(&[], &cookie), 2);
    }

    #[test]
    fn refusals_3_to_5() {
        let cut: [&[u8]; 11] = [
            &[],
            &[53, 1, 10],
            &[53],
            &[53, 1],
            &[12, 3, 255, 255],
            &[53, 1, 10, 53, 1, 10, 255],
            &[61, 0, 61, 0, 255],
            &[55, 0, 255],
            &[55, 1, 51, 53, 1, 10, 55, 1, 51, 255],
            &[53, 1, 10, 55, 2, 255],
            &[53, 1, 10, 55],
        ];
        for options in cut {
            assert_eq!(refusal(&[], &query(options)), 3);
        }
        for options in [
            &[255][..],
            &[53, 0, 255],
            &[53, 2, 10, 0, 255],
            &[53, 1, 11, 255],
            &[55, 1, 0, 255, 55, 0],
        ] {
            assert_eq!(refusal(&[], &query(options)), 4);
        }
        let mut nowhere = query(&[0, 0, 53, 1, 10, 255, 53, 9]);
        assert_eq!(refusal(&[], &nowhere), 6);
        nowhere[GIADDR..GIADDR + 4].fill(0);
        assert_eq!(refusal(&[], &nowhere), 5);
    }

    #[test]
    fn refusals_6_and_7() {
        let mut two = by_hardware();
        two[CIADDR] = 1;
        assert_eq!(refusal(&[], &two), 6);
        two[HLEN] = 17;
        assert_eq!(refusal(&[], &two), 6);
        two[CIADDR] = 0;
        assert_eq!(refusal(&[], &two), 7);
        two[HLEN] = 0;
        assert_eq!(refusal(&[], &two), 7);
        let mut both = query(&[53, 1, 10, 61, 1, 7, 255]);
        assert_eq!(refusal(&[], &both), 7);
        both[HTYPE] = 1;
        assert_eq!(refusal(&[], &both), 6);
        assert_eq!(refusal(&[], &query(&[53, 1, 10, 61, 0, 255])), 7);
    }
}
