//! Compares the product's lease query call with the second program.

mod common;

use common::damage::damaged;
use common::faults::{first, has_another, number};
use common::leases::{self, Client};
use common::moments::no_clock;
use common::options::{codes, option};
use common::product::lease_answer;
use common::queries::Query;
use common::random::from_both_seeds;
use common::request_lists::{set_kinds, set_of, LISTABLE, LIST_MAX};
use common::run::Run;
use common::tables::Tables;
use common::tally::Tally;
use jespurla::raw::{self, LeaseAnswer, Moment};
use second::lease_query::{answer, Lease, REPLY_MIN};
use second::NEVER;

/// Queries compared by one run, at the least.
const QUERIES: usize = 600_000;
/// Cases of each kind, at the least.
const EACH: usize = 1_000;
/// Refusals in the order in which they are given.
const ORDER: [u8; 10] = [15, 9, 8, 1, 2, 3, 4, 5, 6, 7];
/// The options that the box writes, in its order.
const WRITTEN: [u8; 8] = [53, 54, 51, 61, 82, 91, 92, 255];

/// Faults of the request list by itself.
const LIST_FAULTS: [&str; 3] = ["3: 55 twice", "3: 55 twice, empty", "3: 55 empty"];

/// Kinds of cases beside the sets of options that a list decides on.
const KINDS: &[&str] = &[
    "15: clock",
    "9: over 256 records",
    "9: address 0",
    "9: addresses don't rise",
    "9: state",
    "9: hlen above 16",
    "9: htype with hlen 0",
    "9: chaddr past hlen",
    "9: client id of 1",
    "9: client id above 64",
    "9: relay information above 64",
    "9: last transaction",
    "9: last transaction never",
    "9: expiry",
    "8: reply buffer",
    "1: under 240 octets",
    "1: over 1,500 octets",
    "1: cookie",
    "2: op",
    "3: no end option",
    "3: past the end",
    "3: 53 twice",
    "3: 61 twice",
    "3: 55 twice",
    "3: 55 twice, the only reason",
    "3: 55 twice, side by side",
    "3: 55 twice, others between",
    "3: 55 twice, empty",
    "3: 55 empty",
    "3: 55 empty, the only reason",
    "3: 55 past the end",
    "3: 55 without a length",
    "4: 53 absent",
    "4: 53 not one octet",
    "4: 53 not 10",
    "5: giaddr",
    "6: no key",
    "6: two keys",
    "6: three keys",
    "7: hlen 0",
    "7: hlen above 16",
    "7: client id of 0",
    "7: client id of 1",
    "15 ahead of another",
    "9 ahead of another",
    "8 ahead of another",
    "1 ahead of another",
    "2 ahead of another",
    "3 ahead of another",
    "4 ahead of another",
    "5 ahead of another",
    "6 ahead of another",
    "2 ahead of 3 for 55",
    "3 for 55 ahead of 4",
    "damaged query, answered",
    "damaged query, refused",
    "damaged query, 55 before the damage",
    "by address: active",
    "by address: unassigned",
    "by address: unknown",
    "by hardware: active",
    "by hardware: unknown",
    "by client id: active",
    "by client id: unknown",
    "by address: active, with 55",
    "by address: unassigned, with 55",
    "by address: unknown, with 55",
    "by hardware: active, with 55",
    "by hardware: unknown, with 55",
    "by client id: active, with 55",
    "by client id: unknown, with 55",
    "by address: active, without 55",
    "by address: unassigned, without 55",
    "by address: unknown, without 55",
    "by hardware: active, without 55",
    "by hardware: unknown, without 55",
    "by client id: active, without 55",
    "by client id: unknown, without 55",
    "55 of 1 code",
    "55 of 2 to 254 codes",
    "55 of 255 codes",
    "55 of 255 codes, the last one of the four, only there",
    "55 ahead of the other options",
    "55 between other options",
    "55 behind the other options",
    "55 with one of the four twice",
    "55 with another code twice",
    "55 with a code that the box doesn't write",
    "61 listed, not in the record",
    "82 listed, not in the record",
    "92 sent, not listed",
    "92 sent and listed",
    "92 listed, not due",
    "client id over 64 octets",
    "chaddr past hlen",
    "only leases that aren't active match",
    "lease at its expiry",
    "1 match, no option 92",
    "option 92: 2 matches",
    "option 92: 3 matches",
    "option 92: 4 to 62 matches",
    "option 92: 63 matches",
    "option 92: 64 or more matches",
    "latest transaction of several",
    "reply of 648 octets",
    "51: never",
    "51: capped",
    "51: 4,294,967,294 to go",
    "91: moment to come",
    "91: capped",
    "91: 4,294,967,295 since",
    "no 61 in the reply",
    "no 82 in the reply",
    "table of 256 records",
    "empty table",
    "on a small stack",
];

/// One call's arguments beside the table, and the faults planted in them;
/// none are known of a damaged query.
#[derive(Clone, Debug)]
struct Case {
    now: u64,
    server: [u8; 4],
    packet: Vec<u8>,
    reply_len: usize,
    faults: Option<Vec<&'static str>>,
}

impl Run<2> {
    /// Runs both programs on one case and compares the whole memories.
    fn compare(&mut self, tables: &Tables, case: &Case) {
        let lengths = [case.packet.len(), case.reply_len];
        self.memory
            .lay_out(&mut self.random, lengths, &[&case.packet]);
        let [query, reply] = self.memory.second();
        let expected = answer(case.now, &tables.second, case.server, query, reply);
        let [query, reply] = self.memory.product();
        let lent = tables.lent();
        let server = u32::from_be_bytes(case.server);
        let got = raw::lease_query(Moment(case.now), lent, server, query, reply);
        if got != lease_answer(expected) || !self.memory.is_alike() {
            self.differ(tables, case, expected, got);
        }
        self.count(&tables.second, case, expected);
    }

    #[cold]
    fn differ(
        &self,
        tables: &Tables,
        case: &Case,
        expected: Result<(u8, usize), u8>,
        got: LeaseAnswer,
    ) {
        println!("second {expected:?}, product {got:?}, {case:02x?}");
        println!("table {:02x?}", tables.second);
        panic!("the programs differ, seed {}", self.random.seed);
    }

    fn count(&mut self, table: &[Lease], case: &Case, expected: Result<(u8, usize), u8>) {
        self.tally.cases += 1;
        match (&case.faults, expected) {
            (None, Ok(_)) => self.tally.count("damaged query, answered"),
            (None, Err(_)) => self.tally.count("damaged query, refused"),
            (Some(faults), _) => {
                let fault = first(&ORDER, faults);
                assert_eq!(fault.map(number), expected.err(), "{case:02x?}");
                if let Some(fault) = fault {
                    count_refusal(&mut self.tally, faults, fault);
                    count_list_refusal(&mut self.tally, faults, &case.packet);
                }
            }
        }
        if let Ok((kind, length)) = expected {
            let [query, reply] = self.memory.second();
            let list = option(query, 55);
            count_answer(&mut self.tally, case.now, table, query, kind);
            count_reply(&mut self.tally, case.now, table, &reply[..length]);
            if let Some(list) = list {
                count_list(&mut self.tally, list, &codes(query));
            }
            if kind == 13 {
                count_active(&mut self.tally, table, list, &reply[..length]);
            }
        }
    }

    /// A case with the planted faults of these numbers.
    fn case(&mut self, about: u64, table: &[Lease], clients: &[Client], numbers: &[u8]) -> Case {
        let random = &mut self.random;
        let mut query = Query::sound(random, table, clients);
        let mut faults = Vec::new();
        for number in (1..=7).rev().filter(|number| numbers.contains(number)) {
            faults.push(query.plant(random, table, clients, number));
        }
        let mut case = Case {
            now: 0,
            server: (random.next() as u32).to_be_bytes(),
            packet: query.packet(random),
            reply_len: random.pick(&[REPLY_MIN, REPLY_MIN, REPLY_MIN + 1, 700, 1_500]),
            faults: None,
        };
        if numbers.contains(&8) {
            case.reply_len = random.pick(&[0, 1, 240, 271, 300, 647, 647]);
            faults.push("8: reply buffer");
        }
        case.now = leases::clock(&mut self.random, about);
        if numbers.contains(&15) {
            case.now = no_clock(&mut self.random);
            faults.push("15: clock");
        }
        case.faults = Some(faults);
        case
    }

    /// Which faults to plant: mostly none, else one, two or three.
    fn numbers(&mut self) -> Vec<u8> {
        let count = self.random.pick(&[0, 0, 0, 0, 0, 0, 1, 1, 2, 3]);
        let others = [15, 8, 1, 2, 3, 3, 3, 3, 3, 4, 4, 5, 6, 6, 7, 7, 7];
        (0..count).map(|_| self.random.pick(&others)).collect()
    }

    /// Many queries of one table; at times the table is broken.
    fn group(&mut self) {
        let about = leases::about(&mut self.random);
        let clients = leases::clients(&mut self.random);
        let mut table = leases::table(&mut self.random, &clients, about);
        let broken = self.random.one_in(3);
        let fault = broken.then(|| leases::break_table(&mut self.random, &clients, &mut table));
        let mut cases = Vec::new();
        for _ in 0..if broken { 10 } else { 30 } {
            let numbers = self.numbers();
            let mut case = self.case(about, &table, &clients, &numbers);
            if let (Some(faults), Some(fault)) = (&mut case.faults, fault) {
                faults.push(fault);
            }
            cases.push(case);
        }
        let tables = Tables::new(&mut self.random, table);
        self.ask_all(&tables, &cases);
    }

    /// All cases of one table, at times on a small stack.
    fn ask_all(&mut self, tables: &Tables, cases: &[Case]) {
        self.compare_all(cases, |run, case| run.compare(tables, case));
        tables.assert_untouched();
    }

    /// Every octet of a sound query changed, one at a time, and every cut.
    fn damage(&mut self) {
        let about = leases::about(&mut self.random);
        let clients = leases::clients(&mut self.random);
        let mut table = leases::table(&mut self.random, &clients, about);
        table.truncate(20);
        let mut case = self.case(about, &table, &clients, &[]);
        case.faults = None;
        let packets = damaged(&mut self.random, &case.packet);
        if option(&case.packet, 55).is_some() {
            let count = |_| self.tally.count("damaged query, 55 before the damage");
            packets.iter().for_each(count);
        }
        let case = |packet| Case {
            packet,
            ..case.clone()
        };
        let cases: Vec<Case> = packets.into_iter().map(case).collect();
        let tables = Tables::new(&mut self.random, table);
        self.ask_all(&tables, &cases);
    }

    fn whole(mut self) {
        for _ in 0..25 {
            self.damage();
        }
        while self.tally.cases < QUERIES {
            self.group();
        }
        let title = format!("seed {}, lease queries", self.random.seed);
        self.tally.report(&title, QUERIES, EACH);
    }
}

fn count_refusal(tally: &mut Tally, faults: &[&str], fault: &str) {
    tally.count(fault);
    if has_another(faults, fault) {
        tally.count(&format!("{} ahead of another", number(fault)));
    }
}

/// Whether another option stands between the request lists of a query.
fn is_between_lists(codes: &[u8]) -> bool {
    let lists = codes.iter().skip_while(|&&code| code != 55);
    let mut behind = lists.skip_while(|&&code| code == 55);
    behind.any(|&code| code == 55)
}

/// Counts what stands beside a fault of the request list.
fn count_list_refusal(tally: &mut Tally, faults: &[&str], packet: &[u8]) {
    if !faults.iter().any(|fault| LIST_FAULTS.contains(fault)) {
        return;
    }
    let others: Vec<u8> = faults.iter().map(|fault| number(fault)).collect();
    match first(&ORDER, faults).map(number) {
        Some(2) => tally.count("2 ahead of 3 for 55"),
        Some(3) if others.contains(&4) => tally.count("3 for 55 ahead of 4"),
        _ => {}
    }
    match faults {
        ["3: 55 empty"] => tally.count("3: 55 empty, the only reason"),
        ["3: 55 twice"] => {
            tally.count("3: 55 twice, the only reason");
            tally.count(match is_between_lists(&codes(packet)) {
                true => "3: 55 twice, others between",
                false => "3: 55 twice, side by side",
            });
        }
        _ => {}
    }
}

fn number_at(octets: &[u8], at: usize) -> u32 {
    u32::from_be_bytes(octets[at..at + 4].try_into().expect("four octets"))
}

/// Counts by what was asked and what was answered.
fn count_answer(tally: &mut Tally, now: u64, table: &[Lease], query: &[u8], kind: u8) {
    let answer = match kind {
        11 => "unassigned",
        12 => "unknown",
        _ => "active",
    };
    let id = option(query, 61);
    let key = match id {
        _ if number_at(query, 12) != 0 => "by address",
        Some(_) => "by client id",
        None => "by hardware",
    };
    tally.count(&format!("{key}: {answer}"));
    let with = option(query, 55).map_or("without", |_| "with");
    tally.count(&format!("{key}: {answer}, {with} 55"));
    match id {
        _ if key == "by address" => return,
        Some(id) if id.len() > 64 => tally.count("client id over 64 octets"),
        None if query[28 + usize::from(query[2])..44] != [0; 16][usize::from(query[2])..] => {
            tally.count("chaddr past hlen");
        }
        _ => {}
    }
    count_matches(tally, now, &matching(table, query, id));
}

/// The records of the client that a query asks for, active or not.
fn matching<'a>(table: &'a [Lease], query: &[u8], id: Option<&[u8]>) -> Vec<&'a Lease> {
    let hlen = usize::from(query[2]);
    let by_id = |lease: &Lease, id: &[u8]| lease.id[..usize::from(lease.id_len)] == *id;
    let by_hardware = |lease: &Lease| {
        [lease.htype, lease.hlen] == query[1..3] && lease.chaddr[..hlen] == query[28..28 + hlen]
    };
    let matches = |lease: &&Lease| id.map_or_else(|| by_hardware(lease), |id| by_id(lease, id));
    table.iter().filter(matches).collect()
}

fn count_matches(tally: &mut Tally, now: u64, matching: &[&Lease]) {
    let active = |lease: &&&Lease| lease.state == 1 && lease.expiry > now;
    let active = matching.iter().filter(active);
    let mut lasts: Vec<u64> = active.map(|lease| lease.last_transaction).collect();
    lasts.sort_unstable();
    if lasts.is_empty() && !matching.is_empty() {
        tally.count("only leases that aren't active match");
    }
    let ends_now = |lease: &&Lease| lease.state == 1 && lease.expiry == now;
    if matching.iter().any(ends_now) {
        tally.count("lease at its expiry");
    }
    match lasts.len() {
        0 => {}
        1 => tally.count("1 match, no option 92"),
        2 => tally.count("option 92: 2 matches"),
        3 => tally.count("option 92: 3 matches"),
        4..=62 => tally.count("option 92: 4 to 62 matches"),
        63 => tally.count("option 92: 63 matches"),
        _ => tally.count("option 92: 64 or more matches"),
    }
    if let [.., before, latest] = lasts[..] {
        if before == latest {
            tally.count("latest transaction of several");
        }
    }
}

/// Counts what the reply carries.
fn count_reply(tally: &mut Tally, now: u64, table: &[Lease], reply: &[u8]) {
    match table.len() {
        0 => tally.count("empty table"),
        256 => tally.count("table of 256 records"),
        _ => {}
    }
    if reply.len() == REPLY_MIN {
        tally.count("reply of 648 octets");
    }
    if option(reply, 51).is_some() {
        count_left(tally, now, answering(table, reply));
    }
    if option(reply, 91).is_some() {
        count_since(tally, now, answering(table, reply));
    }
}

/// The record that a reply about an active lease was written from.
fn answering<'a>(table: &'a [Lease], reply: &[u8]) -> &'a Lease {
    let address = number_at(reply, 12);
    let lease = table.iter().find(|lease| lease.address == address);
    lease.expect("an active lease is in the table")
}

/// Counts the limits that option 51 meets.
fn count_left(tally: &mut Tally, now: u64, lease: &Lease) {
    if lease.expiry == NEVER {
        tally.count("51: never");
    } else if lease.expiry - now > u64::from(u32::MAX) - 1 {
        tally.count("51: capped");
    } else if lease.expiry - now == u64::from(u32::MAX) - 1 {
        tally.count("51: 4,294,967,294 to go");
    }
}

/// Counts the limits that option 91 meets.
fn count_since(tally: &mut Tally, now: u64, lease: &Lease) {
    if lease.last_transaction > now {
        tally.count("91: moment to come");
    } else if now - lease.last_transaction > u64::from(u32::MAX) {
        tally.count("91: capped");
    } else if now - lease.last_transaction == u64::from(u32::MAX) {
        tally.count("91: 4,294,967,295 since");
    }
}

/// Counts what a request list has, and where it stands among the codes of the
/// query.
fn count_list(tally: &mut Tally, list: &[u8], codes: &[u8]) {
    let twice = |code: &&u8| list.iter().filter(|other| other == code).count() > 1;
    let (four, others): (Vec<u8>, Vec<u8>) = list
        .iter()
        .filter(twice)
        .partition(|code| LISTABLE.contains(code));
    let unwritten = |code: &u8| !WRITTEN.contains(code);
    let (first, last) = (codes[0] == 55, codes[codes.len() - 1] == 55);
    let facts = [
        (list.len() == 1, "55 of 1 code"),
        ((2..LIST_MAX).contains(&list.len()), "55 of 2 to 254 codes"),
        (list.len() == LIST_MAX, "55 of 255 codes"),
        (
            list.len() == LIST_MAX && is_last_alone(list),
            "55 of 255 codes, the last one of the four, only there",
        ),
        (first, "55 ahead of the other options"),
        (last, "55 behind the other options"),
        (!first && !last, "55 between other options"),
        (!four.is_empty(), "55 with one of the four twice"),
        (!others.is_empty(), "55 with another code twice"),
        (
            list.iter().any(unwritten),
            "55 with a code that the box doesn't write",
        ),
    ];
    let holding = facts.into_iter().filter(|fact| fact.0);
    holding.for_each(|(_, kind)| tally.count(kind));
}

/// Whether the last code of a list is one of the four and stands only there.
fn is_last_alone(list: &[u8]) -> bool {
    let [before @ .., last] = list else {
        return false;
    };
    LISTABLE.contains(last) && !before.contains(last)
}

/// Whether a record has what an option of the four tells.
fn is_recorded(lease: &Lease, code: u8) -> bool {
    match code {
        61 => lease.id_len > 0,
        82 => lease.relay_len > 0,
        _ => true,
    }
}

/// Checks that a reply about an active lease has the options that are due, in
/// the box's order, and counts those that it lacks.
fn count_active(tally: &mut Tally, table: &[Lease], list: Option<&[u8]>, reply: &[u8]) {
    let lease = answering(table, reply);
    let sent = codes(reply);
    let is_due = |code| is_recorded(lease, code) && list.is_none_or(|list| list.contains(&code));
    let is_sent = |code| sent.contains(&code);
    assert_eq!(LISTABLE.map(is_sent), LISTABLE.map(is_due), "{list:?}");
    let place = |code: &u8| WRITTEN.iter().position(|known| known == code);
    assert!(sent.iter().map(place).is_sorted(), "{sent:?}");
    for (code, kind) in [(61, "no 61 in the reply"), (82, "no 82 in the reply")] {
        if !is_sent(code) {
            tally.count(kind);
        }
    }
    if let Some(list) = list {
        count_listed(tally, lease, list, &sent);
    }
}

/// Counts which options were listed and which of them were sent.
fn count_listed(tally: &mut Tally, lease: &Lease, list: &[u8], sent: &[u8]) {
    let is_listed = |code| list.contains(&code);
    let is_sent = |code| sent.contains(&code);
    tally.count(&format!("listed: {}", set_of(is_listed)));
    tally.count(&format!("sent of what is listed: {}", set_of(is_sent)));
    for code in LISTABLE {
        if is_listed(code) && !is_recorded(lease, code) {
            tally.count(&format!("{code} listed, not in the record"));
        }
    }
    match (is_sent(92), is_listed(92)) {
        (true, true) => tally.count("92 sent and listed"),
        (true, false) => tally.count("92 sent, not listed"),
        (false, true) => tally.count("92 listed, not due"),
        (false, false) => {}
    }
}

#[test]
fn replies_are_the_same() {
    let (listed, sent) = (set_kinds("listed"), set_kinds("sent of what is listed"));
    let kinds = [KINDS, &listed, &sent].concat();
    from_both_seeds(|seed| Run::new(seed, &kinds).whole());
}
