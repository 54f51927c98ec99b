//! Compares the product's call that reads the reply to a lease query with the
//! second program.

mod common;

use common::damage::damaged;
use common::faults::{first, has_another, number};
use common::leases;
use common::product::lease_reading;
use common::queries::Query;
use common::random::{from_both_seeds, Random};
use common::replies::{Reply, REQUEST_LIST, UNREAD, WRITTEN};
use common::reply_faults;
use common::request_lists::{set_kinds, set_of, LISTABLE};
use common::run::Run;
use common::tables::Tables;
use jespurla::raw::{self, Moment};
use second::desk_reply::{read, Reading};
use second::lease_query::REPLY_MIN;

/// Replies compared by one run, at the least.
const REPLIES: usize = 600_000;
/// Cases of each kind, at the least.
const EACH: usize = 1_000;
/// Refusals in the order in which they are given.
const ORDER: [u8; 2] = [20, 21];

/// Kinds of cases beside the faults of a reply and the sets of options that
/// it lacks.
const KINDS: &[&str] = &[
    "20 for two reasons",
    "20 ahead of 21",
    "21: xid",
    "21: xid, kind 11",
    "21: xid, kind 12",
    "21: xid, kind 13",
    "kind 11",
    "kind 12",
    "kind 13",
    "hlen 0",
    "hlen 16",
    "options 53 and 54 alone",
    "in the box's order",
    "in another order",
    "foreign options",
    "padding between options",
    "octets behind the end option",
    "reply of 1,500 octets",
    "51: 0",
    "51: all ones",
    "91: 0",
    "91: all ones",
    "kind 13 with 51",
    "kind 13 without 51",
    "kind 13 with 61",
    "kind 13 without 61",
    "kind 13 with 82",
    "kind 13 without 82",
    "kind 13 with 91",
    "kind 13 without 91",
    "kind 13 without 92",
    "left and since",
    "left alone",
    "since alone",
    "neither left nor since",
    "92 of 2 addresses",
    "92 of 3 to 62 addresses",
    "92 of 63 addresses",
    "11 or 12 with 51",
    "11 or 12 with 61",
    "11 or 12 with 82",
    "11 or 12 with 91",
    "11 or 12 with 92",
    "11 or 12 with 51 of another length",
    "11 or 12 with 61 of another length",
    "11 or 12 with 82 of another length",
    "11 or 12 with 91 of another length",
    "11 or 12 with 92 of another length",
    "11 or 12 with 51 twice",
    "11 or 12 with 82 twice",
    "11 or 12 with 91 twice",
    "11 or 12 with 92 twice",
    "kind 11: 55 absent",
    "kind 11: 55 empty",
    "kind 11: 55 once",
    "kind 11: 55 twice or more, none empty",
    "kind 11: 55 twice or more, one empty",
    "kind 12: 55 absent",
    "kind 12: 55 empty",
    "kind 12: 55 once",
    "kind 12: 55 twice or more, none empty",
    "kind 12: 55 twice or more, one empty",
    "kind 13: 55 absent",
    "kind 13: 55 empty",
    "kind 13: 55 once",
    "kind 13: 55 twice or more, none empty",
    "kind 13: 55 twice or more, one empty",
    "55 lists an option that is absent",
    "55 doesn't list an option that is there",
    "damaged reply, read",
    "damaged reply, refused with 20",
    "damaged reply, refused with 21",
    "on a small stack",
];

/// One call's arguments; the reply before it was laid out and the faults
/// planted in the case, where they are known.
#[derive(Clone, Debug)]
struct Case {
    xid: u32,
    packet: Vec<u8>,
    known: Option<(Reply, Vec<&'static str>)>,
}

impl Case {
    fn new(random: &mut Random, reply: Reply, faults: Vec<&'static str>) -> Case {
        Case {
            xid: reply.xid,
            packet: reply.packet(random),
            known: Some((reply, faults)),
        }
    }

    /// Asks for another xid than the reply's.
    fn plant_xid(&mut self, random: &mut Random) {
        let other = self.xid ^ 1 << random.below(32);
        self.xid = random.pick(&[other, other, self.xid.swap_bytes(), !self.xid]);
        if let Some((reply, faults)) = &mut self.known {
            if self.xid != reply.xid {
                faults.push("21: xid");
            }
        }
    }
}

/// What a sound reply carries.
fn carried(reply: &Reply) -> Vec<&'static str> {
    let codes: Vec<u8> = reply.options.iter().map(|option| option.0).collect();
    let foreign = |code: &u8| *code != 0 && !WRITTEN.contains(code);
    let place = |code: &u8| WRITTEN.iter().position(|known| known == code);
    let in_order = codes.iter().filter_map(place).is_sorted();
    let facts = [
        (reply.hlen == 0, "hlen 0"),
        (reply.hlen == 16, "hlen 16"),
        (codes.len() == 2, "options 53 and 54 alone"),
        (in_order, "in the box's order"),
        (!in_order, "in another order"),
        (codes.iter().any(foreign), "foreign options"),
        (codes.contains(&0), "padding between options"),
        (!reply.tail.is_empty(), "octets behind the end option"),
        (reply.octets == Some(1_500), "reply of 1,500 octets"),
    ];
    let holding = facts.into_iter().filter(|fact| fact.0);
    holding.map(|(_, kind)| kind).collect()
}

/// The lengths of an option in a reply.
fn lengths(reply: &Reply, code: u8) -> Vec<usize> {
    let with_code = reply.options.iter().filter(|option| option.0 == code);
    with_code.map(|(_, value)| value.len()).collect()
}

impl Run<1> {
    /// Runs both programs on one case and compares what they read.
    fn compare(&mut self, case: &Case) {
        let lengths = [case.packet.len()];
        self.memory
            .lay_out(&mut self.random, lengths, &[&case.packet]);
        let [reply] = self.memory.second();
        let expected = read(case.xid, reply);
        let [reply] = self.memory.product();
        let got = raw::lease_reply_read(case.xid, reply);
        if got != lease_reading(expected) || !self.memory.is_alike() {
            println!("second {expected:?}, product {got:?}, {case:02x?}");
            panic!("the programs differ, seed {}", self.random.seed);
        }
        self.count(case, expected);
    }

    fn count(&mut self, case: &Case, expected: Result<Reading, u8>) {
        self.tally.cases += 1;
        let Some((reply, faults)) = &case.known else {
            return match expected {
                Ok(_) => self.tally.count("damaged reply, read"),
                Err(20) => self.tally.count("damaged reply, refused with 20"),
                Err(_) => self.tally.count("damaged reply, refused with 21"),
            };
        };
        let fault = first(&ORDER, faults);
        assert_eq!(fault.map(number), expected.err(), "{case:02x?}");
        match fault {
            Some(fault) => self.count_refusal(reply, faults, fault),
            None => {
                assert_eq!(expected, Ok(reply.told()), "{case:02x?}");
                self.count_read(reply);
            }
        }
    }

    /// Counts the reason of a refusal where it is the only one for its
    /// number.
    fn count_refusal(&mut self, reply: &Reply, faults: &[&str], fault: &str) {
        let reasons = faults.iter().filter(|other| number(other) == 20).count();
        match reasons {
            0 | 1 => self.tally.count(fault),
            _ => self.tally.count("20 for two reasons"),
        }
        if has_another(faults, fault) {
            self.tally.count("20 ahead of 21");
        }
        if number(fault) == 21 {
            let kind = reply.kind;
            self.tally.count(&format!("21: xid, kind {kind}"));
        }
    }

    fn count_read(&mut self, reply: &Reply) {
        self.tally.count(&format!("kind {}", reply.kind));
        for kind in carried(reply) {
            self.tally.count(kind);
        }
        self.count_lists(reply);
        match reply.kind {
            13 => self.count_active(reply),
            _ => UNREAD
                .iter()
                .for_each(|&code| self.count_unread(reply, code)),
        }
    }

    /// Counts the request lists of a reply, which nobody looks at.
    fn count_lists(&mut self, reply: &Reply) {
        let lengths = lengths(reply, REQUEST_LIST);
        let how = match lengths[..] {
            [] => "absent",
            [0] => "empty",
            [_] => "once",
            _ if lengths.contains(&0) => "twice or more, one empty",
            _ => "twice or more, none empty",
        };
        self.tally.count(&format!("kind {}: 55 {how}", reply.kind));
    }

    /// Counts where the only request list and the options of a reply about an
    /// active lease don't fit together.
    fn count_misfits(&mut self, reply: &Reply) {
        let is_list = |option: &&(u8, Vec<u8>)| option.0 == REQUEST_LIST;
        let lists: Vec<_> = reply.options.iter().filter(is_list).collect();
        let [(_, list)] = lists[..] else {
            return;
        };
        let is_listed = |code: u8| list.contains(&code);
        let is_there = |code: u8| !lengths(reply, code).is_empty();
        if LISTABLE
            .iter()
            .any(|&code| is_listed(code) && !is_there(code))
        {
            self.tally.count("55 lists an option that is absent");
        }
        if LISTABLE
            .iter()
            .any(|&code| !is_listed(code) && is_there(code))
        {
            self.tally.count("55 doesn't list an option that is there");
        }
    }

    /// Counts what a reply about an active lease carries.
    fn count_active(&mut self, reply: &Reply) {
        for code in LISTABLE {
            let with = ["without", "with"][lengths(reply, code).len()];
            self.tally.count(&format!("kind 13 {with} {code}"));
        }
        let lacking = set_of(|code| lengths(reply, code).is_empty());
        self.tally.count(&format!("kind 13 lacks: {lacking}"));
        self.count_misfits(reply);
        let told = reply.told();
        match told.count {
            0 => self.tally.count("kind 13 without 92"),
            2 => self.tally.count("92 of 2 addresses"),
            63 => self.tally.count("92 of 63 addresses"),
            _ => self.tally.count("92 of 3 to 62 addresses"),
        }
        self.count_span("51", told.left);
        self.count_span("91", told.since);
        self.tally.count(match (told.left, told.since) {
            (Some(_), Some(_)) => "left and since",
            (Some(_), None) => "left alone",
            (None, Some(_)) => "since alone",
            (None, None) => "neither left nor since",
        });
    }

    fn count_span(&mut self, code: &str, span: Option<u32>) {
        match span {
            Some(0) => self.tally.count(&format!("{code}: 0")),
            Some(u32::MAX) => self.tally.count(&format!("{code}: all ones")),
            _ => {}
        }
    }

    /// Counts an option that is not looked at in this kind.
    fn count_unread(&mut self, reply: &Reply, code: u8) {
        let title = format!("11 or 12 with {code}");
        let lengths = lengths(reply, code);
        match lengths[..] {
            [] => return,
            [_] => self.tally.count(&title),
            _ => self.tally.count(&format!("{title} twice")),
        }
        if reply_faults::of_length(13, code, lengths[0]).is_some() {
            self.tally.count(&format!("{title} of another length"));
        }
    }

    /// A reply with one fault, two or none.
    fn case(&mut self) -> Case {
        let random = &mut self.random;
        let (fault, kind) = reply_faults::draw(random);
        let (other, its_kind) = reply_faults::draw(random);
        let mut reply = Reply::sound(random, kind);
        let mut faults = Vec::new();
        if !random.one_in(3) {
            faults.push(reply_faults::plant(random, &mut reply, fault));
            // The same fault planted again could undo itself.
            if its_kind == kind && other != fault && random.one_in(8) {
                faults.push(reply_faults::plant(random, &mut reply, other));
            }
        }
        let mut case = Case::new(random, reply, faults);
        if random.one_in(8) {
            case.plant_xid(random);
        }
        case
    }

    fn group(&mut self) {
        let cases: Vec<Case> = (0..50).map(|_| self.case()).collect();
        self.compare_all(&cases, Run::compare);
    }

    /// An option of every length in a reply of one kind.
    fn option_lengths(&mut self, kind: u8, code: u8) {
        let random = &mut self.random;
        let mut cases = Vec::new();
        for length in 0..=255 {
            let mut reply = Reply::bare(random, kind);
            reply.replace(random, code, length);
            let fault = reply_faults::of_length(kind, code, length);
            cases.push(Case::new(random, reply, fault.into_iter().collect()));
        }
        self.compare_all(&cases, Run::compare);
    }

    /// An option many times over in a reply of one kind: beside one of a sound
    /// length empty ones, all ahead of it or all behind it.
    fn option_repeats(&mut self, kind: u8, code: u8) {
        let random = &mut self.random;
        let mut cases = Vec::new();
        for more in [1, 2, 3, 254, 255, 256, 257] {
            let mut reply = Reply::bare(random, kind);
            let sound = (0..).find(|&length| reply_faults::of_length(13, code, length).is_none());
            reply.replace(random, code, sound.expect("a sound length"));
            let at = random.pick(&[0, reply.options.len()]);
            reply.options.splice(at..at, vec![(code, vec![]); more]);
            let fault = reply_faults::of_repeat(kind, code);
            cases.push(Case::new(random, reply, fault.into_iter().collect()));
        }
        self.compare_all(&cases, Run::compare);
    }

    /// Every value of an octet, in which some values are a fault.
    fn values(&mut self, label: &'static str, set: fn(&mut Reply, u8) -> bool) {
        let random = &mut self.random;
        let mut cases = Vec::new();
        for value in 0..=255 {
            let mut reply = Reply::sound(random, 13);
            let sound = set(&mut reply, value);
            let faults = if sound { vec![] } else { vec![label] };
            cases.push(Case::new(random, reply, faults));
        }
        self.compare_all(&cases, Run::compare);
    }

    /// Every value of op and hlen, and of option 53.
    fn octet_values(&mut self) {
        self.values("20: op", |reply, value| {
            reply.op = value;
            value == 2
        });
        self.values("20: hlen above 16", |reply, value| {
            reply.hlen = value;
            value <= 16
        });
        self.values("20: 53 not 11 to 13", |reply, value| {
            reply.kind = value;
            reply.remove(53);
            // A reply of kind 13 is also sound as one of the other kinds.
            reply.options.push((53, vec![value]));
            (11..=13).contains(&value)
        });
    }

    /// Packets of every length under 240 octets and about 1,500 octets.
    fn packet_lengths(&mut self) {
        let random = &mut self.random;
        let mut cases = Vec::new();
        for octets in (0..240).chain(1_480..=1_520) {
            let kind = random.pick(&[11, 12, 13]);
            let mut reply = Reply::bare(random, kind);
            reply.octets = Some(octets);
            let faults = match octets {
                0..=239 => vec!["20: under 240 octets"],
                240..=1_500 => vec![],
                _ => vec!["20: over 1,500 octets"],
            };
            cases.push(Case::new(random, reply, faults));
        }
        self.compare_all(&cases, Run::compare);
    }

    /// A reply of some kind that the product's box wrote from a random table.
    fn box_reply(&mut self) -> (u32, Vec<u8>) {
        let random = &mut self.random;
        let about = leases::about(random);
        let clients = leases::clients(random);
        let table = leases::table(random, &clients, about);
        let query = Query::sound(random, &table, &clients).packet(random);
        let tables = Tables::new(random, table);
        let mut reply = vec![0; REPLY_MIN];
        let told = raw::lease_query(Moment(about), tables.lent(), 7, &query, &mut reply);
        assert_eq!(told.refusal, 0);
        reply.truncate(told.length as usize);
        (told.kind, reply)
    }

    /// Every octet of a reply that the box wrote changed, one at a time, and
    /// every cut.
    fn damage(&mut self, packet: Vec<u8>) {
        let xid = u32::from_be_bytes([packet[4], packet[5], packet[6], packet[7]]);
        let case = |packet| Case {
            xid,
            packet,
            known: None,
        };
        let packets = damaged(&mut self.random, &packet);
        let cases: Vec<Case> = packets.into_iter().map(case).collect();
        self.compare_all(&cases, Run::compare);
    }

    fn sweeps(&mut self) {
        for kind in 11..=13 {
            for code in WRITTEN.into_iter().chain([REQUEST_LIST]) {
                self.option_lengths(kind, code);
                self.option_repeats(kind, code);
            }
        }
        self.octet_values();
        self.packet_lengths();
    }

    /// Damaged replies of the box, as many of each kind.
    fn damage_all(&mut self) {
        let mut wanted = [25; 3];
        while wanted != [0; 3] {
            let (kind, packet) = self.box_reply();
            let left = &mut wanted[kind as usize - 11];
            if *left > 0 {
                *left -= 1;
                self.damage(packet);
            }
        }
    }

    fn whole(mut self) {
        for _ in 0..3 {
            self.sweeps();
        }
        self.damage_all();
        while self.tally.cases < REPLIES {
            self.group();
        }
        let title = format!("seed {}, replies to the desk", self.random.seed);
        self.tally.report(&title, REPLIES, EACH);
    }
}

#[test]
fn readings_are_the_same() {
    let lacking = set_kinds("kind 13 lacks");
    let kinds = [&reply_faults::labels(), KINDS, &lacking].concat();
    from_both_seeds(|seed| Run::new(seed, &kinds).whole());
}
