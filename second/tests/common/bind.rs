//! What a real BIND answered to the requests, read from tests/data and sent
//! again to a zone of ours.

use std::collections::BTreeSet;

use second::job::{self, Job};
use second::zone::{as_set, Address, Holding, Name, Zone, HELD};

use super::requests::{Kind, Reply, Request};
use super::zones::entry_at;

/// Updates without BIND's response codes: a second remove request that failed
/// may have answered NXRRSET or YXRRSET.
const UPDATES: &str = include_str!("../data/bind-updates.txt");

/// Updates with BIND's response codes, of names in mixed case.
const CODED_UPDATES: &str = include_str!("../data/bind-updates-case.txt");

/// How many lists, requests and end lines the files have, how many of the
/// requests are second remove requests that found an address, and how many of
/// the end lines give a name in the letters in which it stands, and of those
/// with a capital one among them.
pub const ALL: Agreed = Agreed {
    lists: 800,
    asks: 3_679,
    ends: 1_204,
    yxrrsets: 163,
    spelled: 772,
    capital: 279,
};

/// How many of those found an address at a name of another's.
const ADDRESSES_OF_ANOTHER: usize = 1;

/// How many lines of each sort agreed.
#[derive(Default, PartialEq, Eq, Debug)]
pub struct Agreed {
    pub lists: usize,
    pub asks: usize,
    pub ends: usize,
    pub yxrrsets: usize,
    pub spelled: usize,
    pub capital: usize,
}

impl Agreed {
    /// Counts an end line: what the zone holds at its name must be BIND's,
    /// and a name that stands must have the letters in which BIND holds it.
    fn end(&mut self, line: &str, zone: &Zone, name: &Name, held: Option<Holding>) {
        assert_eq!(as_set(zone).remove(&name.folded()), held, "{line}");
        self.ends += 1;
        if let Some(entry) = entry_at(zone, name) {
            assert_eq!(entry.name.as_slice(), name.as_slice(), "{line}");
            self.spelled += 1;
            self.capital += usize::from(name.as_slice() != name.folded());
        }
    }
}

/// A line of the file; jobs are numbered from 0 as they come in their list.
enum Line {
    List,
    /// What the job's requests carry; the kind is that of its first one.
    Job(Request),
    /// The next request of a job, and the answers that BIND's may have been.
    Ask(usize, Kind, &'static [Reply]),
    /// What BIND held at a name after the list. The letters of a name that
    /// stands are those in which BIND holds it.
    End(Name, Option<Holding>),
}

/// Octets from their hex digits.
fn octets(hex: &str) -> Vec<u8> {
    let digits = |at| u8::from_str_radix(&hex[at..at + 2], 16).expect("hex digits");
    (0..hex.len()).step_by(2).map(digits).collect()
}

/// A name in the letters of the file.
fn name(hex: &str) -> Name {
    Name::new(&octets(hex)).expect("at most 255 octets")
}

fn array<const W: usize>(hex: &str) -> [u8; W] {
    octets(hex).try_into().expect("the field's length")
}

/// An address of either family, with zeros behind a short one.
fn address(hex: &str) -> Address {
    let mut address = [0; 16];
    let given = octets(hex);
    address[..given.len()].copy_from_slice(&given);
    address
}

fn addresses<const W: usize>(list: &str) -> BTreeSet<[u8; W]> {
    let items = list.split(',').filter(|&item| item != "-");
    items.map(array).collect()
}

fn job(words: [&str; 6]) -> Request {
    let [kind, spelled, dhcid, family, hex, policy] = words;
    Request {
        kind: match kind {
            "add" => Kind::A,
            "remove" => Kind::RemoveFirst,
            _ => panic!("no job is called {kind}"),
        },
        name: name(spelled),
        dhcid: array(dhcid),
        family: family.parse().expect("a family"),
        address: address(hex),
        policy: policy.parse().expect("a policy"),
    }
}

fn kind(word: &str) -> Kind {
    match word {
        "A" => Kind::A,
        "B" => Kind::B,
        "R1" => Kind::RemoveFirst,
        "R2" => Kind::RemoveSecond,
        _ => panic!("no request is called {word}"),
    }
}

/// The answers that a line's words stand for: what BIND said, and where it
/// stands there its response code.
fn replies<'a>(kind: Kind, said: &'a str, code: Option<&'a str>) -> &'static [Reply] {
    match (kind, said, code.unwrap_or(said)) {
        (_, "OK", _) => &[Reply::Success],
        (Kind::RemoveFirst, "NOTOURS", _) => &[Reply::NotOurs],
        (_, _, "YXDOMAIN") => &[Reply::YxDomain],
        (_, _, "NXDOMAIN") => &[Reply::NxDomain],
        (_, _, "YXRRSET") => &[Reply::YxRrset],
        (_, _, "NXRRSET") => &[Reply::NxRrset],
        (Kind::RemoveSecond, _, "KEPT") => &[Reply::NxRrset, Reply::YxRrset],
        _ => panic!("{kind:?} doesn't answer {said}"),
    }
}

fn read(line: &str) -> Line {
    let words: Vec<&str> = line.split(' ').collect();
    let number = || words[1].parse::<usize>().expect("a number");
    match words[..] {
        ["list", _] => Line::List,
        ["job", _, job_kind, spelled, dhcid, family, hex, policy] => {
            Line::Job(job([job_kind, spelled, dhcid, family, hex, policy]))
        }
        ["ask", _, word, said] => Line::Ask(number(), kind(word), replies(kind(word), said, None)),
        ["ask", _, word, said, code] => {
            Line::Ask(number(), kind(word), replies(kind(word), said, Some(code)))
        }
        ["end", spelled, "absent"] => Line::End(name(spelled), None),
        ["end", spelled, dhcid, v4, v6] => {
            let holding = (Some(array(dhcid)), addresses(v4), addresses(v6));
            Line::End(name(spelled), Some(holding))
        }
        _ => panic!("unknown line {line}"),
    }
}

/// Goes through the files. Every list starts from an empty zone; its jobs are
/// made as they come and must have ended with it; each request is put to its
/// job; and each end line must be what the zone holds.
fn walk<J>(
    make: impl Fn(&Request) -> J,
    mut ask: impl FnMut(&str, &mut Zone, &mut J, (Kind, &'static [Reply])),
    has_ended: impl Fn(&J) -> bool,
) -> Agreed {
    let mut agreed = Agreed::default();
    let mut zone = Zone::EMPTY;
    let mut jobs: Vec<J> = Vec::new();
    for line in UPDATES.lines().chain(CODED_UPDATES.lines()) {
        match read(line) {
            Line::List => {
                assert!(jobs.iter().all(&has_ended), "before {line}");
                agreed.lists += 1;
                zone = Zone::EMPTY;
                jobs.clear();
            }
            Line::Job(request) => jobs.push(make(&request)),
            Line::Ask(number, kind, replies) => {
                ask(line, &mut zone, &mut jobs[number], (kind, replies));
                agreed.asks += 1;
                agreed.yxrrsets += usize::from(replies == [Reply::YxRrset]);
            }
            Line::End(name, held) => agreed.end(line, &zone, &name, held),
        }
    }
    assert!(jobs.iter().all(&has_ended));
    agreed
}

/// Sends every request in its order; each answer must be BIND's, but for one:
/// BIND looks for addresses before it looks at the owner, so that a second
/// remove request answers YXRRSET at a name of another's too.
pub fn replay(mut send: impl FnMut(&mut Zone, &Request) -> Result<Reply, u8>) -> Agreed {
    let mut at_anothers = 0;
    let ask = |line: &str,
               zone: &mut Zone,
               job: &mut Request,
               (kind, replies): (Kind, &'static [Reply])| {
        let request = Request { kind, ..*job };
        let held = is_held(zone, &request);
        let reply = send(zone, &request).expect(line);
        if replies == [Reply::YxRrset] && !held {
            assert_eq!(reply, Reply::NxRrset, "{line}");
            at_anothers += 1;
        } else {
            assert!(replies.contains(&reply), "{line}: {reply:?}");
        }
    };
    let agreed = walk(|request| *request, ask, |_| true);
    assert_eq!(at_anothers, ADDRESSES_OF_ANOTHER);
    agreed
}

/// Whether the DHCID of a request holds its name.
fn is_held(zone: &Zone, request: &Request) -> bool {
    let entry = entry_at(zone, &request.name);
    entry.is_some_and(|entry| entry.kind == HELD && entry.dhcid == request.dhcid)
}

/// Steps the jobs; they must send the very requests that stand there, and
/// count their own.
pub fn replay_jobs(
    make: impl Fn(&Request) -> Result<Job, u8>,
    mut step: impl FnMut(&mut Zone, &mut Job) -> Result<(), u8>,
) -> Agreed {
    let ask = |line: &str,
               zone: &mut Zone,
               (job, sent): &mut (Job, u8),
               (kind, replies): (Kind, &'static [Reply])| {
        assert_eq!(job.stage, before(kind), "{line}");
        assert_eq!(step(zone, job), Ok(()), "{line}");
        *sent += 1;
        assert_eq!(job.stage, after(kind, replies[0]), "{line}");
        let count = if job.is_add() { *sent } else { 0 };
        assert_eq!(job.count, count, "{line}");
    };
    let fresh = |request: &Request| (make(request).expect("a sound job"), 0);
    walk(fresh, ask, |(job, _)| job.has_ended())
}

/// The stage before a request.
fn before(kind: Kind) -> u8 {
    match kind {
        Kind::A => job::BEFORE_A,
        Kind::B => job::BEFORE_B,
        Kind::RemoveFirst => job::BEFORE_FIRST,
        Kind::RemoveSecond => job::BEFORE_SECOND,
    }
}

/// The stage that BIND's answer to a request leads to.
fn after(kind: Kind, reply: Reply) -> u8 {
    match (kind, reply) {
        (Kind::A | Kind::B, Reply::Success) => job::DONE,
        (Kind::A, Reply::YxDomain) => job::BEFORE_B,
        (Kind::B, Reply::NxDomain) => job::BEFORE_A,
        (Kind::B, Reply::NxRrset) => job::CONFLICT,
        (Kind::RemoveFirst, Reply::Success) => job::BEFORE_SECOND,
        (Kind::RemoveFirst, Reply::NotOurs) => job::NOT_OURS,
        (Kind::RemoveSecond, Reply::Success) => job::GONE,
        (Kind::RemoveSecond, Reply::NxRrset | Reply::YxRrset) => job::KEPT,
        _ => panic!("{kind:?} doesn't answer {reply:?}"),
    }
}
