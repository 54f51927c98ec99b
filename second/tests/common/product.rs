//! Requests sent to the product, and the second program's answers in the
//! product's numbers.

use jespurla::raw::{
    self, Address, Answered, Dhcid, FindAnswer, FlagAnswer, Job, LeaseAnswer, LeaseReading,
    NameAnswer, NewJob, QueryAnswer, RequestAnswer, SameAnswer, Span, StepAnswer, Zone,
};
use second::desk_reply::{Reading, ASSOCIATED_MAX};
use second::zone;

use super::requests::{Kind, Reply, Request};
use super::twin::Twin;

/// How the product gets a zone.
#[derive(Clone, Copy, PartialEq, Eq, Debug)]
pub enum Way {
    /// It is handed in and back.
    ByValue,
    /// It is changed where it lies.
    Lent,
}

pub const WAYS: [Way; 2] = [Way::ByValue, Way::Lent];

impl Way {
    /// Sends a request; the zone becomes the one that it left.
    pub fn send(self, zone: &mut Zone, request: &Request) -> RequestAnswer {
        match self {
            Way::ByValue => replace_by_sent(zone, request),
            Way::Lent => send_lent(zone, request),
        }
    }

    /// The refusal a request would get, 0 for none.
    pub fn check(self, zone: &Zone, request: &Request) -> u32 {
        match self {
            Way::ByValue => check(zone, request),
            Way::Lent => check_lent(zone, request),
        }
    }

    /// Steps a job; the zone becomes the one that the step left.
    pub fn step(self, zone: &mut Zone, job: &Job) -> StepAnswer {
        match self {
            Way::ByValue => replace_by_stepped(zone, job),
            Way::Lent => raw::job_step_lent(zone, job),
        }
    }

    /// The stack that a call must do with.
    pub fn stack(self) -> usize {
        match self {
            Way::ByValue => 256 * 1024,
            Way::Lent => 16 * 1024,
        }
    }
}

// A zone by value stands on the stack, so what handles one is never inlined:
// the calls on a lent zone are to be tried on a stack that would not hold it.

#[inline(never)]
fn replace_by_sent(zone: &mut Zone, request: &Request) -> RequestAnswer {
    let got = send(zone, request);
    *zone = got.zone;
    RequestAnswer {
        refusal: got.refusal,
        answer: got.answer,
    }
}

#[inline(never)]
fn replace_by_stepped(zone: &mut Zone, job: &Job) -> StepAnswer {
    let got = raw::job_step(zone, job);
    *zone = got.zone;
    StepAnswer {
        refusal: got.refusal,
        job: got.job,
    }
}

/// Sends a request, with the zone handed in and back.
pub fn send(zone: &Zone, request: &Request) -> Answered {
    let (name, family) = (&request.name.twin(), request.family);
    let (dhcid, address) = (&dhcid(request), &address(request));
    match request.kind {
        Kind::A => raw::request_a(zone, name, dhcid, family, address),
        Kind::B => raw::request_b(zone, name, dhcid, family, address, request.policy),
        Kind::RemoveFirst => raw::request_remove_address(zone, name, dhcid, family, address),
        Kind::RemoveSecond => raw::request_remove_name(zone, name, dhcid, family, address),
    }
}

/// Sends a request on a lent zone.
pub fn send_lent(zone: &mut Zone, request: &Request) -> RequestAnswer {
    let (name, family) = (&request.name.twin(), request.family);
    let (dhcid, address) = (&dhcid(request), &address(request));
    match request.kind {
        Kind::A => raw::request_a_lent(zone, name, dhcid, family, address),
        Kind::B => raw::request_b_lent(zone, name, dhcid, family, address, request.policy),
        Kind::RemoveFirst => raw::request_remove_address_lent(zone, name, dhcid, family, address),
        Kind::RemoveSecond => raw::request_remove_name_lent(zone, name, dhcid, family, address),
    }
}

/// The refusal a request would get, 0 for none.
#[inline(never)]
pub fn check(zone: &Zone, request: &Request) -> u32 {
    let policy = policy(request);
    raw::zone_check(zone, &request.name.twin(), request.family, policy).refusal
}

/// The same, asked of a lent zone.
pub fn check_lent(zone: &Zone, request: &Request) -> u32 {
    let policy = policy(request);
    raw::zone_check_lent(zone, &request.name.twin(), request.family, policy).refusal
}

/// The policy that a check is asked with; B alone has one.
fn policy(request: &Request) -> u8 {
    match request.kind {
        Kind::B => request.policy,
        _ => 0,
    }
}

/// A new add where the request is A, else a new remove.
pub fn new_job(request: &Request) -> NewJob {
    let (name, family) = (&request.name.twin(), request.family);
    let (dhcid, address) = (&dhcid(request), &address(request));
    match request.kind {
        Kind::A => raw::new_add(name, dhcid, family, address, request.policy),
        _ => raw::new_remove(name, dhcid, family, address),
    }
}

fn dhcid(request: &Request) -> Dhcid {
    Dhcid {
        octets: request.dhcid,
    }
}

fn address(request: &Request) -> Address {
    Address {
        octets: request.address,
    }
}

/// The reply that an answer's number stands for.
pub fn reply(kind: Kind, number: u32) -> Option<Reply> {
    match (kind, number) {
        (_, raw::NOERROR) => Some(Reply::Success),
        (Kind::RemoveFirst, raw::NXRRSET) => Some(Reply::NotOurs),
        (Kind::RemoveSecond, raw::YXRRSET) => Some(Reply::YxRrset),
        (Kind::B, raw::NXDOMAIN) => Some(Reply::NxDomain),
        (Kind::A, raw::YXDOMAIN) => Some(Reply::YxDomain),
        (Kind::B | Kind::RemoveSecond, raw::NXRRSET) => Some(Reply::NxRrset),
        (Kind::A | Kind::B, raw::NO_ROOM) => Some(Reply::NoRoom),
        _ => None,
    }
}

/// The refusal of a result, 0 for none.
fn refusal<T>(result: &Result<T, u8>) -> u32 {
    result.as_ref().err().map_or(0, |&refusal| refusal.into())
}

/// The answer that a result of the flag decision stands for.
pub fn flag_answer(result: Result<u8, u8>) -> FlagAnswer {
    FlagAnswer {
        refusal: refusal(&result),
        flags: result.map_or(0, u32::from),
    }
}

/// The answer that a result of the name option's answer stands for.
pub fn name_answer(result: Result<usize, u8>) -> NameAnswer {
    NameAnswer {
        refusal: refusal(&result),
        length: result.map_or(0, |length| length as u32),
    }
}

/// The answer that a result of the lease query stands for.
pub fn lease_answer(result: Result<(u8, usize), u8>) -> LeaseAnswer {
    let (kind, length) = result.unwrap_or((0, 0));
    LeaseAnswer {
        refusal: refusal(&result),
        kind: u32::from(kind),
        length: length as u32,
    }
}

/// The answer that a result of writing a query stands for.
pub fn query_answer(result: Result<usize, u8>) -> QueryAnswer {
    QueryAnswer {
        refusal: refusal(&result),
        length: result.map_or(0, |length| length as u32),
    }
}

/// What is said where a reply is refused, the number aside.
const NO_READING: Reading = Reading {
    kind: 0,
    address: 0,
    htype: 0,
    hlen: 0,
    chaddr: [0; 16],
    left: None,
    since: None,
    addresses: [0; ASSOCIATED_MAX],
    count: 0,
};

/// The answer that a result of reading a reply stands for.
pub fn lease_reading(result: Result<Reading, u8>) -> LeaseReading {
    let reading = result.unwrap_or(NO_READING);
    LeaseReading {
        refusal: refusal(&result),
        kind: u32::from(reading.kind),
        address: reading.address,
        has_left: u32::from(reading.left.is_some()),
        left: Span(reading.left.unwrap_or(0)),
        has_since: u32::from(reading.since.is_some()),
        since: Span(reading.since.unwrap_or(0)),
        count: reading.count as u32,
        addresses: reading.addresses,
        chaddr: reading.chaddr,
        htype: reading.htype,
        hlen: reading.hlen,
    }
}

/// The answer that the word on two zones stands for.
pub fn same_answer(result: Result<bool, u8>) -> SameAnswer {
    SameAnswer {
        refusal: refusal(&result),
        same: u32::from(result == Ok(true)),
    }
}

/// The answer that what was found at a name stands for: zeros where that is
/// nothing.
pub fn find_answer(result: Result<Option<&zone::Entry>, u8>) -> FindAnswer {
    let found = result.ok().flatten();
    FindAnswer {
        refusal: refusal(&result),
        entry: found.unwrap_or(&zone::Entry::FREE).twin(),
    }
}
