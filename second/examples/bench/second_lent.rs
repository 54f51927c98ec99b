//! The second program on a lent zone: behind the product's interface, where
//! all but the zone is handed in and back, and on references.

use jespurla::raw::SameAnswer;
use second::job::{self, Job};
use second::lookup;
use second::zone::{self, Address, Dhcid, Entry, Name, Zone};

use crate::common::jobs::fresh;
use crate::common::product::same_answer;
use crate::common::requests::{self, Kind, Reply, Request};
use crate::job::{second_add, second_remove};

/// The check behind the product's interface.
#[allow(improper_ctypes_definitions)]
#[inline(never)]
pub extern "C" fn check(zone: &Zone, name: Name, family: u8, policy: u8) -> u32 {
    zone::check_request(zone, &name, family, policy).map_or_else(u32::from, |()| 0)
}

#[allow(improper_ctypes_definitions)]
#[inline(never)]
extern "C" fn request_a(z: &mut Zone, n: Name, d: Dhcid, family: u8, a: Address) -> Option<Reply> {
    let answer = zone::request_a(z, &n, &d, family, &a);
    answer.map(Reply::from).ok()
}

#[allow(improper_ctypes_definitions)]
#[inline(never)]
extern "C" fn request_b(
    z: &mut Zone,
    n: Name,
    d: Dhcid,
    family: u8,
    a: Address,
    policy: u8,
) -> Option<Reply> {
    let answer = zone::request_b(z, &n, &d, family, &a, policy);
    answer.map(Reply::from).ok()
}

#[allow(improper_ctypes_definitions)]
#[inline(never)]
extern "C" fn remove_first(
    z: &mut Zone,
    n: Name,
    d: Dhcid,
    family: u8,
    a: Address,
) -> Option<Reply> {
    let answer = zone::request_remove_first(z, &n, &d, family, &a);
    answer.map(Reply::from).ok()
}

#[allow(improper_ctypes_definitions)]
#[inline(never)]
extern "C" fn remove_second(z: &mut Zone, n: Name, d: Dhcid, family: u8) -> Option<Reply> {
    let answer = zone::request_remove_second(z, &n, &d, family);
    answer.map(Reply::from).ok()
}

#[allow(improper_ctypes_definitions)]
#[inline(never)]
extern "C" fn step(zone: &mut Zone, mut job: Job) -> (u8, Job) {
    let refusal = job::step_in_place(zone, &mut job).err();
    (refusal.unwrap_or(0), job)
}

/// Whether two zones are the same, behind the product's interface.
#[allow(improper_ctypes_definitions)]
#[inline(never)]
pub extern "C" fn same(left: &Zone, right: &Zone) -> SameAnswer {
    same_answer(lookup::same(left, right))
}

/// What stands at a name, behind the product's interface: the refusal or 0, and
/// a copy of the place or a free one.
#[allow(improper_ctypes_definitions)]
#[inline(never)]
pub extern "C" fn find(zone: &Zone, name: Name) -> (u8, Entry) {
    match lookup::find(zone, &name) {
        Ok(found) => (0, *found.unwrap_or(&Entry::FREE)),
        Err(refusal) => (refusal, Entry::FREE),
    }
}

/// A request behind the product's interface.
pub fn send(zone: &mut Zone, request: &Request) -> Option<Reply> {
    let Request {
        kind,
        name,
        dhcid,
        address,
        policy,
        ..
    } = *request;
    match kind {
        Kind::A => request_a(zone, name, dhcid, 6, address),
        Kind::B => request_b(zone, name, dhcid, 6, address, policy),
        Kind::RemoveFirst => remove_first(zone, name, dhcid, 6, address),
        Kind::RemoveSecond => remove_second(zone, name, dhcid, 6),
    }
}

/// A whole job behind the product's interface: an add where the request is A.
pub fn run(zone: &mut Zone, request: &Request) -> Job {
    let Request {
        name,
        dhcid,
        address,
        policy,
        ..
    } = *request;
    let made = match request.kind {
        Kind::A => second_add(name, dhcid, 6, address, policy),
        _ => second_remove(name, dhcid, 6, address),
    };
    let mut job = made.expect("a sound job");
    while !job.has_ended() {
        job = step(zone, job).1;
    }
    job
}

/// The check on references.
#[inline(never)]
pub fn check_on_references(zone: &Zone, name: &Name, family: u8, policy: u8) -> Result<(), u8> {
    zone::check_request(zone, name, family, policy)
}

/// Whether two zones are the same, on references.
#[inline(never)]
pub fn same_on_references(left: &Zone, right: &Zone) -> Result<bool, u8> {
    lookup::same(left, right)
}

/// What stands at a name, on references.
#[inline(never)]
pub fn find_on_references<'a>(zone: &'a Zone, name: &Name) -> Result<Option<&'a Entry>, u8> {
    lookup::find(zone, name)
}

/// A request on references.
#[inline(never)]
pub fn send_on_references(zone: &mut Zone, request: &Request) -> Result<Reply, u8> {
    requests::send(zone, request)
}

/// A whole job on references.
#[inline(never)]
pub fn run_on_references(zone: &mut Zone, request: &Request) -> Job {
    let mut job = fresh(request).expect("a sound job");
    while !job.has_ended() {
        job::step_in_place(zone, &mut job).expect("a sound step");
    }
    job
}
