//! New jobs, and whole jobs from the new job call to their end, on zones of
//! several sizes; both programs hand zone and job in and back by the C convention.

use std::hint::black_box;

use jespurla::raw;
use second::job::{self, Job, DONE, GONE};
use second::zone::{as_set, Entry, Name, Set, Zone};

use crate::common::jobs::fresh;
use crate::common::product;
use crate::common::requests::{Kind, Request};
use crate::common::twin::Twin;
use crate::timer::Table;
use crate::zones::{self, short, ADDRESS, OWNER};

/// A zone of `count` held names, one address each.
fn zone_of(count: usize) -> Zone {
    let entry = Entry {
        v6: Set::only(ADDRESS),
        ..Entry::FREE
    };
    zones::zone_of(count, short, entry)
}

/// A new job of the owner's.
fn request(kind: Kind, number: usize) -> Request {
    Request {
        kind,
        name: short(number),
        dhcid: OWNER,
        family: 6,
        address: ADDRESS,
        policy: 0,
    }
}

/// The product's whole job.
fn ours(start: &raw::Zone, request: &Request) -> raw::Stepped {
    let job = product::new_job(request).job;
    let mut last = raw::job_step(start, &job);
    while last.job.stage != DONE && last.job.stage != GONE {
        last = raw::job_step(&last.zone, &last.job);
    }
    last
}

/// The second program's step behind the product's interface.
#[allow(improper_ctypes_definitions)]
#[inline(never)]
extern "C" fn second_step(zone: Zone, job: Job) -> (u8, Zone, Job) {
    job::step(zone, job)
}

/// The second program's whole job.
fn second(start: &Zone, request: &Request) -> (u8, Zone, Job) {
    let made = fresh(request).expect("a sound job");
    let mut last = second_step(start.clone(), made);
    while last.2.stage != DONE && last.2.stage != GONE {
        last = second_step(last.1, last.2);
    }
    last
}

fn case(rows: &mut Table, title: &str, start: &Zone, request: &Request) {
    let given = start.twin();
    let ours = || ours(black_box(&given), black_box(request));
    let second = || second(black_box(start), black_box(request));
    let (last, (_, expected, expected_job)) = (ours(), second());
    assert_eq!(last.job, expected_job.twin());
    assert_eq!(as_set(&last.zone.twin()), as_set(&expected));
    rows.compare(title, ours, second);
}

/// The second program's new job calls behind the product's interface.
#[allow(improper_ctypes_definitions)]
#[inline(never)]
pub extern "C" fn second_add(
    n: Name,
    d: [u8; 35],
    family: u8,
    a: [u8; 16],
    policy: u8,
) -> Option<Job> {
    job::new_add(&n, &d, family, &a, policy).ok()
}

#[allow(improper_ctypes_definitions)]
#[inline(never)]
pub extern "C" fn second_remove(n: Name, d: [u8; 35], family: u8, a: [u8; 16]) -> Option<Job> {
    job::new_remove(&n, &d, family, &a).ok()
}

/// The new job calls alone.
fn new_jobs(rows: &mut Table) {
    let name = short(0);
    let given = name.twin();
    let (dhcid, address) = (
        raw::Dhcid { octets: OWNER },
        raw::Address { octets: ADDRESS },
    );
    let ours = || raw::new_add(black_box(&given), &dhcid, 6, &address, 0);
    let by_value = || second_add(*black_box(&name), OWNER, 6, ADDRESS, 0);
    let lent = || job::new_add(black_box(&name), &OWNER, 6, &ADDRESS, 0);
    assert_eq!(ours().job, by_value().expect("a sound job").twin());
    rows.compare_lent("new add", ours, by_value, lent);
    let ours = || raw::new_remove(black_box(&given), &dhcid, 6, &address);
    let by_value = || second_remove(*black_box(&name), OWNER, 6, ADDRESS);
    let lent = || job::new_remove(black_box(&name), &OWNER, 6, &ADDRESS);
    assert_eq!(ours().job, by_value().expect("a sound job").twin());
    rows.compare_lent("new remove", ours, by_value, lent);
}

pub fn run(rows: &mut Table) {
    new_jobs(rows);
    for count in [1, 4, 16, 64] {
        let title = format!("add job, name to come, zone of {count}");
        let add = request(Kind::A, count - 1);
        case(rows, &title, &zone_of(count - 1), &add);
        let title = format!("add job, name held, zone of {count}");
        case(rows, &title, &zone_of(count), &add);
        let title = format!("remove job, zone of {count}");
        let remove = request(Kind::RemoveFirst, count - 1);
        case(rows, &title, &zone_of(count), &remove);
    }
}
