//! The calls on a lent zone, with the names in rising order, in which the sort
//! in second/ is quickest, and shuffled.

use std::hint::black_box;

use jespurla::raw::{self, RequestAnswer};
use second::job::{DONE, GONE};
use second::zone::{Address, Name, Zone};

use crate::common::product;
use crate::common::requests::{Kind, Request};
use crate::common::twin::Twin;
use crate::second_lent;
use crate::steady::{Steady, ABSENT, BARE, THERE};
use crate::timer::Table;
use crate::zones::{long, short, shuffled, ADDRESS, OWNER};

/// An address that comes to a name that has another.
const OTHER: Address = [8; 16];

/// A request in the product's types.
struct Ours {
    kind: Kind,
    name: raw::Name,
    dhcid: raw::Dhcid,
    address: raw::Address,
    policy: u8,
}

impl Ours {
    fn new(request: &Request) -> Ours {
        Ours {
            kind: request.kind,
            name: request.name.twin(),
            dhcid: raw::Dhcid {
                octets: request.dhcid,
            },
            address: raw::Address {
                octets: request.address,
            },
            policy: request.policy,
        }
    }

    fn send(&self, zone: &mut raw::Zone) -> RequestAnswer {
        let (name, dhcid, address) = (&self.name, &self.dhcid, &self.address);
        match self.kind {
            Kind::A => raw::request_a_lent(zone, name, dhcid, 6, address),
            Kind::B => raw::request_b_lent(zone, name, dhcid, 6, address, self.policy),
            Kind::RemoveFirst => raw::request_remove_address_lent(zone, name, dhcid, 6, address),
            Kind::RemoveSecond => raw::request_remove_name_lent(zone, name, dhcid, 6, address),
        }
    }

    /// The whole job: an add where the request is A.
    fn run(&self, zone: &mut raw::Zone) -> raw::Job {
        let (name, dhcid, address) = (&self.name, &self.dhcid, &self.address);
        let made = match self.kind {
            Kind::A => raw::new_add(name, dhcid, 6, address, self.policy),
            _ => raw::new_remove(name, dhcid, 6, address),
        };
        let mut job = made.job;
        while job.stage != DONE && job.stage != GONE {
            job = raw::job_step_lent(zone, &job).job;
        }
        job
    }
}

/// A request of the owner's.
fn request(kind: Kind, name: Name, address: Address, policy: u8) -> Request {
    Request {
        kind,
        name,
        dhcid: OWNER,
        family: 6,
        address,
        policy,
    }
}

fn form(rows: &mut Table, title: &str, steady: &Steady) {
    let (name, given) = (steady.name, steady.name.twin());
    let ours = |zone: &mut raw::Zone| raw::zone_check_lent(zone, black_box(&given), 6, 1).refusal;
    let second = |zone: &mut Zone| second_lent::check(zone, *black_box(&name), 6, 1);
    let lent = |zone: &mut Zone| second_lent::check_on_references(zone, black_box(&name), 6, 1);
    let mut zone = steady.zone.clone();
    assert_eq!((ours(&mut zone.twin()), second(&mut zone)), (0, 0));
    steady.compare(
        rows,
        &format!("lent, form check, {title}"),
        ours,
        second,
        lent,
    );
}

fn send(rows: &mut Table, title: &str, steady: &Steady, request: &Request) {
    let given = Ours::new(request);
    let ours = |zone: &mut raw::Zone| black_box(&given).send(zone);
    let second = |zone: &mut Zone| second_lent::send(zone, black_box(request));
    let lent = |zone: &mut Zone| second_lent::send_on_references(zone, black_box(request));
    let told = ours(&mut steady.zone.twin());
    let reply = second(&mut steady.zone.clone());
    assert_eq!(told.refusal, 0);
    assert_eq!(product::reply(request.kind, told.answer), reply);
    steady.compare(rows, &format!("lent, {title}"), ours, second, lent);
}

fn run_whole(rows: &mut Table, title: &str, steady: &Steady, request: &Request) {
    let given = Ours::new(request);
    let ours = |zone: &mut raw::Zone| black_box(&given).run(zone);
    let second = |zone: &mut Zone| second_lent::run(zone, black_box(request));
    let lent = |zone: &mut Zone| second_lent::run_on_references(zone, black_box(request));
    let job = ours(&mut steady.zone.twin());
    assert_eq!(job, second(&mut steady.zone.clone()).twin());
    steady.compare(rows, &format!("lent, {title}"), ours, second, lent);
}

/// Every call at the last of `count` names.
fn sizes(rows: &mut Table, order: &str, count: usize, name: impl Fn(usize) -> Name) {
    let zone = |place| Steady::new(count, &name, place);
    let (absent, there, bare) = (zone(ABSENT), zone(THERE), zone(BARE));
    let with = |kind, address, policy| request(kind, there.name, address, policy);
    let of = format!("zone of {count}{order}");
    form(rows, &of, &there);
    let add = with(Kind::A, ADDRESS, 0);
    send(
        rows,
        &format!("request A, name to come, {of}"),
        &absent,
        &add,
    );
    send(rows, &format!("request A, name there, {of}"), &there, &add);
    let add = with(Kind::B, OTHER, 1);
    send(rows, &format!("request B, {of}"), &there, &add);
    let remove = with(Kind::RemoveFirst, ADDRESS, 0);
    send(rows, &format!("first remove, {of}"), &there, &remove);
    let remove = with(Kind::RemoveSecond, ADDRESS, 0);
    send(rows, &format!("second remove, {of}"), &bare, &remove);
    let add = with(Kind::A, ADDRESS, 0);
    run_whole(rows, &format!("add job, name to come, {of}"), &absent, &add);
    let add = with(Kind::A, OTHER, 0);
    run_whole(rows, &format!("add job, name held, {of}"), &there, &add);
    let remove = with(Kind::RemoveFirst, ADDRESS, 0);
    run_whole(rows, &format!("remove job, {of}"), &there, &remove);
}

/// The longest names.
fn longest(rows: &mut Table, order: &str, name: impl Fn(usize) -> Name) {
    let there = Steady::new(64, name, THERE);
    let of = format!("64 names of 255 octets{order}");
    form(rows, &of, &there);
    let add = request(Kind::B, there.name, OTHER, 1);
    send(rows, &format!("request B, {of}"), &there, &add);
}

/// Request B at the last of 63 names, with the name in capital letters.
fn other_letters(rows: &mut Table) {
    let there = Steady::new(63, short, THERE);
    let name = Name::new(&there.name.as_slice().to_ascii_uppercase()).expect("short");
    let add = request(Kind::B, name, OTHER, 1);
    send(rows, "request B, other letters, zone of 63", &there, &add);
}

pub fn run(rows: &mut Table) {
    for count in [1, 4, 16, 64] {
        sizes(rows, "", count, short);
    }
    longest(rows, "", long);
    other_letters(rows);
    for count in [4, 16, 64] {
        sizes(rows, ", shuffled", count, |at| short(shuffled(at)));
    }
    longest(rows, ", shuffled", |at| long(shuffled(at)));
}
