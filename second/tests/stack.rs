//! The product's calls on a zone do with the stack that they are to do with,
//! at names of as many labels as a name can have, in every place of the zone,
//! asked for in other letters than they stand in.

mod common;

use std::fmt::Debug;

use common::jobs::{counts, STAGES};
use common::lent::is_same;
use common::product::{find_answer, same_answer, Way, WAYS};
use common::requests::{Kind, Request};
use common::stack::on_a_stack;
use common::twin::Twin;
use jespurla::raw;
use second::job::Job;
use second::lookup::{find, same};
use second::zone::{Address, Dhcid, Entry, Name, Set, Zone, HELD, PLACES};

const OWNER: Dhcid = [7; 35];
const HERE: Address = [9; 16];
const LAST: usize = PLACES - 1;

/// A name of 127 labels.
fn deep(number: usize) -> Name {
    let mut octets = [1; 255];
    for label in 0..127 {
        octets[2 * label + 1] = b'a' + (number >> (label % 6) & 1) as u8;
    }
    octets[254] = 0;
    Name::new(&octets).expect("255 octets")
}

/// The same name in capital letters.
fn capital(number: usize) -> Name {
    Name::new(&deep(number).as_slice().to_ascii_uppercase()).expect("255 octets")
}

/// A full zone of names that the owner holds.
fn full(v6: Set<16>) -> Zone {
    let mut zone = Zone::EMPTY;
    for (number, entry) in zone.entries.iter_mut().enumerate() {
        *entry = Entry {
            kind: HELD,
            name: deep(number),
            dhcid: OWNER,
            v6,
            ..Entry::FREE
        };
    }
    zone
}

/// Zones, each with the refusal that it meets: the last name there with an
/// address and without, absent, and without its end.
fn zones() -> [(Zone, u32); 4] {
    let held = full(Set::only(HERE));
    let (mut absent, mut broken) = (held.clone(), held.clone());
    absent.entries[LAST] = Entry::FREE;
    broken.entries[LAST].name.octets[254] = 1;
    [(held, 0), (full(Set::EMPTY), 0), (absent, 0), (broken, 17)]
}

/// Runs a call each way, on a thread with the stack of that way. Both tell
/// the same and leave the same octets.
fn run<T: PartialEq + Debug + Send>(
    zone: &Zone,
    call: impl Fn(Way, &mut raw::Zone) -> T + Sync,
) -> T {
    let [by_value, lent] = WAYS.map(|way| {
        let mut zone = zone.twin();
        let told = on_a_stack(way.stack(), || call(way, &mut zone));
        (told, zone)
    });
    assert_eq!(by_value.0, lent.0);
    assert!(is_same(&by_value.1, &lent.1));
    lent.0
}

/// A request of the owner's at the last name.
fn request(kind: Kind, policy: u8) -> Request {
    Request {
        kind,
        name: capital(LAST),
        dhcid: OWNER,
        family: 6,
        address: HERE,
        policy,
    }
}

/// A job of the owner's at the last name.
fn job(stage: u8) -> Job {
    Job {
        stage,
        count: counts(stage).map_or(0, |possible| possible[0]),
        family: 6,
        policy: 1,
        name: capital(LAST),
        dhcid: OWNER,
        address: HERE,
    }
}

#[test]
fn requests_do_with_their_stack() {
    let removes = [
        request(Kind::RemoveFirst, 0),
        request(Kind::RemoveSecond, 0),
    ];
    let adds = [0, 1, 2].map(|policy| request(Kind::B, policy));
    let requests = [&[request(Kind::A, 0)], &adds[..], &removes[..]].concat();
    for (zone, refusal) in zones() {
        for request in &requests {
            let checked = run(&zone, |way, zone| way.check(zone, request));
            let told = run(&zone, |way, zone| way.send(zone, request));
            assert_eq!((checked, told.refusal), (refusal, refusal));
        }
    }
}

/// The names, last first, each found where it stands; the zones, each with
/// each, turned round.
#[test]
fn lookups_do_with_their_stack() {
    let stack = Way::Lent.stack();
    for (zone, refusal) in zones() {
        let left = zone.twin();
        for number in (0..PLACES).rev() {
            let name = capital(number);
            let told = on_a_stack(stack, || raw::zone_find(&left, &name.twin()));
            assert_eq!(told, find_answer(find(&zone, &name)));
            assert_eq!(told.refusal, refusal);
        }
        for (mut other, _) in zones() {
            other.entries.reverse();
            other.entries[0].name.octets.make_ascii_uppercase();
            let right = other.twin();
            let told = on_a_stack(stack, || raw::zone_same(&left, &right));
            assert_eq!(told, same_answer(same(&zone, &other)));
        }
    }
}

#[test]
fn steps_do_with_their_stack() {
    for (zone, refusal) in zones() {
        for stage in STAGES {
            let job = job(stage).twin();
            let told = run(&zone, |way, zone| way.step(zone, &job));
            assert_eq!(told.refusal, refusal);
        }
    }
}
