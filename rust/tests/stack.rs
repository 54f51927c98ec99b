//! The calls do with little stack where the zone is lent.

use std::net::Ipv6Addr;
use std::thread;

use jespurla::{lease_query, query_by_client_id, read_lease_reply};
use jespurla::{Answer, Dhcid, Entry, Job, Name, Policy, Refusal, Stage, Standing, Zone};
use jespurla::{Expiry, Lease, Moment};

const X: Dhcid = Dhcid::new([b'X'; 35]);
const HERE: Ipv6Addr = Ipv6Addr::LOCALHOST;

/// A name of 127 labels.
fn deep(number: usize) -> Name {
    let mut wire = [1; 255];
    for label in 0..127 {
        wire[2 * label + 1] = b'a' + (number >> (label % 6) & 1) as u8;
    }
    wire[254] = 0;
    Name::from_wire(&wire).expect("255 octets")
}

/// Every call on a zone, at its last name.
fn calls(zone: &mut Zone, other: &Zone) -> Result<(), Refusal> {
    let name = deep(63);
    assert_eq!(zone.request_a(&name, &X, HERE)?, Answer::YxDomain);
    assert_eq!(
        zone.request_b(&name, &X, HERE, Policy::OnlyThis)?,
        Answer::NoError
    );
    assert!(zone == other && zone.check().is_ok());
    let job = Job::remove(&name, &X, HERE)?.run(zone)?;
    assert_eq!(job.stage(), Stage::RemoveGone);
    assert_eq!(zone.find(&name)?, Standing::Absent);
    let job = Job::add(&name, &X, HERE, Policy::KeepOthers)?.run(zone)?;
    assert_eq!(job.stage(), Stage::AddDone);
    assert!(zone == other && zone.entries().count() == 64);
    Ok(())
}

/// The smallest stack that Rust's threads have, some 24 KiB, holds no zone.
#[test]
fn calls_on_a_zone_do_with_little_stack() {
    let names = (0..64).map(|number| Entry {
        name: deep(number),
        owner: Some(X),
        addresses: jespurla::Addresses::from_slice(&[HERE.into()]).expect("one"),
    });
    let other = Box::new(Zone::from_entries(names).expect("64 names"));
    let mut zone = other.clone();
    let work = move || calls(&mut zone, &other);
    let thread = thread::Builder::new().stack_size(16 * 1024).spawn(work);
    assert_eq!(thread.expect("a thread").join().expect("done"), Ok(()));
}

/// A query, the reply over a full table, and the 63 addresses that are read of it.
fn ask(table: &[Lease]) -> Result<usize, Refusal> {
    let (mut query, mut reply) = ([0; 501], [0; 648]);
    let query = query_by_client_id(7, [10, 0, 0, 1].into(), &[3; 64], &mut query)?;
    let reply = lease_query(
        Moment::LATEST,
        table,
        [10, 0, 0, 2].into(),
        query,
        &mut reply,
    )?;
    let told = read_lease_reply(7, reply.as_bytes())?;
    Ok(told.addresses().count())
}

#[test]
fn lease_queries_do_with_little_stack() {
    let leased = |number: u32| {
        let lease = Lease::leased((number + 1).into(), Moment::LATEST, Expiry::Never);
        lease.with_client_id(&[3; 64]).expect("64 octets")
    };
    let table: Vec<Lease> = (0..256).map(leased).collect();
    let work = move || ask(&table);
    let thread = thread::Builder::new().stack_size(16 * 1024).spawn(work);
    assert_eq!(thread.expect("a thread").join().expect("done"), Ok(63));
}
