//! The desk's half of the lease query: queries written, replies read.

use std::hint::black_box;

use jespurla::raw;
use second::desk_query::{by_address, by_client_id, by_hardware};
use second::desk_reply::read;

use crate::common::product::lease_reading;
use crate::timer::Table;

const XID: u32 = 0x0102_0304;
const RELAY: u32 = 0x0a00_0001;
const ADDRESS: u32 = 0x0a00_0007;
/// The octets that a query's buffer must have.
const ROOM: usize = 501;

/// A query by address, by both.
fn write_by_address(rows: &mut Table) {
    let (mut ours, mut theirs) = ([7; ROOM], [7; ROOM]);
    rows.compare(
        "desk, query by address",
        || raw::query_by_address(XID, RELAY, black_box(ADDRESS), black_box(&mut ours)),
        || by_address(XID, RELAY, black_box(ADDRESS), black_box(&mut theirs)),
    );
    assert_eq!(ours, theirs);
}

/// A query by hardware address, by both.
fn write_by_hardware(rows: &mut Table) {
    let (mut ours, mut theirs) = ([7; ROOM], [7; ROOM]);
    let mac = [2, 4, 6, 8, 10, 12];
    rows.compare(
        "desk, query by hardware",
        || raw::query_by_hardware(XID, RELAY, 1, black_box(&mac), black_box(&mut ours)),
        || by_hardware(XID, RELAY, 1, black_box(&mac), black_box(&mut theirs)),
    );
    assert_eq!(ours, theirs);
}

/// A query by a client id of some octets, by both.
fn write_by_client_id(rows: &mut Table, octets: usize) {
    let (mut ours, mut theirs) = ([7; ROOM], [7; ROOM]);
    let id = vec![9; octets];
    rows.compare(
        &format!("desk, query by client id of {octets}"),
        || raw::query_by_client_id(XID, RELAY, black_box(&id), black_box(&mut ours)),
        || by_client_id(XID, RELAY, black_box(&id), black_box(&mut theirs)),
    );
    assert_eq!(ours, theirs);
}

/// A reply of a kind with these options behind options 53 and 54.
fn reply(kind: u8, options: &[u8]) -> Vec<u8> {
    let mut reply = vec![0; 240];
    reply[0] = 2;
    reply[1..3].copy_from_slice(&[1, 6]);
    reply[4..8].copy_from_slice(&XID.to_be_bytes());
    reply[12..16].copy_from_slice(&ADDRESS.to_be_bytes());
    reply[236..].copy_from_slice(&[99, 130, 83, 99]);
    reply.extend([53, 1, kind, 54, 4, 10, 0, 0, 2]);
    reply.extend(options);
    reply.push(255);
    reply
}

/// What tells of an active lease, with this many addresses.
fn active(addresses: u8) -> Vec<u8> {
    let mut options = vec![51, 4, 0, 0, 14, 16];
    options.extend([61, 4, 1, 2, 3, 4]);
    options.extend([91, 4, 0, 0, 0, 50]);
    if addresses > 0 {
        options.extend([92, 4 * addresses]);
        options.extend(vec![10; 4 * usize::from(addresses)]);
    }
    options
}

fn case(rows: &mut Table, title: &str, reply: &[u8]) {
    let product = || raw::lease_reply_read(XID, black_box(reply));
    let second = || read(XID, black_box(reply));
    assert_eq!(product(), lease_reading(second()));
    rows.compare(&format!("desk, reply read, {title}"), product, second);
}

pub fn run(rows: &mut Table) {
    write_by_address(rows);
    write_by_hardware(rows);
    for octets in [7, 255] {
        write_by_client_id(rows, octets);
    }
    case(rows, "unknown", &reply(12, &[]));
    case(rows, "active", &reply(13, &active(0)));
    case(rows, "active, 63 addresses", &reply(13, &active(63)));
    let padding = vec![0; 1_500 - reply(13, &active(0)).len()];
    let padded = reply(13, &[active(0), padding].concat());
    case(rows, "active, 1,500 octets", &padded);
}
