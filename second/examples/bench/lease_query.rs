//! The lease query, over full tables and over tables of several sizes.

use std::hint::black_box;

use jespurla::raw::{self, Moment};
use second::lease_query::{answer, Lease, REPLY_MIN, TABLE_MAX};
use second::NEVER;

use crate::common::product::lease_answer;
use crate::common::twin::Twin;
use crate::timer::Table;

const NOW: u64 = 1_000_000;
const SERVER: [u8; 4] = [192, 0, 2, 1];
const MAC: [u8; 6] = [2, 4, 6, 8, 10, 12];
const ID: &[u8] = b"\x01\x02\x04\x06\x08\x0a\x0c";

/// An active lease of a client that nobody asks for.
fn lease(address: u32) -> Lease {
    let mut lease = Lease {
        address,
        state: 1,
        htype: 1,
        hlen: 6,
        chaddr: [0; 16],
        id_len: ID.len() as u8,
        id: [0; 64],
        relay_len: 20,
        relay: [9; 64],
        last_transaction: NOW - u64::from(address * 37 % 101),
        expiry: if address.is_multiple_of(5) {
            NEVER
        } else {
            NOW + 3_600
        },
    };
    lease.chaddr[..6].copy_from_slice(&MAC);
    lease.chaddr[5] = 100 + (address % 50) as u8;
    lease.id[..ID.len()].copy_from_slice(ID);
    lease.id[ID.len() - 1] = 100 + (address % 50) as u8;
    lease
}

/// A table of `count` records, without the asked client.
fn table(count: usize) -> Vec<Lease> {
    (1..).take(count).map(lease).collect()
}

/// Makes a record the asked client's.
fn give(lease: &mut Lease) {
    lease.chaddr[5] = MAC[5];
    lease.id[ID.len() - 1] = ID[ID.len() - 1];
}

/// A full table of which `matches` records are the asked client's.
fn full_table(matches: usize) -> Vec<Lease> {
    let mut table = table(TABLE_MAX);
    for number in 0..matches {
        give(&mut table[number * TABLE_MAX / matches]);
    }
    table
}

/// A query without a key, with these options behind option 53.
fn query(options: &[u8]) -> Vec<u8> {
    let mut query = vec![0; 240];
    query[0] = 1;
    query[4..8].copy_from_slice(&[1, 2, 3, 4]);
    query[24..28].copy_from_slice(&[10, 0, 0, 1]);
    query[236..].copy_from_slice(&[99, 130, 83, 99]);
    query.extend([53, 1, 10]);
    query.extend(options);
    query.push(255);
    query
}

fn by_hardware() -> Vec<u8> {
    let mut query = query(&[]);
    query[1..3].copy_from_slice(&[1, 6]);
    query[28..34].copy_from_slice(&MAC);
    query
}

fn by_id() -> Vec<u8> {
    query(&[&[61, ID.len() as u8], ID].concat())
}

fn by_address(address: u32) -> Vec<u8> {
    by_address_with(address, &[])
}

/// A query by address with these options behind option 53.
fn by_address_with(address: u32, options: &[u8]) -> Vec<u8> {
    let mut query = query(options);
    query[12..16].copy_from_slice(&address.to_be_bytes());
    query
}

fn case(rows: &mut Table, title: &str, table: &[Lease], query: &[u8]) {
    let (mut ours, mut theirs) = ([7; REPLY_MIN], [7; REPLY_MIN]);
    let lent = table.twin();
    let server = u32::from_be_bytes(SERVER);
    let mut product = || {
        let (table, query) = (black_box(&lent), black_box(query));
        raw::lease_query(Moment(NOW), table, server, query, black_box(&mut ours))
    };
    let mut second = || {
        let (table, query) = (black_box(table), black_box(query));
        answer(NOW, table, SERVER, query, black_box(&mut theirs))
    };
    assert_eq!(product(), lease_answer(second()));
    let title = format!("lease query, {title}");
    rows.compare(&title, product, second);
    assert_eq!(ours, theirs);
}

/// The three keys of the last record of a table.
fn sizes(rows: &mut Table, count: usize) {
    let mut table = table(count);
    give(&mut table[count - 1]);
    for (key, query) in [
        ("by address", by_address(count as u32)),
        ("by hardware", by_hardware()),
        ("by client id", by_id()),
    ] {
        case(rows, &format!("{key}, table of {count}"), &table, &query);
    }
}

pub fn run(rows: &mut Table) {
    for (matches, count) in [
        (0, "no match"),
        (1, "1 match"),
        (3, "3 matches"),
        (70, "70 matches"),
    ] {
        let table = full_table(matches);
        case(
            rows,
            &format!("by hardware, {count}"),
            &table,
            &by_hardware(),
        );
        case(rows, &format!("by client id, {count}"), &table, &by_id());
    }
    let full = full_table(0);
    case(rows, "by address, active", &full, &by_address(200));
    case(rows, "by address, unknown", &full, &by_address(1_000));
    let all = by_address_with(200, &[55, 4, 51, 61, 82, 91]);
    case(rows, "by address, active, 4 options listed", &full, &all);
    let one = by_address_with(200, &[55, 1, 51]);
    case(rows, "by address, active, 1 option listed", &full, &one);
    for count in [1, 16, 64, TABLE_MAX] {
        sizes(rows, count);
    }
}
