//! The server list call, on small and on the largest areas.

use std::hint::black_box;

use jespurla::raw::{self, Moment, Span};
use second::server_list::{update, Entry, ServerList};
use second::NEVER;

use crate::common::twin::Twin;
use crate::timer::Table;

const NOW: u64 = 1_000;
/// The lifetime of the router whose area it is.
const ROUTER: u32 = 1_800;

fn address(last: u8) -> [u8; 16] {
    let mut address = *b"\x20\x01\x0d\xb8\0\0\0\0\0\0\0\0\0\0\0\0";
    address[15] = last;
    address
}

/// An RDNSS option with these addresses, given by their last octets.
fn option(lifetime: u32, servers: &[u8]) -> Vec<u8> {
    let mut octets = vec![25, 1 + 2 * servers.len() as u8, 0, 0];
    octets.extend(lifetime.to_be_bytes());
    servers
        .iter()
        .for_each(|&last| octets.extend(address(last)));
    octets
}

/// The servers 1 to `count`, whose Lifetimes alternately end and don't, all of
/// a router that still lives.
fn list(count: usize) -> ServerList {
    let mut list = ServerList {
        count,
        clock: NOW,
        ..ServerList::default()
    };
    for (entry, last) in list.entries[..count].iter_mut().zip(1..) {
        *entry = Entry {
            address: address(last),
            expiry: if last % 2 == 0 { NEVER } else { NOW + 50 },
            router: NOW + u64::from(ROUTER),
        };
    }
    list
}

/// The second program's call behind the product's interface.
#[allow(improper_ctypes_definitions)]
#[inline(never)]
extern "C" fn by_value(list: ServerList, now: u64, router: u32, area: &[u8]) -> (u8, ServerList) {
    match update(&list, now, router, area) {
        Ok(next) => (0, next),
        Err(refusal) => (refusal, list),
    }
}

fn case(rows: &mut Table, title: &str, count: usize, area: Vec<u8>) {
    let list = list(count);
    let given = list.twin();
    let product = || {
        let (given, area) = (black_box(&given), black_box(&area));
        raw::server_list(given, Moment(NOW), Span(ROUTER), area)
    };
    let second = || by_value(*black_box(&list), NOW, ROUTER, black_box(&area));
    let lent = || update(black_box(&list), NOW, ROUTER, black_box(&area));
    let expected = lent().expect("a sound list and area");
    let got = product();
    assert_eq!((got.refusal, got.list.twin()), (0, expected));
    let title = format!("server list, {title}");
    rows.compare_lent(&title, product, second, lent);
}

/// Options of 3 addresses each, up to the largest area that can be sound:
/// 1,496 octets, as options come in units of 8.
fn large(servers: impl Fn(u8) -> [u8; 3]) -> Vec<u8> {
    let mut area: Vec<u8> = (0..26).flat_map(|at| option(60, &servers(at))).collect();
    area.resize(1_496, 0);
    for padding in area[1_456..].chunks_mut(8) {
        padding[..2].copy_from_slice(&[1, 1]);
    }
    area
}

pub fn run(rows: &mut Table) {
    case(rows, "no options, 8 held", 8, vec![]);
    case(rows, "1 address renewed of 4", 4, option(60, &[3]));
    case(rows, "1 address inserted before 4", 4, option(60, &[9]));
    case(
        rows,
        "3 addresses inserted, 3 evicted",
        8,
        option(60, &[9, 10, 11]),
    );
    case(rows, "3 addresses removed of 8", 8, option(0, &[8, 1, 4]));
    case(
        rows,
        "1,496 octets, other options",
        8,
        [1, 1, 0, 0, 0, 0, 0, 0].repeat(187),
    );
    case(
        rows,
        "1,496 octets, 78 addresses renewed",
        8,
        large(|_| [1, 5, 8]),
    );
    let new = |at: u8| [3 * at + 9, 3 * at + 10, 3 * at + 11];
    case(rows, "1,496 octets, 78 addresses inserted", 8, large(new));
}
