//! Whether two zones of 64 names are the same, and what stands at a name of
//! one. Nothing is changed, so nothing is put back.

use std::hint::black_box;

use jespurla::raw;
use second::zone::{Entry, Name, Set, Zone};

use crate::common::product::{find_answer, same_answer};
use crate::common::twin::Twin;
use crate::second_lent;
use crate::timer::Table;
use crate::zones::{long, short, shuffled, zone_of, ADDRESS};

/// A full zone of held names, one address each.
fn full(name: impl Fn(usize) -> Name) -> Zone {
    let entry = Entry {
        v6: Set::only(ADDRESS),
        ..Entry::FREE
    };
    zone_of(64, name, entry)
}

fn same(rows: &mut Table, title: &str, left: &Zone, right: &Zone, answer: bool) {
    let (one, other) = (left.twin(), right.twin());
    let ours = || raw::zone_same(black_box(&one), black_box(&other));
    let second = || second_lent::same(black_box(left), black_box(right));
    let lent = || second_lent::same_on_references(black_box(left), black_box(right));
    assert_eq!(lent(), Ok(answer));
    assert_eq!([ours(), second()], [same_answer(Ok(answer)); 2]);
    rows.compare_lent(&format!("lent, same, {title}"), ours, second, lent);
}

fn find(rows: &mut Table, title: &str, zone: &Zone, name: &Name, is_there: bool) {
    let (given, wanted) = (zone.twin(), name.twin());
    let ours = || raw::zone_find(black_box(&given), black_box(&wanted));
    let second = || second_lent::find(black_box(zone), *black_box(name));
    let lent = || second_lent::find_on_references(black_box(zone), black_box(name));
    assert_eq!(lent().map(|found| found.is_some()), Ok(is_there));
    assert_eq!(ours(), find_answer(lent()));
    rows.compare_lent(&format!("lent, find, {title}"), ours, second, lent);
}

/// Both calls on zones of these names, of which `absent` is none.
fn names(rows: &mut Table, of: &str, name: impl Fn(usize) -> Name, absent: &Name) {
    let zone = full(&name);
    let permuted = full(|at| name(shuffled(at)));
    let mut other = zone.clone();
    other.entries[63].name = *absent;
    same(rows, &format!("{of}, other places"), &zone, &permuted, true);
    same(
        rows,
        &format!("{of}, same places"),
        &zone,
        &zone.clone(),
        true,
    );
    same(rows, &format!("{of}, last differs"), &zone, &other, false);
    find(rows, &format!("first of {of}"), &zone, &name(0), true);
    find(rows, &format!("last of {of}"), &zone, &name(63), true);
    find(rows, &format!("none of {of}"), &zone, absent, false);
}

pub fn run(rows: &mut Table) {
    names(rows, "64 names", short, &short(64));
    names(rows, "64 names of 255 octets", long, &long(64));
}
