//! The flag decision and the name option answer.

use std::hint::black_box;

use jespurla::raw::{self, FlagAnswer};
use second::name_option::{answer, flag_decision};

use crate::common::product::{flag_answer, name_answer};
use crate::timer::Table;

/// A name of labels of `label` octets each, `octets` in all, full if `full`.
fn name(octets: usize, label: u8, full: bool) -> Vec<u8> {
    let mut name = Vec::new();
    while name.len() + usize::from(full) < octets {
        let left = octets - usize::from(full) - name.len() - 1;
        let label = left.min(usize::from(label));
        name.push(label as u8);
        name.resize(name.len() + label, b'n');
    }
    if full {
        name.push(0);
    }
    name
}

fn option(rows: &mut Table, title: &str, name: &[u8], suffix: &[u8]) {
    let value = [&[1], name].concat();
    let (mut ours, mut theirs) = ([7; 256], [7; 256]);
    let mut product = || {
        let (value, suffix) = (black_box(&value), black_box(suffix));
        raw::name_option_answer(value, suffix, 1, 0, black_box(&mut ours))
    };
    let mut second = || {
        let (value, suffix) = (black_box(&value), black_box(suffix));
        answer(value, suffix, true, false, black_box(&mut theirs))
    };
    let expected = second();
    assert!(expected.is_ok(), "a sound option");
    assert_eq!(product(), name_answer(expected));
    let title = format!("name option, {title}");
    rows.compare(&title, product, second);
    assert_eq!(ours, theirs);
}

/// The second program's flag decision behind the product's interface: a call,
/// and a refusal beside a result.
#[inline(never)]
extern "C" fn second_flags(flags: u8, honour_s: u8, honour_n: u8) -> FlagAnswer {
    flag_answer(flag_decision(flags, honour_s != 0, honour_n != 0))
}

/// A decision at all 32 places of its table, one after the other.
fn in_turn<T>(decide: impl Fn(u8, u8, u8) -> T) {
    for place in 0..32 {
        black_box(&decide(black_box(place), place & 8, place & 16));
    }
}

/// The flag decision of one octet, and of all.
fn decisions(rows: &mut Table) {
    // The linker fills in the product's address, and the compiler calls it through a pointer: so
    // the second program's is called that way too.
    let second: extern "C" fn(u8, u8, u8) -> FlagAnswer = black_box(second_flags);
    let lent = |flags, honour_s, honour_n| flag_decision(flags, honour_s != 0, honour_n != 0);
    assert_eq!(raw::flag_decision(249, 1, 0), flag_answer(Ok(1)));
    rows.compare_lent(
        "flag decision",
        || raw::flag_decision(black_box(249), 1, 0),
        || second(black_box(249), 1, 0),
        || lent(black_box(249), 1, 0),
    );
    rows.compare_lent(
        "flag decision, 32 in turn",
        || in_turn(raw::flag_decision),
        || in_turn(|flags, honour_s, honour_n| second(flags, honour_s, honour_n)),
        || in_turn(lent),
    );
}

pub fn run(rows: &mut Table) {
    decisions(rows);
    let suffix = b"\x05stage\x00";
    option(rows, "whole, 13 octets", &name(13, 5, true), suffix);
    option(
        rows,
        "whole, 255 octets, labels of 63",
        &name(255, 63, true),
        suffix,
    );
    option(
        rows,
        "whole, 255 octets, labels of 1",
        &name(255, 1, true),
        suffix,
    );
    option(
        rows,
        "completed, 6 and 7 octets",
        &name(6, 5, false),
        suffix,
    );
    let long = name(127, 63, true);
    option(
        rows,
        "completed, 128 and 127 octets",
        &name(128, 63, false),
        &long,
    );
    let many = name(127, 1, true);
    option(rows, "completed, labels of 1", &name(128, 1, false), &many);
}
