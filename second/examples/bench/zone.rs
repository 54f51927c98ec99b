//! One zone request with its form check, on zones of several sizes.

use std::hint::black_box;

use second::zone::{as_set, check, Entry, Name, Set, Zone};

use crate::common::product;
use crate::common::requests::{self, Kind, Request};
use crate::common::twin::Twin;
use crate::timer::Table;
use crate::zones::{long, short, zone_of, ADDRESS, OWNER};

/// A zone of `count` held names, two addresses each.
fn zone(count: usize, name: fn(usize) -> Name) -> Zone {
    let entry = Entry {
        v4: Set::only([1, 2, 3, 4]),
        v6: Set::only([5; 16]),
        ..Entry::FREE
    };
    zone_of(count, name, entry)
}

/// A request of the last name's owner.
fn request(kind: Kind, name: Name) -> Request {
    Request {
        kind,
        name,
        dhcid: OWNER,
        family: 6,
        address: ADDRESS,
        policy: 1,
    }
}

fn case(rows: &mut Table, title: &str, zone: &Zone, request: &Request) {
    let given = zone.twin();
    let product = || product::send(black_box(&given), black_box(request));
    let by_value = || {
        let mut zone = black_box(zone).clone();
        let reply = requests::send(&mut zone, black_box(request));
        (reply, zone)
    };
    let (reply, mut next) = by_value();
    let got = product();
    assert_eq!(product::reply(request.kind, got.answer), reply.ok());
    assert_eq!(as_set(&got.zone.twin()), as_set(&next));
    // The same request again leaves the zone as it is.
    let lent = || requests::send(black_box(&mut next), black_box(request));
    rows.compare_lent(title, product, by_value, lent);
}

/// The second program's check behind the product's interface.
#[allow(improper_ctypes_definitions)]
#[inline(never)]
extern "C" fn check_by_value(zone: Zone) -> bool {
    check(&zone).is_ok()
}

/// The form check alone.
fn form(rows: &mut Table, title: &str, zone: &Zone, name: Name) {
    let given = zone.twin();
    let request = request(Kind::B, name);
    let product = || product::check(black_box(&given), black_box(&request));
    let second = || check_by_value(black_box(zone).clone());
    let lent = || check(black_box(zone));
    assert_eq!((product(), second(), lent()), (0, true, Ok(())));
    rows.compare_lent(&format!("form check, {title}"), product, second, lent);
}

/// A request at the last name of a zone, on zones of several sizes.
fn sizes(rows: &mut Table, title: &str, kind: Kind, counts: &[usize]) {
    for &count in counts {
        let title = format!("{title}, zone of {count}");
        case(
            rows,
            &title,
            &zone(count, short),
            &request(kind, short(count - 1)),
        );
    }
}

pub fn run(rows: &mut Table) {
    for count in [1, 16, 64] {
        form(
            rows,
            &format!("zone of {count}"),
            &zone(count, short),
            short(0),
        );
    }
    form(rows, "64 names of 255 octets", &zone(64, long), long(0));
    sizes(rows, "request B", Kind::B, &[1, 4, 16, 64]);
    sizes(rows, "request A", Kind::A, &[1, 16, 64]);
    sizes(rows, "first remove", Kind::RemoveFirst, &[1, 16, 64]);
    sizes(rows, "second remove", Kind::RemoveSecond, &[1, 16, 64]);
    let title = "request B, 64 names of 255 octets";
    case(rows, title, &zone(64, long), &request(Kind::B, long(63)));
}
