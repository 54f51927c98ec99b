//! Zones: requests, what stands at a name, equality, storage.

use std::net::{IpAddr, Ipv4Addr, Ipv6Addr};

use jespurla::limits::{NAMES_MAX, ZONE_LENGTH};
use jespurla::{Addresses, Answer, Dhcid, Entry, Name, Policy, Refusal, Standing, Zone};

const X: Dhcid = Dhcid::new([b'X'; 35]);
const Y: Dhcid = Dhcid::new([b'Y'; 35]);
const V4: Ipv4Addr = Ipv4Addr::new(10, 0, 0, 7);
const V6: Ipv6Addr = Ipv6Addr::LOCALHOST;
/// The octets of a place.
const PLACE: usize = ZONE_LENGTH / NAMES_MAX;

fn name(text: &str) -> Name {
    text.parse().expect("a name")
}

fn pipe7() -> Name {
    name("pipe7.stage")
}

fn set(addresses: &[IpAddr]) -> Addresses {
    Addresses::from_slice(addresses).expect("few")
}

fn desk() -> Entry {
    Entry {
        name: name("desk.stage"),
        owner: None,
        addresses: set(&[V4.into()]),
    }
}

/// A zone with a static name, and one that X holds.
fn zone() -> Zone {
    let mut zone = Zone::from_entries([desk()]).expect("one name");
    assert_eq!(zone.request_a(&pipe7(), &X, V6), Ok(Answer::NoError));
    zone
}

#[test]
fn each_request_gets_its_answers() {
    let (pipe7, oboe, desk) = (pipe7(), name("oboe.stage"), name("desk.stage"));
    let mut zone = zone();
    let before = zone.clone();
    assert_eq!(zone.request_a(&pipe7, &Y, V4), Ok(Answer::YxDomain));
    let keep = Policy::KeepOthers;
    assert_eq!(zone.request_b(&oboe, &X, V4, keep), Ok(Answer::NxDomain));
    assert_eq!(zone.request_b(&pipe7, &Y, V4, keep), Ok(Answer::NxRrset));
    assert_eq!(zone.request_b(&desk, &X, V4, keep), Ok(Answer::NxRrset));
    assert_eq!(
        zone.request_remove_address(&oboe, &X, V4),
        Ok(Answer::NxRrset)
    );
    assert_eq!(zone.request_remove_name(&pipe7, &Y), Ok(Answer::NxRrset));
    assert_eq!(zone.request_remove_name(&pipe7, &X), Ok(Answer::YxRrset));
    assert_eq!(zone.as_bytes(), before.as_bytes());
    assert_eq!(
        zone.request_b(&pipe7, &X, V4, Policy::OnlyThis),
        Ok(Answer::NoError)
    );
    assert_eq!(
        zone.request_remove_address(&pipe7, &X, V4),
        Ok(Answer::NoError)
    );
    assert_eq!(zone.request_remove_name(&pipe7, &X), Ok(Answer::NoError));
    assert_eq!(zone.find(&pipe7), Ok(Standing::Absent));
}

#[test]
fn policies_say_which_addresses_stay() {
    let pipe7 = pipe7();
    let other = Ipv4Addr::new(10, 0, 0, 8);
    let left = |policy| {
        let mut zone = zone();
        zone.request_b(&pipe7, &X, V4, Policy::KeepOthers)
            .expect("sound");
        zone.request_b(&pipe7, &X, other, policy).expect("sound");
        let Ok(Standing::Held { addresses, .. }) = zone.find(&pipe7) else {
            panic!("{zone:?}");
        };
        addresses
    };
    assert_eq!(
        left(Policy::KeepOthers),
        set(&[V6.into(), other.into(), V4.into()])
    );
    assert_eq!(left(Policy::OneOfFamily), set(&[V6.into(), other.into()]));
    assert_eq!(left(Policy::OnlyThis), set(&[other.into()]));
}

#[test]
fn there_is_room_for_so_much() {
    let mut zone = Zone::default();
    for number in 0..64 {
        let name = name(&format!("pipe{number}.stage"));
        assert_eq!(zone.request_a(&name, &X, V4), Ok(Answer::NoError));
    }
    assert_eq!(zone.len(), NAMES_MAX);
    assert_eq!(
        zone.request_a(&name("oboe.stage"), &X, V4),
        Ok(Answer::NoRoom)
    );
    let addresses = (8..12).map(|number| Ipv4Addr::new(10, 0, 0, number));
    let told = addresses.map(|address| zone.request_b(&pipe7(), &X, address, Policy::KeepOthers));
    let (done, full) = (Ok(Answer::NoError), Ok(Answer::NoRoom));
    assert_eq!(told.collect::<Vec<_>>(), [done, done, done, full]);
}

#[test]
fn what_stands_at_a_name_is_told() {
    let zone = zone();
    assert_eq!(zone.find(&name("oboe.stage")), Ok(Standing::Absent));
    let addresses = set(&[V4.into()]);
    assert_eq!(zone.find(&desk().name), Ok(Standing::Static(addresses)));
    let (owner, addresses) = (X, set(&[V6.into()]));
    assert_eq!(zone.find(&pipe7()), Ok(Standing::Held { owner, addresses }));
    assert_eq!(zone.find(&name("Pipe7.STAGE")), zone.find(&pipe7()));
    assert_eq!(zone.find(&name("DESK.stage")), zone.find(&desk().name));
}

/// The library finds a name exactly where `==` of names says so, whichever octet it has.
#[test]
fn names_are_found_where_they_are_equal() {
    let of = |octet| Name::from_wire(&[1, octet, 0]).expect("a full name");
    for octet in 0..=255 {
        let name = of(octet);
        let zone = Zone::from_entries([Entry { name, ..desk() }]).expect("one name");
        let found = (0..=255).filter(|&other| zone.find(&of(other)) != Ok(Standing::Absent));
        let equal = (0..=255).filter(|&other| of(other) == of(octet));
        assert!(found.eq(equal), "{octet}");
    }
}

/// The names of a zone, as they are spelled there.
fn spelled(zone: &Zone) -> Vec<String> {
    zone.entries().map(|entry| entry.name.to_string()).collect()
}

#[test]
fn a_name_keeps_its_octets_for_as_long_as_it_stands() {
    let (done, mut zone) = (Ok(Answer::NoError), Zone::new());
    let [typed, asked, again] = ["Oboe.Stage", "oboe.stage", "OBOE.stage"].map(name);
    assert_eq!(zone.request_a(&typed, &X, V4), done);
    assert_eq!(spelled(&zone), ["Oboe.Stage."]);
    let before = zone.clone();
    assert_eq!(zone.request_a(&asked, &Y, V4), Ok(Answer::YxDomain));
    assert_eq!(zone.request_b(&asked, &X, V4, Policy::OnlyThis), done);
    assert_eq!(zone.as_bytes(), before.as_bytes());
    assert_eq!(zone.request_b(&asked, &X, V6, Policy::OnlyThis), done);
    assert_eq!(spelled(&zone), ["Oboe.Stage."]);
    assert_eq!(zone.request_remove_address(&again, &X, V6), done);
    assert_eq!(spelled(&zone), ["Oboe.Stage."]);
    assert_eq!(zone.request_remove_name(&asked, &X), done);
    assert!(zone.is_empty());
    assert_eq!(zone.request_a(&again, &X, V4), done);
    assert_eq!(spelled(&zone), ["OBOE.stage."]);
}

#[test]
fn how_names_are_spelled_does_not_count() {
    let with = |text| Entry {
        name: name(text),
        ..desk()
    };
    let zone_with = |text| Zone::from_entries([with(text)]).expect("one name");
    assert_eq!(zone_with("Oboe.stage"), zone_with("oboe.STAGE"));
    assert_ne!(zone_with("oboe.stage"), zone_with("oboe.stagE2"));
    let left = Zone::from_entries(["Oboe", "PIPE7"].map(with)).expect("two names");
    let right = Zone::from_entries(["pipe7", "oboe"].map(with)).expect("two names");
    assert_ne!(left.as_bytes(), right.as_bytes());
    assert_eq!(left, right);
}

#[test]
fn the_names_are_listed_and_make_the_zone_again() {
    let zone = zone();
    let entries: Vec<Entry> = zone.entries().collect();
    assert_eq!((entries.len(), zone.len(), zone.is_empty()), (2, 2, false));
    assert!(entries.contains(&desk()));
    assert!(entries.iter().any(|entry| entry.owner == Some(X)));
    assert_eq!(Zone::from_entries(entries).as_ref(), Ok(&zone));
    assert_eq!(Zone::from_entries([]), Ok(Zone::new()));
}

#[test]
fn names_that_make_no_zone_are_refused() {
    assert_eq!(Zone::from_entries([desk(), desk()]), Err(Refusal::Zone));
    let capital = Entry {
        name: name("Desk.stage"),
        owner: Some(X),
        addresses: Addresses::EMPTY,
    };
    assert_eq!(Zone::from_entries([desk(), capital]), Err(Refusal::Zone));
    let numbered = |number: usize| Entry {
        name: name(&format!("pipe{number}")),
        ..desk()
    };
    assert_eq!(
        Zone::from_entries((0..65).map(numbered)),
        Err(Refusal::Zone)
    );
    assert_eq!(
        Zone::from_entries((0..64).map(numbered)).map(|zone| zone.len()),
        Ok(64)
    );
    let five = [1, 2, 3, 4, 5].map(|number| IpAddr::from([10, 0, 0, number]));
    assert_eq!(Addresses::from_slice(&five), Err(Refusal::Zone));
}

/// The zone with its places in another order.
fn moved(zone: &Zone, by: usize) -> Zone {
    let mut octets = *zone.as_bytes();
    octets.rotate_right(by * PLACE);
    Zone::from_bytes(&octets).expect("a zone").clone()
}

#[test]
fn places_and_the_order_of_addresses_do_not_count() {
    let other = Ipv4Addr::new(10, 0, 0, 8);
    let with = |addresses: [Ipv4Addr; 2]| {
        let mut zone = zone();
        for address in addresses {
            zone.request_b(&pipe7(), &X, address, Policy::KeepOthers)
                .expect("sound");
        }
        zone
    };
    let (left, right) = (with([V4, other]), with([other, V4]));
    assert_ne!(left.as_bytes(), right.as_bytes());
    for by in 0..NAMES_MAX {
        assert_eq!(left, moved(&right, by));
    }
    assert_ne!(left, zone());
    assert_ne!(zone(), Zone::new());
}

#[test]
fn what_is_not_looked_at_does_not_count() {
    let mut freed = zone();
    freed
        .request_remove_address(&pipe7(), &X, V6)
        .expect("sound");
    freed.request_remove_name(&pipe7(), &X).expect("sound");
    let fresh = Zone::from_entries([desk()]).expect("one name");
    assert_ne!(freed.as_bytes(), fresh.as_bytes());
    assert_eq!(freed, fresh);
}

#[test]
fn owners_count() {
    let held_by = |owner| {
        let owner = Some(owner);
        Zone::from_entries([Entry { owner, ..desk() }]).expect("one name")
    };
    assert_eq!(held_by(X), held_by(X));
    assert_ne!(held_by(X), held_by(Y));
    assert_ne!(held_by(X), Zone::from_entries([desk()]).expect("one name"));
}

#[test]
fn a_zone_is_stored_and_changed_where_it_is_stored() {
    let mut stored = zone().as_bytes().to_vec();
    assert_eq!(Zone::from_bytes(&stored), Ok(&zone()));
    let lent = Zone::from_bytes_mut(&mut stored).expect("a zone");
    assert_eq!(lent.check(), Ok(()));
    assert_eq!(
        lent.request_a(&name("oboe.stage"), &Y, V4),
        Ok(Answer::NoError)
    );
    assert_eq!(Zone::from_bytes(&stored).map(Zone::len), Ok(3));
}

#[test]
fn octets_that_are_no_zone_are_refused() {
    let mut octets = zone().as_bytes().to_vec();
    assert_eq!(Zone::from_bytes(&octets[1..]), Err(Refusal::Zone));
    octets.push(0);
    assert_eq!(Zone::from_bytes_mut(&mut octets), Err(Refusal::Zone));
    octets.pop();
    octets[0] = 3;
    assert_eq!(Zone::from_bytes(&octets), Err(Refusal::Zone));
    assert_eq!(Zone::from_bytes_mut(&mut octets), Err(Refusal::Zone));
    let twice = zone().as_bytes()[..PLACE].repeat(NAMES_MAX);
    assert_eq!(Zone::from_bytes(&twice), Err(Refusal::Zone));
}

/// The names have 255 octets and differ in the last one. Beside the letters stand signs that differ
/// from each other as the two forms of a letter do.
#[test]
fn long_names_that_differ_only_in_case_are_refused() {
    let label = "a".repeat(63);
    let long = |last: &str| Entry {
        name: name(&format!("{label}.{label}.{label}.{}{last}", "a".repeat(60))),
        ..desk()
    };
    assert_eq!(long("a").name.as_wire().len(), 255);
    assert_eq!(Zone::from_entries(["a", "A"].map(long)), Err(Refusal::Zone));
    assert!(Zone::from_entries(["a", "B"].map(long)).is_ok());
    assert!(Zone::from_entries(["@", "`", "[", "{"].map(long)).is_ok());
}

#[test]
fn a_zone_is_printed_with_a_line_for_each_name() {
    let text = format!("{:?}", zone());
    let mut lines: Vec<&str> = text.lines().collect();
    assert_eq!(lines.remove(0), "Zone, 2 of 64 names");
    lines.sort_unstable();
    let held = "  pipe7.stage. held by 58585858.. ::1";
    assert_eq!(lines, ["  desk.stage. static 10.0.0.7", held]);
    let mut full = Zone::new();
    for number in 0..64 {
        full.request_a(&name(&format!("pipe{number}.stage")), &X, V6)
            .expect("sound");
    }
    let text = format!("{full:?}");
    assert_eq!(text.lines().count(), 65);
    assert!(text.lines().all(|line| line.len() < 80) && text.len() < 64 * 80);
    assert_eq!(format!("{:?}", Zone::new()), "Zone, 0 of 64 names");
}
