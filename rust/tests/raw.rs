//! Each call once accepted and once refused, with the numbers that C has.

use jespurla::raw::*;

const SUFFIX: &[u8] = b"\x05stage\x00";
const HERE: Address = Address { octets: [10; 16] };
const X: Dhcid = Dhcid { octets: [b'X'; 35] };
const Y: Dhcid = Dhcid { octets: [b'Y'; 35] };

fn pipe7() -> Name {
    Name::new(b"\x05pipe7\x05stage\x00").expect("13 octets")
}

#[test]
fn the_version_is_that_of_this_crate() {
    let [major, minor, patch] = [
        env!("CARGO_PKG_VERSION_MAJOR"),
        env!("CARGO_PKG_VERSION_MINOR"),
        env!("CARGO_PKG_VERSION_PATCH"),
    ]
    .map(|number| number.parse::<u32>().expect("a number"));
    assert_eq!(version(), major * 65_536 + minor * 256 + patch);
}

#[test]
fn flags_are_decided() {
    let told = |flags, s, n| {
        let answer = flag_decision(flags, s, n);
        (answer.refusal, answer.flags)
    };
    assert_eq!(told(249, 1, 0), (0, 1));
    assert_eq!(told(1, 0, 0), (0, 2));
    assert_eq!(told(4, 255, 7), (0, 4));
    assert_eq!(told(5, 1, 1), (10, 0));
}

#[test]
fn a_partial_name_is_completed() {
    let mut reply = [9; 256];
    let told = name_option_answer(b"\x00\x05pipe7", SUFFIX, 1, 1, &mut reply);
    assert_eq!((told.refusal, told.length), (0, 14));
    assert_eq!(reply[..14], *b"\x00\x05pipe7\x05stage\x00");
    assert!(reply[14..].iter().all(|&octet| octet == 9));
    let told = name_option_answer(b"\x00\x05pipe7", SUFFIX, 1, 1, &mut reply[..255]);
    assert_eq!((told.refusal, told.length), (14, 0));
}

/// An option for the server 7 7 7 .., for 60 seconds.
fn area() -> Vec<u8> {
    let mut area = vec![25, 3, 0, 0, 0, 0, 0, 60];
    area.extend([7; 16]);
    area
}

#[test]
fn a_server_is_held_at_its_expiry_and_gone_after() {
    let told = server_list(
        &ServerListState::default(),
        Moment(100),
        Span(1800),
        &area(),
    );
    let list = told.list;
    let expected = Server {
        address: [7; 16],
        expiry: Moment(160),
        router: Moment(1900),
    };
    assert_eq!((told.refusal, list.held()), (0, &[expected][..]));
    let held_at = |now| server_list(&list, Moment(now), Span(0), &[]).list.count;
    assert_eq!((held_at(160), held_at(161)), (1, 0));
    let cut = server_list(&list, Moment(100), Span(1800), &area()[..23]);
    assert_eq!((cut.refusal, cut.list), (16, list));
}

#[test]
fn refusals_of_the_server_list_come_in_their_order() {
    let area = area();
    let sound = server_list(&ServerListState::EMPTY, Moment(100), Span(65_535), &area);
    assert_eq!(sound.refusal, 0);
    let with = |expiry, router| {
        let mut list = sound.list;
        (list.entries[0].expiry, list.entries[0].router) = (expiry, router);
        list
    };
    let ask = |list: &ServerListState, clock, lifetime, area: &[u8]| {
        let told = server_list(list, Moment(clock), Span(lifetime), area);
        assert!(told.refusal == 0 || told.list == *list);
        told.refusal
    };
    let cut = &area[..23];
    for broken in [Moment::NEVER, Moment(Moment::LATEST.0 + 1)] {
        let list = with(Moment::LATEST, broken);
        assert_eq!(ask(&list, 99, 65_536, cut), 31);
    }
    let broken = with(Moment(Moment::LATEST.0 + 1), Moment::LATEST);
    assert_eq!(ask(&broken, 99, 65_536, cut), 31);
    let list = with(Moment::NEVER, Moment::LATEST);
    assert_eq!(ask(&list, 99, 65_535, cut), 15);
    assert_eq!(ask(&list, 100, 65_536, cut), 15);
    assert_eq!(ask(&list, 100, u32::MAX, &[]), 15);
    assert_eq!(ask(&list, 100, 65_535, cut), 16);
    assert_eq!(ask(&list, 100, 65_535, &area), 0);
}

/// A query by the client id "oboe".
fn query() -> Vec<u8> {
    let mut query = vec![0; 240];
    query[0] = 1;
    query[24] = 10;
    query[236..].copy_from_slice(&[99, 130, 83, 99]);
    query.extend(b"\x35\x01\x0a\x3d\x04oboe\xff");
    query
}

#[test]
fn of_two_leases_seen_at_once_the_lower_address_is_told() {
    let mut lease = Lease::free(0x0a00_0008);
    lease.state = LEASE_LEASED;
    (lease.last, lease.expiry) = (Moment(950), Moment::NEVER);
    lease.idlen = 4;
    lease.id[..4].copy_from_slice(b"oboe");
    let higher = Lease {
        address: 0x0a00_0009,
        ..lease
    };
    let mut reply = [0; 648];
    let mut ask = |table: &[Lease]| {
        let told = lease_query(Moment(1000), table, 1, &query(), &mut reply);
        (told.refusal, told.kind, told.length)
    };
    assert_eq!(ask(&[higher, lease]), (9, 0, 0));
    assert_eq!(ask(&[lease; 257]), (9, 0, 0));
    assert_eq!(ask(&[]), (0, LEASEUNKNOWN, 250));
    assert_eq!(ask(&[lease, higher]), (0, LEASEACTIVE, 278));
    assert_eq!(reply[12..16], [10, 0, 0, 8]);
}

/// A zone with one name, held by X.
fn held() -> Zone {
    request_a(&Zone::EMPTY, &pipe7(), &X, FAMILY_6, &HERE).zone
}

/// Whether two zones are alike to the last octet.
fn is_alike(left: &Zone, right: &Zone) -> bool {
    left.entries == right.entries
}

#[test]
fn requests_are_tested_and_done_at_once() {
    let (name, empty) = (pipe7(), Zone::EMPTY);
    assert_eq!(zone_check(&empty, &name, FAMILY_6, KEEP_OTHERS).refusal, 0);
    assert_eq!(zone_check(&empty, &name, 5, KEEP_OTHERS).refusal, 18);
    let told = |answered: Answered| (answered.refusal, answered.answer);
    let zone = &held();
    let again = request_a(zone, &name, &Y, FAMILY_6, &HERE);
    assert_eq!(told(again), (0, YXDOMAIN));
    let others = request_b(zone, &name, &Y, FAMILY_6, &HERE, ONLY_THIS);
    assert_eq!(told(others), (0, NXRRSET));
    let absent = request_b(&empty, &name, &X, FAMILY_6, &HERE, ONLY_THIS);
    assert_eq!(told(absent), (0, NXDOMAIN));
    let left = request_remove_name(zone, &name, &X, FAMILY_6, &HERE);
    assert_eq!(told(left), (0, YXRRSET));
    let bare = request_remove_address(zone, &name, &X, FAMILY_6, &HERE).zone;
    let gone = request_remove_name(&bare, &name, &X, FAMILY_6, &HERE).zone;
    assert!(gone.entries.iter().all(|entry| entry.kind == FREE));
    let refused = request_a(&bare, &Name::EMPTY, &X, FAMILY_6, &HERE);
    assert_eq!((refused.refusal, refused.answer), (11, 0));
    assert!(is_alike(&refused.zone, &bare));
}

#[test]
fn requests_on_a_lent_zone_leave_what_those_by_value_hand_back() {
    let (name, mut zone) = (pipe7(), Zone::EMPTY);
    assert_eq!(
        zone_check_lent(&zone, &name, FAMILY_6, KEEP_OTHERS).refusal,
        0
    );
    assert_eq!(zone_check_lent(&zone, &name, 5, KEEP_OTHERS).refusal, 18);
    let told = |answer: RequestAnswer| (answer.refusal, answer.answer);
    let refused = request_a_lent(&mut zone, &Name::EMPTY, &X, FAMILY_6, &HERE);
    assert_eq!(told(refused), (11, 0));
    assert!(is_alike(&zone, &Zone::EMPTY));

    let added = request_a_lent(&mut zone, &name, &X, FAMILY_6, &HERE);
    assert_eq!(told(added), (0, NOERROR));
    assert!(is_alike(&zone, &held()));
    let again = request_a_lent(&mut zone, &name, &Y, FAMILY_6, &HERE);
    assert_eq!(told(again), (0, YXDOMAIN));
    let refused = request_b_lent(&mut zone, &name, &X, FAMILY_6, &HERE, 3);
    assert_eq!(told(refused), (18, 0));
    let left = request_remove_name_lent(&mut zone, &name, &X, FAMILY_6, &HERE);
    assert_eq!(told(left), (0, YXRRSET));
    assert!(is_alike(&zone, &held()));

    let moved = request_b(&zone, &name, &X, FAMILY_4, &HERE, ONLY_THIS).zone;
    let lent = request_b_lent(&mut zone, &name, &X, FAMILY_4, &HERE, ONLY_THIS);
    assert_eq!(told(lent), (0, NOERROR));
    assert!(is_alike(&zone, &moved));
    let bare = request_remove_address(&zone, &name, &X, FAMILY_4, &HERE).zone;
    let lent = request_remove_address_lent(&mut zone, &name, &X, FAMILY_4, &HERE);
    assert_eq!(told(lent), (0, NOERROR));
    assert!(is_alike(&zone, &bare));
    let lent = request_remove_name_lent(&mut zone, &name, &X, FAMILY_4, &HERE);
    assert_eq!(told(lent), (0, NOERROR));
    assert!(zone.entries.iter().all(|entry| entry.kind == FREE));
}

#[test]
fn queries_are_written_and_their_replies_read() {
    let (mut query, mut reply) = ([9; 501], [0; 648]);
    let told = query_by_address(5, 0x0a00_0001, 0x0a00_0007, &mut query);
    assert_eq!((told.refusal, told.length), (0, 244));
    assert_eq!(query[12..16], [10, 0, 0, 7]);
    assert_eq!(query[244], 9);
    let told = query_by_address(5, 0x0a00_0001, 0, &mut query);
    assert_eq!((told.refusal, told.length), (19, 0));
    let told = query_by_hardware(5, 0x0a00_0001, 0, &[0; 16], &mut query);
    assert_eq!((told.refusal, told.length), (0, 244));
    let told = query_by_hardware(5, 0x0a00_0001, 0, &[0; 16], &mut query[..500]);
    assert_eq!((told.refusal, told.length), (32, 0));
    let told = query_by_client_id(5, 0, b"oboe", &mut query);
    assert_eq!((told.refusal, told.length), (19, 0));
    let told = query_by_client_id(5, 0x0a00_0001, b"oboe", &mut query);
    assert_eq!((told.refusal, told.length), (0, 250));

    let answer = lease_query(Moment(1000), &[], 0x0a00_0002, &query[..250], &mut reply);
    let reply = &reply[..answer.length as usize];
    let told = lease_reply_read(5, reply);
    assert_eq!((told.refusal, told.kind), (0, LEASEUNKNOWN));
    let blank = LeaseReading { kind: 0, ..told };
    assert_eq!((blank.has_left, blank.has_since, blank.count), (0, 0, 0));
    let other = lease_reply_read(6, reply);
    assert_eq!(
        other,
        LeaseReading {
            refusal: 21,
            ..blank
        }
    );
    let cut = lease_reply_read(6, &reply[..239]);
    assert_eq!(
        cut,
        LeaseReading {
            refusal: 20,
            ..blank
        }
    );
}

#[test]
fn what_stands_at_a_name_is_found() {
    let zone = held();
    let found = zone_find(&zone, &pipe7());
    let mut kept = zone.entries.iter().filter(|entry| entry.kind != FREE);
    assert_eq!((found.refusal, Some(&found.entry)), (0, kept.next()));
    let absent = zone_find(&Zone::EMPTY, &pipe7());
    assert_eq!((absent.refusal, absent.entry), (0, Entry::FREE));
    let refused = zone_find(&zone, &Name::EMPTY);
    assert_eq!((refused.refusal, refused.entry), (11, Entry::FREE));
}

#[test]
fn zones_are_the_same_at_whichever_places() {
    let zone = held();
    let (mut moved, mut broken) = (zone, zone);
    moved.entries.rotate_left(7);
    broken.entries[0].kind = 3;
    let told = |left, right| {
        let answer = zone_same(left, right);
        (answer.refusal, answer.same)
    };
    assert_eq!(told(&zone, &zone), (0, 1));
    assert_eq!(told(&zone, &moved), (0, 1));
    assert_eq!(told(&zone, &Zone::EMPTY), (0, 0));
    assert_eq!(told(&zone, &broken), (17, 0));
    assert_eq!(told(&broken, &zone), (17, 0));
}

#[test]
fn names_are_compared_folded_and_keep_their_octets() {
    let (small, zone) = (pipe7(), held());
    let capital = Name::new(b"\x05PIPE7\x05Stage\x00").expect("13 octets");
    let spelled = |zone: &Zone| zone_find(zone, &capital).entry.name;
    assert_eq!(spelled(&zone), small);
    let moved = request_b(&zone, &capital, &X, FAMILY_4, &HERE, ONLY_THIS).zone;
    assert_eq!(spelled(&moved), small);
    let bare = request_remove_address(&moved, &capital, &X, FAMILY_4, &HERE).zone;
    assert_eq!(spelled(&bare), small);
    let gone = request_remove_name(&bare, &capital, &X, FAMILY_4, &HERE).zone;
    let again = request_a(&gone, &capital, &X, FAMILY_6, &HERE).zone;
    assert_eq!(spelled(&again), capital);
    let same = zone_same(&zone, &again);
    assert_eq!((same.refusal, same.same), (0, 1));
    let mut both = again;
    let free = both.entries.iter_mut().find(|entry| entry.kind == FREE);
    *free.expect("a free place") = zone_find(&zone, &small).entry;
    assert_eq!(zone_check(&both, &small, FAMILY_6, KEEP_OTHERS).refusal, 17);
    assert_eq!(zone_find(&both, &small).refusal, 17);
}

/// X removes its only address, Y adds in between, with steps of both kinds.
#[test]
fn two_boxes_jobs_are_mixed() {
    let (name, mut zone) = (pipe7(), held());
    let mut x = new_remove(&name, &X, FAMILY_6, &HERE).job;
    let mut y = new_add(&name, &Y, FAMILY_6, &HERE, KEEP_OTHERS).job;
    x = job_step_lent(&mut zone, &x).job;
    y = job_step_lent(&mut zone, &y).job;
    assert_eq!((job_has_ended(&x), job_has_ended(&y)), (0, 0));
    let stepped = job_step(&zone, &y);
    assert_eq!(stepped.refusal, 0);
    (zone, y) = (stepped.zone, stepped.job);
    x = job_step_lent(&mut zone, &x).job;
    assert_eq!((job_has_ended(&x), job_has_ended(&y)), (1, 1));
    assert_eq!((x.stage, y.stage, y.count), (REMOVE_GONE, ADD_CONFLICT, 2));
    assert!(zone.entries.iter().all(|entry| entry.kind == FREE));
    let refused = new_add(&name, &X, 5, &HERE, KEEP_OTHERS);
    assert_eq!((refused.refusal, refused.job), (18, Job::BLANK));
    let refused = job_step(&zone, &Job::BLANK);
    assert_eq!((refused.refusal, refused.job), (18, Job::BLANK));
    let refused = job_step_lent(&mut zone, &Job::BLANK);
    assert_eq!((refused.refusal, refused.job), (18, Job::BLANK));
}
