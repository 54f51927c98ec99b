//! Lease queries that are written, and their replies as they are read.

use std::net::Ipv4Addr;

use jespurla::limits::{LEASE_QUERY_MIN, LEASE_REPLY_MIN};
use jespurla::{lease_query, query_by_address, query_by_client_id, query_by_hardware};
use jespurla::{read_lease_reply, Expiry, Lease, LeaseReading, Moment, Refusal, ReplyKind};
use jespurla::{Span, TimeLeft};

const DESK: Ipv4Addr = Ipv4Addr::new(10, 0, 0, 1);
const SERVER: Ipv4Addr = Ipv4Addr::new(10, 0, 0, 2);
const HARDWARE: [u8; 6] = [2, 0, 0, 0, 0, 7];
const XID: u32 = 0x0102_0304;

fn at(seconds: u64) -> Moment {
    Moment::try_from(seconds).expect("a moment")
}

fn address(number: u8) -> Ipv4Addr {
    Ipv4Addr::new(10, 0, 0, number)
}

/// Two leases of one client, one of nobody in particular, and a free address.
fn table() -> [Lease; 4] {
    let pipe = |number, last, expiry: Expiry| {
        let lease = Lease::leased(address(number), at(last), expiry);
        let lease = lease.with_hardware(1, &HARDWARE).expect("six octets");
        lease.with_client_id(b"pipe7").expect("five octets")
    };
    [
        pipe(7, 900, at(2000).into()),
        Lease::leased(address(8), at(950), at(1500)),
        pipe(9, 980, Expiry::Never),
        Lease::free(address(10)),
    ]
}

/// A buffer of nines, which is what the octets past a query must stay.
fn buffer() -> [u8; LEASE_QUERY_MIN] {
    [9; LEASE_QUERY_MIN]
}

/// The reply at 1,000 seconds.
fn replied(query: &[u8]) -> Vec<u8> {
    let mut reply = [0; LEASE_REPLY_MIN];
    let told = lease_query(at(1000), &table(), SERVER, query, &mut reply);
    told.expect("a sound query").as_bytes().to_vec()
}

/// What is read of the reply to a query.
fn read(query: &[u8]) -> LeaseReading {
    read_lease_reply(XID, &replied(query)).expect("a sound reply")
}

fn by_address(number: u8) -> LeaseReading {
    let mut query = buffer();
    read(query_by_address(XID, DESK, address(number), &mut query).expect("a sound key"))
}

fn by_client_id(id: &[u8]) -> LeaseReading {
    let mut query = buffer();
    read(query_by_client_id(XID, DESK, id, &mut query).expect("a sound key"))
}

/// The fixed fields of a query, but for those of the key, and its options.
fn expected(options: &[u8]) -> Vec<u8> {
    let mut query = vec![0; 240];
    query[0] = 1;
    query[4..8].copy_from_slice(&XID.to_be_bytes());
    query[24..28].copy_from_slice(&DESK.octets());
    query[236..].copy_from_slice(&[99, 130, 83, 99]);
    query.extend(options);
    query
}

#[test]
fn a_query_has_its_key_and_nothing_else() {
    let mut asked = buffer();
    let mut query = expected(b"\x35\x01\x0a\xff");
    query[12..16].copy_from_slice(&address(7).octets());
    let written = query_by_address(XID, DESK, address(7), &mut asked);
    assert_eq!(written, Ok(&query[..]));
    assert!(asked[query.len()..].iter().all(|&octet| octet == 9));

    let mut query = expected(b"\x35\x01\x0a\xff");
    (query[1], query[2]) = (6, 6);
    query[28..34].copy_from_slice(&HARDWARE);
    let written = query_by_hardware(XID, DESK, 6, &HARDWARE, &mut asked);
    assert_eq!(written, Ok(&query[..]));

    let query = expected(b"\x35\x01\x0a\x3d\x05pipe7\xff");
    let written = query_by_client_id(XID, DESK, b"pipe7", &mut asked);
    assert_eq!(written, Ok(&query[..]));
}

#[test]
fn the_longest_query_fills_its_buffer() {
    let mut query = buffer();
    let written = query_by_client_id(XID, DESK, &[3; 255], &mut query).expect("255 octets");
    assert_eq!(written.len(), LEASE_QUERY_MIN);
    assert_eq!(read(written).kind(), ReplyKind::Unknown);
}

#[test]
fn keys_that_no_server_takes_are_refused() {
    let (mut query, zero) = (buffer(), Ipv4Addr::UNSPECIFIED);
    let refused = Err(Refusal::Query);
    assert_eq!(query_by_address(XID, zero, DESK, &mut query), refused);
    assert_eq!(query_by_address(XID, DESK, zero, &mut query), refused);
    let mut hardware = |giaddr, octets: &[u8]| {
        let told = query_by_hardware(XID, giaddr, 1, octets, &mut query);
        told.map(<[u8]>::len)
    };
    assert_eq!(hardware(zero, &HARDWARE), Err(Refusal::Query));
    assert_eq!(hardware(DESK, &[]), Err(Refusal::Query));
    assert_eq!(hardware(DESK, &[2; 17]), Err(Refusal::Query));
    let mut client_id = |giaddr, octets: &[u8]| {
        let told = query_by_client_id(XID, giaddr, octets, &mut query);
        told.map(<[u8]>::len)
    };
    assert_eq!(client_id(zero, b"pipe7"), Err(Refusal::Query));
    assert_eq!(client_id(DESK, &[]), Err(Refusal::Query));
    assert_eq!(client_id(DESK, b"p"), Err(Refusal::Query));
    assert_eq!(client_id(DESK, &[3; 256]), Err(Refusal::Query));
    assert_eq!(query, buffer());
}

#[test]
fn a_short_buffer_is_refused_behind_the_key() {
    let mut query = [9; LEASE_QUERY_MIN - 1];
    let told = query_by_address(XID, DESK, address(7), &mut query);
    assert_eq!(told, Err(Refusal::QueryRoom));
    let told = query_by_hardware(XID, DESK, 1, &HARDWARE, &mut query);
    assert_eq!(told, Err(Refusal::QueryRoom));
    let told = query_by_client_id(XID, DESK, b"pipe7", &mut query);
    assert_eq!(told, Err(Refusal::QueryRoom));
    let told = query_by_client_id(XID, DESK, b"p", &mut query);
    assert_eq!(told, Err(Refusal::Query));
    assert_eq!(query, [9; LEASE_QUERY_MIN - 1]);
}

#[test]
fn an_active_lease_is_read_back() {
    let told = by_address(7);
    assert_eq!(
        (told.kind(), told.address()),
        (ReplyKind::Active, address(7))
    );
    assert_eq!(told.hardware(), Some((1, &HARDWARE[..])));
    assert_eq!(told.left(), Some(TimeLeft::For(Span(1000))));
    assert_eq!(told.since(), Some(Span(100)));
    assert_eq!(told.addresses().len(), 0);
    assert_eq!(by_address(8).hardware(), None);
}

#[test]
fn the_addresses_of_a_client_are_read_back() {
    let mut query = buffer();
    let query = query_by_hardware(XID, DESK, 1, &HARDWARE, &mut query).expect("a sound key");
    let told = read(query);
    assert_eq!(told, by_client_id(b"pipe7"));
    assert_eq!(told.address(), address(9));
    assert_eq!(told.left(), Some(TimeLeft::WithoutEnd));
    assert_eq!(told.since(), Some(Span(20)));
    let held: Vec<Ipv4Addr> = told.addresses().collect();
    assert_eq!(held, [address(9), address(7)]);
}

#[test]
fn other_replies_have_no_times() {
    let free = by_address(10);
    assert_eq!(
        (free.kind(), free.address()),
        (ReplyKind::Unassigned, address(10))
    );
    let absent = by_address(99);
    assert_eq!(
        (absent.kind(), absent.address()),
        (ReplyKind::Unknown, address(99))
    );
    let nobody = by_client_id(b"nobody");
    assert_eq!(
        (nobody.kind(), nobody.address()),
        (ReplyKind::Unknown, Ipv4Addr::UNSPECIFIED)
    );
    for told in [free, absent, nobody] {
        assert_eq!((told.left(), told.since()), (None, None));
        assert_eq!((told.hardware(), told.addresses().len()), (None, 0));
    }
}

/// A sound reply about a client with two leases, and one with an octet changed.
fn reply() -> Vec<u8> {
    let mut query = buffer();
    replied(query_by_client_id(XID, DESK, b"pipe7", &mut query).expect("a sound key"))
}

fn changed(place: usize, octet: u8) -> Result<LeaseReading, Refusal> {
    let mut reply = reply();
    reply[place] = octet;
    read_lease_reply(XID, &reply)
}

#[test]
fn malformed_replies_are_refused() {
    let sound = reply();
    let refused = Err(Refusal::Reply);
    assert!(read_lease_reply(XID, &sound).is_ok());
    for length in 0..sound.len() {
        assert_eq!(read_lease_reply(XID, &sound[..length]), refused);
    }
    let mut long = sound.clone();
    long.resize(1501, 0);
    assert_eq!(read_lease_reply(XID, &long), refused);
    assert!(read_lease_reply(XID, &long[..1500]).is_ok());
    assert_eq!((changed(0, 1), changed(2, 17)), (refused, refused));
    assert_eq!((changed(236, 0), changed(242, 14)), (refused, refused));
    assert_eq!((changed(242, 10), changed(240, 54)), (refused, refused));
}

/// Where the options of the reply above begin.
const KIND: usize = 240;
const SERVER_ID: usize = 243;
const LEFT: usize = 249;
const CLIENT_ID: usize = 255;
const SINCE: usize = 262;
const ADDRESSES: usize = 268;

#[test]
fn options_that_the_box_always_sends_are_required() {
    let sound = reply();
    let codes = [KIND, SERVER_ID, LEFT, CLIENT_ID, SINCE, ADDRESSES].map(|place| sound[place]);
    assert_eq!(codes, [53, 54, 51, 61, 91, 92]);
    for place in [KIND, SERVER_ID] {
        assert_eq!(changed(place, 200), Err(Refusal::Reply));
    }
    let times = |place| changed(place, 200).map(|told| (told.left(), told.since()));
    let (left, since) = (Some(TimeLeft::WithoutEnd), Some(Span(20)));
    assert_eq!(times(LEFT), Ok((None, since)));
    assert_eq!(times(SINCE), Ok((left, None)));
    assert_eq!(times(CLIENT_ID), Ok((left, since)));
    let fewer = changed(ADDRESSES, 200).expect("option 92 may be absent");
    assert_eq!(fewer.addresses().len(), 0);
    assert_eq!(fewer.address(), address(9));
}

#[test]
fn options_are_refused_where_they_are_repeated() {
    let sound = reply();
    let options: [&[u8]; 7] = [
        b"\x35\x01\x0d",
        b"\x36\x04\x0a\x00\x00\x02",
        b"\x33\x04\x00\x00\x00\x01",
        b"\x3d\x02ab",
        b"\x5b\x04\x00\x00\x00\x01",
        b"\x5c\x08\x0a\x00\x00\x07\x0a\x00\x00\x08",
        b"\x52\x01a\x52\x01a",
    ];
    for option in options {
        let mut twice = sound[..sound.len() - 1].to_vec();
        twice.extend(option);
        twice.push(255);
        assert_eq!(read_lease_reply(XID, &twice), Err(Refusal::Reply));
    }
}

/// What is read of the reply to a query by the client id "pipe7" with a request list.
fn by_list(list: &[u8]) -> LeaseReading {
    let mut query = buffer();
    let full = query_by_client_id(XID, DESK, b"pipe7", &mut query).expect("a sound key");
    let mut listed = full[..full.len() - 1].to_vec();
    listed.extend([55, list.len() as u8]);
    listed.extend(list);
    listed.push(255);
    read(&listed)
}

#[test]
fn times_are_read_where_they_were_listed() {
    let (left, since) = (Some(TimeLeft::WithoutEnd), Some(Span(20)));
    let times = |list| {
        let told = by_list(list);
        assert_eq!(
            (told.kind(), told.address()),
            (ReplyKind::Active, address(9))
        );
        assert_eq!(told.hardware(), Some((1, &HARDWARE[..])));
        assert_eq!(told.addresses().len(), 2);
        (told.left(), told.since())
    };
    assert_eq!(times(&[51]), (left, None));
    assert_eq!(times(&[91, 61]), (None, since));
    assert_eq!(times(&[91, 82, 61, 51, 51]), (left, since));
    assert_eq!(times(&[1, 3]), (None, None));
}

/// A reply of a kind with the options that it must have, in another order, and further ones.
fn with(kind: u8, further: &[u8]) -> Result<LeaseReading, Refusal> {
    let mut reply = vec![0; 240];
    reply[0] = 2;
    reply[4..8].copy_from_slice(&XID.to_be_bytes());
    reply[236..].copy_from_slice(&[99, 130, 83, 99]);
    reply.extend(further);
    reply.extend(b"\x00\x36\x04\x0a\x00\x00\x02");
    reply.extend([53, 1, kind, 255, 7]);
    read_lease_reply(XID, &reply)
}

#[test]
fn lengths_that_the_box_never_gives_are_refused() {
    let times = b"\x5b\x04\x00\x00\x00\x01\x33\x04\x00\x00\x00\x02";
    let active = |code: u8, length: u8| {
        let mut further = times.to_vec();
        further.extend([code, length]);
        further.extend(vec![7; length.into()]);
        with(13, &further)
    };
    let sound = |code, length| active(code, length).is_ok();
    assert!(with(13, times).is_ok() && with(13, b"").is_ok());
    assert!(sound(61, 2) && sound(61, 64) && !sound(61, 1) && !sound(61, 65));
    assert!(sound(82, 1) && sound(82, 64) && !sound(82, 0) && !sound(82, 65));
    assert!(sound(92, 8) && sound(92, 252) && !sound(92, 4) && !sound(92, 255));
    assert!(!sound(92, 10) && !sound(92, 0));
    assert_eq!(active(92, 252).map(|told| told.addresses().len()), Ok(63));
    let other_lengths: [&[u8]; 4] = [
        b"\x5b\x03\x00\x00\x00",
        b"\x33\x05\x00\x00\x00\x02\x01",
        b"\x5b\x00",
        b"\x33\x00",
    ];
    for time in other_lengths {
        assert_eq!(with(13, time), Err(Refusal::Reply));
    }
}

#[test]
fn a_request_list_in_a_reply_is_not_looked_at() {
    let told = with(13, b"\x37\x00\x33\x04\x00\x00\x00\x02\x37\x01\x5b").expect("a sound reply");
    assert_eq!(told.left(), Some(TimeLeft::For(Span(2))));
    assert_eq!(told.since(), None);
}

#[test]
fn options_of_an_active_lease_are_not_looked_at_elsewhere() {
    let further = b"\x33\x01\x07\x33\x01\x07\x5b\x00\x52\x00\x52\x00\x5c\x01\x07\x3d\x01\x07";
    for (kind, expected) in [(11, ReplyKind::Unassigned), (12, ReplyKind::Unknown)] {
        let told = with(kind, further).expect("a sound reply");
        assert_eq!((told.kind(), told.left()), (expected, None));
        assert_eq!((told.since(), told.addresses().len()), (None, 0));
        let twice = with(kind, b"\x3d\x02ab\x3d\x02ab");
        assert_eq!(twice, Err(Refusal::Reply));
    }
}

#[test]
fn another_xid_is_refused_behind_the_form() {
    let sound = reply();
    assert_eq!(read_lease_reply(XID + 1, &sound), Err(Refusal::Xid));
    let cut = &sound[..sound.len() - 1];
    assert_eq!(read_lease_reply(XID + 1, cut), Err(Refusal::Reply));
}

#[test]
fn a_reading_is_shown() {
    let shown = format!("{:?}", by_client_id(b"pipe7"));
    let end = "left: Some(WithoutEnd), since: Some(Span(20)), addresses: [10.0.0.9, 10.0.0.7] }";
    assert!(shown.ends_with(end), "{shown}");
    assert_eq!(TimeLeft::For(Span(60)).to_string(), "60");
    assert_eq!(format!("{:>12}", TimeLeft::WithoutEnd), " without end");
    assert!(TimeLeft::For(Span(u32::MAX - 1)) < TimeLeft::WithoutEnd);
}
