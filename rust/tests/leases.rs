//! Lease queries: every kind of reply, and every refusal.

use std::net::Ipv4Addr;

use jespurla::{lease_query, Expiry, Lease, LeaseState, Moment, Refusal, ReplyKind, Span};

const SERVER: Ipv4Addr = Ipv4Addr::new(10, 0, 0, 2);

fn at(seconds: u64) -> Moment {
    Moment::try_from(seconds).expect("a moment")
}

fn address(number: u8) -> Ipv4Addr {
    Ipv4Addr::new(10, 0, 0, number)
}

/// A lease of the client "oboe".
fn oboe(number: u8) -> Lease {
    let lease = Lease::leased(address(number), at(950), at(1060));
    lease.with_client_id(b"oboe").expect("four octets")
}

/// A query with these options, before it has a key among its fields.
fn packet(options: &[u8]) -> Vec<u8> {
    let mut query = vec![0; 240];
    query[0] = 1;
    query[24] = 10;
    query[236..].copy_from_slice(&[99, 130, 83, 99]);
    query.extend(options);
    query
}

fn by_client() -> Vec<u8> {
    packet(b"\x35\x01\x0a\x3d\x04oboe\xff")
}

fn by_address(number: u8) -> Vec<u8> {
    let mut query = packet(b"\x35\x01\x0a\xff");
    query[12..16].copy_from_slice(&address(number).octets());
    query
}

/// The kind of the reply at 1,000 seconds, and the reply.
fn ask(table: &[Lease], query: &[u8]) -> Result<(ReplyKind, Vec<u8>), Refusal> {
    let mut reply = [9; 700];
    let told = lease_query(at(1000), table, SERVER, query, &mut reply)?;
    let (kind, octets) = (told.kind(), told.as_bytes().to_vec());
    assert!(reply[octets.len()..].iter().all(|&octet| octet == 9));
    Ok((kind, octets))
}

fn kind(table: &[Lease], query: &[u8]) -> Result<ReplyKind, Refusal> {
    ask(table, query).map(|(kind, _)| kind)
}

#[test]
fn every_kind_of_reply_is_given() {
    let table = [Lease::free(address(6)), oboe(7), oboe(8)];
    assert_eq!(kind(&table, &by_address(5)), Ok(ReplyKind::Unknown));
    assert_eq!(kind(&table, &by_address(6)), Ok(ReplyKind::Unassigned));
    assert_eq!(kind(&table, &by_address(7)), Ok(ReplyKind::Active));
    assert_eq!(kind(&table[..1], &by_client()), Ok(ReplyKind::Unknown));
    let (kind, reply) = ask(&table, &by_client()).expect("a sound query");
    assert_eq!(
        (kind, &reply[12..16]),
        (ReplyKind::Active, &[10, 0, 0, 7][..])
    );
}

#[test]
fn the_seconds_left_stand_in_a_reply() {
    let (_, reply) = ask(&[oboe(7)], &by_client()).expect("a sound query");
    let place = reply
        .windows(2)
        .position(|two| two == [51, 4])
        .expect("option 51")
        + 2;
    let left = Span::from_octets(reply[place..place + 4].try_into().expect("four octets"));
    assert_eq!(left, Span(60));
}

/// A query by the client id "oboe" with a request list.
fn listing(list: &[u8]) -> Vec<u8> {
    let mut query = packet(b"\x35\x01\x0a\x37");
    query.push(list.len() as u8);
    query.extend(list);
    query.extend(b"\x3d\x04oboe\xff");
    query
}

/// The codes of a reply's options, the end option last.
fn codes(reply: &[u8]) -> Vec<u8> {
    let (mut found, mut place) = (vec![], 240);
    while reply[place] != 255 {
        found.push(reply[place]);
        place += 2 + usize::from(reply[place + 1]);
    }
    found.push(255);
    found
}

#[test]
fn a_reply_has_what_the_query_lists() {
    let relayed = |number| oboe(number).with_relay_information(b"r");
    let one = [relayed(7).expect("one octet")];
    let two = [one[0], relayed(8).expect("one octet")];
    let sent = |table: &[Lease], query: &[u8]| codes(&ask(table, query).expect("a sound query").1);
    assert_eq!(sent(&one, &by_client()), [53, 54, 51, 61, 82, 91, 255]);
    for code in [51, 61, 82, 91] {
        assert_eq!(sent(&one, &listing(&[code])), [53, 54, code, 255]);
        assert_eq!(sent(&two, &listing(&[code])), [53, 54, code, 92, 255]);
    }
    assert_eq!(sent(&two, &listing(&[92, 54, 1])), [53, 54, 92, 255]);
    assert_eq!(sent(&one, &listing(&[91, 51, 91])), [53, 54, 51, 91, 255]);
    assert_eq!(sent(&[oboe(7)], &listing(&[82, 61])), [53, 54, 61, 255]);
    assert_eq!(sent(&[], &listing(&[51, 61, 82, 91])), [53, 54, 255]);
    let every: Vec<u8> = (1..=255).collect();
    assert_eq!(ask(&two, &listing(&every)), ask(&two, &by_client()));
}

#[test]
fn tables_and_buffers_are_refused() {
    let refused = |table: &[Lease]| kind(table, &by_client()) == Err(Refusal::LeaseTable);
    assert!(refused(&[oboe(8), oboe(7)]));
    assert!(refused(&[oboe(7), oboe(7)]));
    assert!(refused(&[Lease::free(Ipv4Addr::UNSPECIFIED)]));
    let rising = |number: u32| Lease::free(Ipv4Addr::from(number + 1));
    let many: Vec<Lease> = (0..257).map(rising).collect();
    assert!(refused(&many) && !refused(&many[..256]));
    let mut reply = [9; 647];
    let told = lease_query(at(1000), &[], SERVER, &[], &mut reply);
    assert_eq!(told, Err(Refusal::LeaseReplyRoom));
    assert_eq!(reply, [9; 647]);
}

#[test]
fn packets_are_refused() {
    let refused = |query: &[u8]| kind(&[], query).expect_err("not sound");
    assert_eq!(refused(&by_client()[..239]), Refusal::Packet);
    assert_eq!(refused(&[0; 1501]), Refusal::Packet);
    let changed = |place: usize, octet: u8| {
        let mut query = by_client();
        query[place] = octet;
        refused(&query)
    };
    assert_eq!(changed(239, 0), Refusal::Packet);
    assert_eq!(changed(0, 2), Refusal::Op);
    assert_eq!(changed(249, 0), Refusal::Options);
    assert_eq!(refused(&listing(&[])), Refusal::Options);
    let twice = b"\x35\x01\x0a\x37\x01\x33\x37\x01\x33\x3d\x04oboe\xff";
    assert_eq!(refused(&packet(twice)), Refusal::Options);
    assert_eq!(changed(242, 11), Refusal::MessageType);
    assert_eq!(changed(24, 0), Refusal::Giaddr);
    assert_eq!(changed(12, 10), Refusal::Keys);
    assert_eq!(refused(&packet(b"\x35\x01\x0a\xff")), Refusal::Keys);
    assert_eq!(
        refused(&packet(b"\x35\x01\x0a\x3d\x01o\xff")),
        Refusal::KeyLength
    );
}

#[test]
fn a_record_tells_what_it_was_made_of() {
    let lease = Lease::leased(address(7), at(950), Expiry::Never);
    assert_eq!(
        (lease.address(), lease.state()),
        (address(7), LeaseState::Leased)
    );
    assert_eq!(
        (lease.last_transaction(), lease.expiry()),
        (at(950), Expiry::Never)
    );
    assert_eq!((lease.hardware(), lease.client_id()), (None, &b""[..]));
    let lease = lease.with_hardware(1, &[2; 16]).expect("16 octets");
    let lease = lease.with_client_id(&[3; 64]).expect("64 octets");
    let lease = lease.with_relay_information(&[4; 64]).expect("64 octets");
    assert_eq!(lease.hardware(), Some((1, &[2; 16][..])));
    assert_eq!(lease.client_id(), [3; 64]);
    assert_eq!(lease.relay_information(), [4; 64]);
    assert_eq!(kind(&[lease], &by_address(7)), Ok(ReplyKind::Active));
    let short = lease.with_client_id(&[]).expect("none");
    assert_ne!(short, lease);
    assert_eq!(short.with_client_id(&[3; 64]), Ok(lease));
    let free = lease.with_state(LeaseState::Free);
    assert_eq!(kind(&[free], &by_address(7)), Ok(ReplyKind::Unassigned));
    let ended = lease.with_last_transaction(at(990)).with_expiry(at(1000));
    assert_eq!(kind(&[ended], &by_address(7)), Ok(ReplyKind::Unassigned));
}

#[test]
fn records_that_break_the_form_are_not_made() {
    let lease = Lease::free(address(7));
    assert_eq!(lease.with_hardware(1, &[]), Err(Refusal::LeaseTable));
    assert_eq!(lease.with_hardware(1, &[2; 17]), Err(Refusal::LeaseTable));
    assert_eq!(lease.with_client_id(b"o"), Err(Refusal::LeaseTable));
    assert_eq!(lease.with_client_id(&[3; 65]), Err(Refusal::LeaseTable));
    assert_eq!(
        lease.with_relay_information(&[4; 65]),
        Err(Refusal::LeaseTable)
    );
}
