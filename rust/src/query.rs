//! Lease queries, written by whoever asks a server.

use core::net::Ipv4Addr;

use crate::{raw, Refusal};

/// A lease query by an address (RFC 4388): who has it?
///
/// `xid` is the number by which the reply is known, best one that nobody guesses, and another for
/// each query that awaits a reply. `giaddr` is the asker's address, to which the server sends the
/// reply. The query goes to the front of `query`, at least
/// [`LEASE_QUERY_MIN`](crate::limits::LEASE_QUERY_MIN) octets, of which the octets past it keep
/// their values; what is answered is the packet to send. It has no request list (option 55), so
/// that the server leaves nothing out of its reply.
///
/// # Errors
///
/// Of this and of the two other queries, in the order in which they are tried: [`Refusal::Query`]
/// `giaddr` 0.0.0.0, or a key that no server takes: the address 0.0.0.0, a hardware address of no
/// octets or over [`HARDWARE_MAX`](crate::limits::HARDWARE_MAX), a client id of under 2 octets or
/// over [`QUERY_CLIENT_ID_MAX`](crate::limits::QUERY_CLIENT_ID_MAX); [`Refusal::QueryRoom`] `query`
/// too short, also where this query would fit.
///
/// # Examples
///
/// A desk asks, a server answers, the desk reads the reply:
///
/// ```
/// use jespurla::{lease_query, query_by_address, read_lease_reply};
/// use jespurla::{Expiry, Lease, Moment, ReplyKind};
/// use std::net::Ipv4Addr;
///
/// let (desk, pipe) = (Ipv4Addr::new(10, 0, 0, 1), Ipv4Addr::new(10, 0, 0, 7));
/// let mut query = [0; 501];
/// let query = query_by_address(0x7001, desk, pipe, &mut query)?;
///
/// let (last, now) = (Moment::try_from(750)?, Moment::try_from(1_000)?);
/// let table = [Lease::leased(pipe, last, Expiry::Never)];
/// let mut reply = [0; 648];
/// let reply = lease_query(now, &table, [10, 0, 0, 2].into(), query, &mut reply)?;
///
/// let told = read_lease_reply(0x7001, reply.as_bytes())?;
/// assert_eq!((told.kind(), told.address()), (ReplyKind::Active, pipe));
/// # Ok::<(), jespurla::Refusal>(())
/// ```
pub fn query_by_address(
    xid: u32,
    giaddr: Ipv4Addr,
    address: Ipv4Addr,
    query: &mut [u8],
) -> Result<&[u8], Refusal> {
    let told = raw::query_by_address(xid, giaddr.into(), address.into(), query);
    written(told, query)
}

/// A lease query by a client's hardware address (RFC 4388): what does this client have?
///
/// `htype` is the type of the hardware, 1 for Ethernet, and `address` the hardware address. The
/// other arguments and the errors are those of [`query_by_address`].
///
/// ```
/// use jespurla::{query_by_hardware, Refusal};
///
/// let (desk, mut query) = ([10, 0, 0, 1].into(), [0; 501]);
/// let packet = query_by_hardware(0x7002, desk, 1, &[2, 0, 0, 0, 0, 7], &mut query)?;
/// assert_eq!(packet[28..34], [2, 0, 0, 0, 0, 7]);
/// let none = query_by_hardware(0x7002, desk, 1, &[], &mut query);
/// assert_eq!(none, Err(Refusal::Query));
/// # Ok::<(), Refusal>(())
/// ```
pub fn query_by_hardware<'q>(
    xid: u32,
    giaddr: Ipv4Addr,
    htype: u8,
    address: &[u8],
    query: &'q mut [u8],
) -> Result<&'q [u8], Refusal> {
    let told = raw::query_by_hardware(xid, giaddr.into(), htype, address, query);
    written(told, query)
}

/// A lease query by a client id (RFC 4388): what does this client have?
///
/// An id of over [`CLIENT_ID_MAX`](crate::limits::CLIENT_ID_MAX) octets is written, and
/// [`lease_query`](crate::lease_query()) knows nobody by it. The other arguments and the errors are
/// those of [`query_by_address`].
///
/// ```
/// use jespurla::{query_by_client_id, Refusal};
///
/// let mut query = [0; 501];
/// let packet = query_by_client_id(0x7003, [10, 0, 0, 1].into(), b"oboe", &mut query)?;
/// assert_eq!(packet[240..], *b"\x35\x01\x0a\x3d\x04oboe\xff");
/// # Ok::<(), Refusal>(())
/// ```
pub fn query_by_client_id<'q>(
    xid: u32,
    giaddr: Ipv4Addr,
    id: &[u8],
    query: &'q mut [u8],
) -> Result<&'q [u8], Refusal> {
    let told = raw::query_by_client_id(xid, giaddr.into(), id, query);
    written(told, query)
}

/// The query at the front of its buffer, unless it was refused.
fn written(told: raw::QueryAnswer, query: &[u8]) -> Result<&[u8], Refusal> {
    Refusal::check(told.refusal).map(|()| &query[..told.length as usize])
}
