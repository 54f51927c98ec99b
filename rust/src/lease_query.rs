//! The reply to a lease query.

use core::net::Ipv4Addr;

use crate::numbers::{answered, numbers};
use crate::{raw, Lease, Moment, Refusal};

numbers! {
    /// The kind of a reply.
    ReplyKind: u32 {
        /// LEASEUNASSIGNED: the address has a record, and it is not active.
        Unassigned = raw::LEASEUNASSIGNED,
        /// LEASEUNKNOWN: the address has no record, or the client no active lease.
        Unknown = raw::LEASEUNKNOWN,
        /// LEASEACTIVE: there is an active lease.
        Active = raw::LEASEACTIVE,
    }
}

/// A reply to a lease query.
#[derive(Clone, Copy, PartialEq, Eq, Debug)]
pub struct LeaseReply<'r> {
    kind: ReplyKind,
    octets: &'r [u8],
}

impl<'r> LeaseReply<'r> {
    /// Its kind.
    pub fn kind(self) -> ReplyKind {
        self.kind
    }

    /// The packet to send.
    pub fn as_bytes(self) -> &'r [u8] {
        self.octets
    }
}

/// The reply to a DHCPv4 lease query (RFC 4388).
///
/// `clock` is now. `table` is the lease table: at most [`LEASES_MAX`](crate::limits::LEASES_MAX)
/// records, their addresses not 0.0.0.0 and strictly rising. `server` is this server's address, and
/// `query` the packet. The reply goes to the front of `reply`, at least
/// [`LEASE_REPLY_MIN`](crate::limits::LEASE_REPLY_MIN) octets; the octets past it keep their
/// values.
///
/// A query has one key: an address, or a client's hardware address or client id. By address the
/// reply is [`Active`](ReplyKind::Active) where the address has an active record,
/// [`Unassigned`](ReplyKind::Unassigned) where it has a record that is not active, and
/// [`Unknown`](ReplyKind::Unknown) where it has none. By client it is Active where the client has
/// an active lease, about the one with the latest last transaction (of several the lowest address);
/// else Unknown. `include/jespurla.h` says what stands in the reply, option by option. Where the
/// query has a request list, option 55 (RFC 2132), the seconds left (51), the client id (61), the
/// relay information (82) and the seconds since the last transaction (91) are sent only if it lists
/// them.
///
/// # Errors
///
/// In the order in which they are tried: [`Refusal::LeaseTable`] the table breaks its form;
/// [`Refusal::LeaseReplyRoom`] `reply` too short; then, of the packet, [`Refusal::Packet`],
/// [`Refusal::Op`], [`Refusal::Options`], which is also for a request list that is empty or there
/// twice, [`Refusal::MessageType`], [`Refusal::Giaddr`], [`Refusal::Keys`] and
/// [`Refusal::KeyLength`]. A server that gets one of those of the packet drops it and sends nothing.
///
/// # Examples
///
/// ```
/// use jespurla::{lease_query, Expiry, Lease, Moment, Refusal, ReplyKind};
///
/// // A query by the client id "oboe".
/// let mut query = vec![0; 240];
/// query[0] = 1; // a request
/// query[24..28].copy_from_slice(&[10, 0, 0, 1]); // from this relay
/// query[236..].copy_from_slice(&[99, 130, 83, 99]);
/// query.extend(b"\x35\x01\x0a\x3d\x04oboe\xff");
///
/// let now = Moment::try_from(1_000)?;
/// let lease = Lease::leased([10, 0, 0, 7].into(), now, Expiry::Never).with_client_id(b"oboe")?;
/// let mut reply = [0; 648];
/// let told = lease_query(now, &[lease], [10, 0, 0, 2].into(), &query, &mut reply)?;
/// assert_eq!(told.kind(), ReplyKind::Active);
/// assert_eq!(told.as_bytes()[12..16], [10, 0, 0, 7]);
/// # Ok::<(), Refusal>(())
/// ```
pub fn lease_query<'r>(
    clock: Moment,
    table: &[Lease],
    server: Ipv4Addr,
    query: &[u8],
    reply: &'r mut [u8],
) -> Result<LeaseReply<'r>, Refusal> {
    let table = raw::leases(table);
    let told = raw::lease_query(clock.to_raw(), table, server.into(), query, reply);
    Refusal::check(told.refusal).map(|()| LeaseReply {
        kind: answered(told.kind),
        octets: &reply[..told.length as usize],
    })
}
