//! What stands in the reply to a lease query.

use core::fmt;
use core::net::Ipv4Addr;

use crate::numbers::answered;
use crate::{raw, Refusal, ReplyKind, Span};

/// How long a lease has still to run, counted from when the server wrote the reply. Without end
/// comes after every span.
#[derive(Clone, Copy, PartialEq, Eq, PartialOrd, Ord, Hash, Debug)]
pub enum TimeLeft {
    /// For this span, which is not [`Span::ENDLESS`] where it comes from a reply.
    For(Span),
    /// The lease does not expire.
    WithoutEnd,
}

impl TimeLeft {
    /// The value of option 51: all ones stand for a lease without end.
    fn from_raw(left: raw::Span) -> TimeLeft {
        match Span(left.0) {
            Span::ENDLESS => TimeLeft::WithoutEnd,
            span => TimeLeft::For(span),
        }
    }
}

impl fmt::Display for TimeLeft {
    fn fmt(&self, to: &mut fmt::Formatter) -> fmt::Result {
        match self {
            TimeLeft::For(span) => span.fmt(to),
            TimeLeft::WithoutEnd => to.pad("without end"),
        }
    }
}

/// What stands in the reply to a lease query, as [`read_lease_reply`] read it.
#[derive(Clone, Copy, PartialEq, Eq)]
pub struct LeaseReading(raw::LeaseReading);

impl LeaseReading {
    /// The kind of the reply.
    pub fn kind(&self) -> ReplyKind {
        answered(self.0.kind)
    }

    /// Of an active lease its address; in any other reply the one that was asked about, 0.0.0.0
    /// where the query was by client.
    pub fn address(&self) -> Ipv4Addr {
        self.0.address.into()
    }

    /// The type of the hardware and the hardware address: of an active lease those of its client,
    /// in any other reply those that were asked about. `None` where the address has no octets.
    pub fn hardware(&self) -> Option<(u8, &[u8])> {
        let address = &self.0.chaddr[..self.0.hlen.into()];
        (!address.is_empty()).then_some((self.0.htype, address))
    }

    /// How long an active lease has still to run; `None` where the server left option 51 out, and in
    /// any other reply.
    pub fn left(&self) -> Option<TimeLeft> {
        (self.0.has_left != 0).then(|| TimeLeft::from_raw(self.0.left))
    }

    /// How long ago the last transaction of an active lease was, counted from when the server wrote
    /// the reply; `None` where the server left option 91 out, and in any other reply. It always has
    /// an end: all ones are that many seconds, or more.
    pub fn since(&self) -> Option<Span> {
        (self.0.has_since != 0).then_some(Span(self.0.since.0))
    }

    /// The addresses of all active leases of a client that was asked about and has two or more, the
    /// latest first, [`address`](LeaseReading::address) among them; in any other reply none.
    pub fn addresses(&self) -> impl ExactSizeIterator<Item = Ipv4Addr> + '_ {
        let held = &self.0.addresses[..self.0.count as usize];
        held.iter().map(|&address| address.into())
    }
}

impl fmt::Debug for LeaseReading {
    fn fmt(&self, to: &mut fmt::Formatter) -> fmt::Result {
        to.debug_struct("LeaseReading")
            .field("kind", &self.kind())
            .field("address", &self.address())
            .field("hardware", &self.hardware())
            .field("left", &self.left())
            .field("since", &self.since())
            .field("addresses", &Listed(self))
            .finish()
    }
}

/// The addresses as a list, for the form above.
struct Listed<'r>(&'r LeaseReading);

impl fmt::Debug for Listed<'_> {
    fn fmt(&self, to: &mut fmt::Formatter) -> fmt::Result {
        to.debug_list().entries(self.0.addresses()).finish()
    }
}

/// Reads the reply to a lease query (RFC 4388).
///
/// `xid` is that of the query, and `reply` the packet. Every reply that
/// [`lease_query`](crate::lease_query()) writes is read back with the values that it was written
/// from. That of an active lease lacks a time where the query had a request list, option 55, that
/// does not list it; the queries of this crate have none. `include/jespurla.h` says which other
/// replies are sound, option by option.
///
/// # Errors
///
/// In the order in which they are tried: [`Refusal::Reply`] a malformed reply; [`Refusal::Xid`] the
/// reply to another query. Whoever gets one of them drops the packet and goes on waiting, for as
/// long as it would have waited without it.
///
/// # Examples
///
/// ```
/// use jespurla::{lease_query, query_by_client_id, read_lease_reply};
/// use jespurla::{Expiry, Lease, Moment, Refusal, Span, TimeLeft};
///
/// let at = |seconds| Moment::try_from(seconds);
/// let table = [
///     Lease::leased([10, 0, 0, 7].into(), at(900)?, at(2_000)?).with_client_id(b"pipe7")?,
///     Lease::leased([10, 0, 0, 9].into(), at(980)?, Expiry::Never).with_client_id(b"pipe7")?,
/// ];
/// let (mut query, mut reply) = ([0; 501], [0; 648]);
/// let query = query_by_client_id(0x7004, [10, 0, 0, 1].into(), b"pipe7", &mut query)?;
/// let reply = lease_query(at(1_000)?, &table, [10, 0, 0, 2].into(), query, &mut reply)?;
///
/// let told = read_lease_reply(0x7004, reply.as_bytes())?;
/// assert_eq!(told.address().to_string(), "10.0.0.9");
/// assert_eq!(told.since(), Some(Span(20)));
/// assert_eq!(told.left(), Some(TimeLeft::WithoutEnd));
/// let others: Vec<_> = told.addresses().filter(|&held| held != told.address()).collect();
/// assert_eq!(others, [[10, 0, 0, 7].into()] as [std::net::Ipv4Addr; 1]);
///
/// assert_eq!(read_lease_reply(0x7005, reply.as_bytes()), Err(Refusal::Xid));
/// assert_eq!(read_lease_reply(0x7004, &reply.as_bytes()[..240]), Err(Refusal::Reply));
/// # Ok::<(), Refusal>(())
/// ```
pub fn read_lease_reply(xid: u32, reply: &[u8]) -> Result<LeaseReading, Refusal> {
    let told = raw::lease_reply_read(xid, reply);
    Refusal::check(told.refusal).map(|()| LeaseReading(told))
}
