//! What the calls that write lease queries and read their replies answer.

use super::Span;

/// What [`query_by_address`](super::query_by_address()),
/// [`query_by_hardware`](super::query_by_hardware()) and
/// [`query_by_client_id`](super::query_by_client_id()) answer.
#[repr(C)]
#[derive(Clone, Copy, PartialEq, Eq, Debug)]
pub struct QueryAnswer {
    /// 0 for none.
    pub refusal: u32,
    /// How many octets stand at the front of the buffer; 0 where it is refused.
    pub length: u32,
}

/// What [`lease_reply_read`](super::lease_reply_read()) answers. Beside a refusal every other
/// number is 0.
#[repr(C)]
#[derive(Clone, Copy, PartialEq, Eq, Debug)]
pub struct LeaseReading {
    /// 0 for none.
    pub refusal: u32,
    /// The reply's kind.
    pub kind: u32,
    /// The ciaddr, as a number: the address leased, or the one that was asked about.
    pub address: u32,
    /// 1 where the seconds left are there, else 0.
    pub has_left: u32,
    /// The seconds left; all ones for a lease without end.
    pub left: Span,
    /// 1 where the seconds since the last transaction are there, else 0.
    pub has_since: u32,
    /// The seconds since the last transaction.
    pub since: Span,
    /// How many addresses there are.
    pub count: u32,
    /// The addresses, as numbers; zeros from `count` on.
    pub addresses: [u32; 63],
    /// All 16 octets of the reply's field.
    pub chaddr: [u8; 16],
    /// The type of the hardware.
    pub htype: u8,
    /// How many octets of `chaddr` count, at most 16.
    pub hlen: u8,
}
