//! Leases and the answer to a lease query.

use super::Moment;

/// The state of a record whose address is free.
pub const LEASE_FREE: u8 = 0;
/// The state of a record whose address is leased.
pub const LEASE_LEASED: u8 = 1;

/// The reply's kind: a record is there but not active.
pub const LEASEUNASSIGNED: u32 = 11;
/// The reply's kind: no record, or no active lease of that client.
pub const LEASEUNKNOWN: u32 = 12;
/// The reply's kind: an active lease.
pub const LEASEACTIVE: u32 = 13;

/// A record of the lease table.
#[repr(C)]
#[derive(Clone, Copy, PartialEq, Eq, Debug)]
pub struct Lease {
    /// The last transaction.
    pub last: Moment,
    /// A moment, or never.
    pub expiry: Moment,
    /// The hardware address: zeros from `hlen` on.
    pub chaddr: [u8; 16],
    /// The client id; octets from `idlen` on are not looked at.
    pub id: [u8; 64],
    /// Relay agent information; octets from `relaylen` on are not looked at.
    pub relay: [u8; 64],
    /// As a number: 10.0.0.1 is 0x0a000001.
    pub address: u32,
    /// [`LEASE_FREE`] or [`LEASE_LEASED`].
    pub state: u8,
    /// 0 where `hlen` is 0.
    pub htype: u8,
    /// 0 to 16.
    pub hlen: u8,
    /// 0, or 2 to 64.
    pub idlen: u8,
    /// 0 to 64.
    pub relaylen: u8,
}

impl Lease {
    /// A free record of this address.
    pub const fn free(address: u32) -> Lease {
        Lease {
            last: Moment(0),
            expiry: Moment(0),
            chaddr: [0; 16],
            id: [0; 64],
            relay: [0; 64],
            address,
            state: LEASE_FREE,
            htype: 0,
            hlen: 0,
            idlen: 0,
            relaylen: 0,
        }
    }
}

/// What [`lease_query`](super::lease_query()) answers.
#[repr(C)]
#[derive(Clone, Copy, PartialEq, Eq, Debug)]
pub struct LeaseAnswer {
    /// 0 for none.
    pub refusal: u32,
    /// The reply's kind; 0 where it is refused.
    pub kind: u32,
    /// The reply's octets; 0 where it is refused.
    pub length: u32,
}
