//! The DNS servers that routers announce.

use super::Moment;

/// A DNS server that a router announced: an IPv6 address and two moments. It is in use up to the
/// earlier of the two, that moment included.
#[repr(C)]
#[derive(Clone, Copy, PartialEq, Eq, Debug, Default)]
pub struct Server {
    /// The IPv6 address.
    pub address: [u8; 16],
    /// Of the option that last named it: a moment, or never.
    pub expiry: Moment,
    /// Of the router that sent this option: a moment.
    pub router: Moment,
}

/// The DNS servers, the preferred one first, and the last accepted clock. The
/// default list is empty, at clock 0. Entries past the count are not looked
/// at, and are zero in a list that a call made.
#[repr(C)]
#[derive(Clone, Copy, PartialEq, Eq, Debug, Default)]
pub struct ServerListState {
    /// The servers held, and room for more.
    pub entries: [Server; 8],
    /// How many are held; above 8 breaks the form.
    pub count: usize,
    /// The last accepted clock.
    pub clock: Moment,
}

impl ServerListState {
    /// A list without servers, at clock 0.
    pub const EMPTY: ServerListState = ServerListState {
        entries: [Server {
            address: [0; 16],
            expiry: Moment(0),
            router: Moment(0),
        }; 8],
        count: 0,
        clock: Moment(0),
    };

    /// The servers held; all entries where the count claims more.
    pub fn held(&self) -> &[Server] {
        &self.entries[..self.count.min(8)]
    }
}

/// What [`server_list`](super::server_list()) answers.
#[repr(C)]
#[derive(Clone, Copy, PartialEq, Eq, Debug)]
pub struct ServerListAnswer {
    /// 0 for none.
    pub refusal: u32,
    /// The new list, or the very list that was handed in.
    pub list: ServerListState,
}
