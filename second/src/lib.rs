//! A second program for the rules of document 01, with names compared as
//! document 02, a) has it, servers held as its b) has it, queries asked as its
//! d) has it and answered as its e) has it, in plain Rust.
//!
//! It exists to be compared with the product: same input, same answer, same
//! refusal number, same octets. It also serves as the yardstick of the
//! benchmarks. One module holds one section's rules:
//!
//! - [`name_option`]: the DHCPv6 name option and the server's answer to it;
//! - [`server_list`]: the DNS server list fed by router options (RDNSS);
//! - [`lease_query`]: the lease table and the DHCPv4 lease query;
//! - [`desk_query`]: the lease query as the desk writes it;
//! - [`desk_reply`]: the reply to it as the desk reads it;
//! - [`zone`]: the zone and the four update requests;
//! - [`lookup`]: whether two zones are the same, and what stands at a name;
//! - [`job`]: add and remove jobs, one request a step.
//!
//! Malformed input must be representable, so records carry raw numbers where
//! a Rust enum would rule the fault out. A refusal is `Err(number)`, and it
//! leaves everything lent as it was.

pub mod desk_query;
pub mod desk_reply;
pub mod job;
pub mod lease_query;
pub mod lookup;
pub mod name_option;
mod packet;
pub mod server_list;
pub mod zone;

/// The last moment the clock can show.
pub const LATEST_MOMENT: u64 = (1 << 48) - 1;
/// The expiry of what doesn't end. It is above every moment, so plain order
/// puts it last.
pub const NEVER: u64 = u64::MAX;

/// Whether a number is an expiry: a moment or never.
pub(crate) fn is_expiry(number: u64) -> bool {
    number <= LATEST_MOMENT || number == NEVER
}
