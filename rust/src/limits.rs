//! The limits of the library, in octets where nothing else is said.

/// A full name.
pub const NAME_MAX: usize = 255;
/// A label of it.
pub const LABEL_MAX: usize = 63;
/// The buffer for the answer to a name option, at least.
pub const NAME_REPLY_MIN: usize = 256;
/// A router's option area.
pub const AREA_MAX: usize = 1500;
/// A router's lifetime, in seconds.
pub const ROUTER_LIFETIME_MAX: u32 = 65_535;
/// Servers in the list.
pub const SERVERS_MAX: usize = 8;
/// Addresses of one option that count.
pub const OPTION_SERVERS_MAX: usize = 3;
/// A lease query or reply, at least.
pub const PACKET_MIN: usize = 240;
/// A lease query or reply that is read, at most.
pub const PACKET_MAX: usize = 1500;
/// The buffer for a lease reply, at least; no reply is longer.
pub const LEASE_REPLY_MIN: usize = 648;
/// The buffer for a lease query, at least; none that is written is longer.
pub const LEASE_QUERY_MIN: usize = 501;
/// Records in the lease table.
pub const LEASES_MAX: usize = 256;
/// A hardware address.
pub const HARDWARE_MAX: usize = 16;
/// A client id in the lease table.
pub const CLIENT_ID_MAX: usize = 64;
/// A client id in a lease query that is written.
pub const QUERY_CLIENT_ID_MAX: usize = 255;
/// Relay agent information in the lease table.
pub const RELAY_MAX: usize = 64;
/// Addresses in option 92 of a reply.
pub const REPLY_ADDRESSES_MAX: usize = 63;
/// A DHCID.
pub const DHCID_LENGTH: usize = 35;
/// Names in a zone.
pub const NAMES_MAX: usize = 64;
/// Addresses that a name has of each family.
pub const NAME_ADDRESSES_MAX: usize = 4;
/// Requests that an add sends.
pub const REQUESTS_MAX: usize = 6;
/// A zone as it is stored.
pub const ZONE_LENGTH: usize = 23_936;
