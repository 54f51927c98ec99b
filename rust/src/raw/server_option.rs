//! The rules for the Lifetime of a DNS server option, and what the call that writes one answers.

/// The rule of RFC 5006: from one to two times the interval.
pub const RULE_5006: u32 = 5006;
/// The rule of RFC 8106: three times the interval or more; all ones says without end.
pub const RULE_8106: u32 = 8106;

/// What [`server_option`](super::server_option()) answers.
#[repr(C)]
#[derive(Clone, Copy, PartialEq, Eq, Debug)]
pub struct ServerOptionAnswer {
    /// 0 for none.
    pub refusal: u32,
    /// How many octets stand at the front of the buffer; 0 where it is refused.
    pub length: u32,
}
