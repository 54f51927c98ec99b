//! The flags of the DHCPv6 name option, and what its calls answer.

/// The flag S: the server updates the name's address.
pub const FLAG_S: u8 = 1;
/// The flag O, in an answer alone: the server overrides the client's wish for S.
pub const FLAG_O: u8 = 2;
/// The flag N: the server updates nothing.
pub const FLAG_N: u8 = 4;

/// What [`flag_decision`](super::flag_decision) answers.
#[repr(C)]
#[derive(Clone, Copy, PartialEq, Eq, Debug)]
pub struct FlagAnswer {
    /// 0 for none.
    pub refusal: u32,
    /// The flags octet of the answer: 0, S, O or N; 0 where it is refused.
    pub flags: u32,
}

/// What [`name_option_answer`](super::name_option_answer()) answers.
#[repr(C)]
#[derive(Clone, Copy, PartialEq, Eq, Debug)]
pub struct NameAnswer {
    /// 0 for none.
    pub refusal: u32,
    /// How many octets stand at the front of the buffer; 0 where it is refused.
    pub length: u32,
}
