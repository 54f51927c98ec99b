//! Jobs of RFC 4703, which send their requests one step at a time.

use super::{Address, Dhcid, Name, Zone};

/// An add that sends A next.
pub const ADD_BEFORE_A: u8 = 1;
/// An add that sends B next.
pub const ADD_BEFORE_B: u8 = 2;
/// An add that has succeeded.
pub const ADD_DONE: u8 = 3;
/// An add that found the name static or held by another.
pub const ADD_CONFLICT: u8 = 4;
/// An add that found no room.
pub const ADD_NO_ROOM: u8 = 5;
/// An add whose sixth request was answered NXDOMAIN.
pub const ADD_GAVE_UP: u8 = 6;
/// A remove that sends its first request next.
pub const REMOVE_BEFORE_FIRST: u8 = 11;
/// A remove that sends its second request next.
pub const REMOVE_BEFORE_SECOND: u8 = 12;
/// A remove whose DHCID does not hold the name.
pub const REMOVE_NOT_OURS: u8 = 13;
/// A remove that has deleted the name.
pub const REMOVE_GONE: u8 = 14;
/// A remove that has left the name.
pub const REMOVE_KEPT: u8 = 15;

/// A job under way or ended.
#[repr(C)]
#[derive(Clone, Copy, PartialEq, Eq, Debug)]
pub struct Job {
    /// One of the stages above.
    pub stage: u8,
    /// The requests that an add has sent; of a remove not looked at.
    pub count: u8,
    /// 4 or 6.
    pub family: u8,
    /// Of a remove not looked at.
    pub policy: u8,
    /// A full name.
    pub name: Name,
    /// Whose job it is.
    pub dhcid: Dhcid,
    /// The address to add or remove.
    pub address: Address,
}

impl Job {
    /// The job of zeros that a refused new job call gives; no step takes it.
    pub const BLANK: Job = Job {
        stage: 0,
        count: 0,
        family: 0,
        policy: 0,
        name: Name::EMPTY,
        dhcid: Dhcid { octets: [0; 35] },
        address: Address { octets: [0; 16] },
    };
}

/// What a new job call answers.
#[repr(C)]
#[derive(Clone, Copy, PartialEq, Eq, Debug)]
pub struct NewJob {
    /// 0 for none.
    pub refusal: u32,
    /// The fresh job; [`Job::BLANK`] where it is refused.
    pub job: Job,
}

/// What a step by value answers.
#[repr(C)]
#[derive(Clone, Copy, Debug)]
pub struct Stepped {
    /// 0 for none.
    pub refusal: u32,
    /// The zone after the step; the very zone handed in where it is refused.
    pub zone: Zone,
    /// The job after the step; the very job handed in where it is refused.
    pub job: Job,
}

/// What a step on a lent zone answers.
#[repr(C)]
#[derive(Clone, Copy, PartialEq, Eq, Debug)]
pub struct StepAnswer {
    /// 0 for none.
    pub refusal: u32,
    /// The job after the step; the very job handed in where it is refused.
    pub job: Job,
}
