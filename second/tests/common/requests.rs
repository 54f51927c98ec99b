//! The zone's four requests as values, and the second program's answers.

use second::zone::{self, Address, Answer, Dhcid, FirstAnswer, Name, SecondAnswer, Zone};

#[derive(Clone, Copy, PartialEq, Eq, Debug)]
pub enum Kind {
    A,
    B,
    RemoveFirst,
    RemoveSecond,
}

/// One request; A and the removes don't read the policy, and the second
/// remove doesn't read the address.
#[derive(Clone, Copy, Debug)]
pub struct Request {
    pub kind: Kind,
    pub name: Name,
    pub dhcid: Dhcid,
    pub family: u8,
    pub address: Address,
    pub policy: u8,
}

/// What any of the four answers.
#[derive(Clone, Copy, PartialEq, Eq, Debug)]
pub enum Reply {
    Success,
    YxDomain,
    NxDomain,
    YxRrset,
    NxRrset,
    NoRoom,
    NotOurs,
}

impl From<Answer> for Reply {
    fn from(answer: Answer) -> Reply {
        match answer {
            Answer::Success => Reply::Success,
            Answer::YxDomain => Reply::YxDomain,
            Answer::NxDomain => Reply::NxDomain,
            Answer::NxRrset => Reply::NxRrset,
            Answer::NoRoom => Reply::NoRoom,
        }
    }
}

impl From<FirstAnswer> for Reply {
    fn from(answer: FirstAnswer) -> Reply {
        match answer {
            FirstAnswer::Passed => Reply::Success,
            FirstAnswer::NotOurs => Reply::NotOurs,
        }
    }
}

impl From<SecondAnswer> for Reply {
    fn from(answer: SecondAnswer) -> Reply {
        match answer {
            SecondAnswer::Gone => Reply::Success,
            SecondAnswer::NotHeld => Reply::NxRrset,
            SecondAnswer::HasAddress => Reply::YxRrset,
        }
    }
}

/// Sends a request to the second program's zone.
pub fn send(zone: &mut Zone, request: &Request) -> Result<Reply, u8> {
    let (name, dhcid, address) = (&request.name, &request.dhcid, &request.address);
    let (family, policy) = (request.family, request.policy);
    match request.kind {
        Kind::A => zone::request_a(zone, name, dhcid, family, address).map(Reply::from),
        Kind::B => zone::request_b(zone, name, dhcid, family, address, policy).map(Reply::from),
        Kind::RemoveFirst => {
            zone::request_remove_first(zone, name, dhcid, family, address).map(Reply::from)
        }
        Kind::RemoveSecond => {
            zone::request_remove_second(zone, name, dhcid, family).map(Reply::from)
        }
    }
}
