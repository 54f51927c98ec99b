//! The requests of RFC 4703, each tested and done at once.

use core::net::IpAddr;

use crate::numbers::{answered, numbers};
use crate::{raw, Dhcid, Family, Name, Refusal, Zone};

numbers! {
    /// What becomes of a name's other addresses.
    Policy: u8 {
        /// Other addresses stay.
        KeepOthers = raw::KEEP_OTHERS,
        /// No other address of this family stays.
        OneOfFamily = raw::ONE_OF_FAMILY,
        /// No other address stays.
        OnlyThis = raw::ONLY_THIS,
    }
}

numbers! {
    /// What a request answers: the response codes of RFC 2136, and one of our own.
    Answer: u32 {
        /// The request has been done.
        NoError = raw::NOERROR,
        /// The name is absent.
        NxDomain = raw::NXDOMAIN,
        /// The name is there.
        YxDomain = raw::YXDOMAIN,
        /// An address is left.
        YxRrset = raw::YXRRSET,
        /// The name is static or held by another, or, of a remove, absent.
        NxRrset = raw::NXRRSET,
        /// It would be the 65th name, or the fifth address of its family.
        NoRoom = raw::NO_ROOM,
    }
}

/// # Requests
///
/// A request that does not answer [`Answer::NoError`] changes nothing, and none changes how a name
/// that stands is [spelled](Zone#how-names-are-spelled).
impl Zone {
    /// A: adds an absent name, spelled as here, held by the owner, with the address.
    /// [`Answer::YxDomain`] where the name is there; [`Answer::NoRoom`] where it would be the 65th.
    ///
    /// # Errors
    ///
    /// That of [`Zone::check`].
    pub fn request_a(
        &mut self,
        name: &Name,
        owner: &Dhcid,
        address: impl Into<IpAddr>,
    ) -> Result<Answer, Refusal> {
        let (name, owner) = (name.as_raw(), &owner.to_raw());
        let (family, address) = parts(address);
        told(raw::request_a_lent(
            &mut self.0,
            name,
            owner,
            family,
            &address,
        ))
    }

    /// B: at a name that the owner holds, deletes by policy, then adds the address unless it is
    /// there. [`Answer::NxDomain`] where the name is absent; [`Answer::NxRrset`] where it is static
    /// or held by another; [`Answer::NoRoom`] where after the deletes the address would be the
    /// fifth of its family.
    ///
    /// # Errors
    ///
    /// That of [`Zone::check`].
    pub fn request_b(
        &mut self,
        name: &Name,
        owner: &Dhcid,
        address: impl Into<IpAddr>,
        policy: Policy,
    ) -> Result<Answer, Refusal> {
        let (name, owner, policy) = (name.as_raw(), &owner.to_raw(), policy.into());
        let (family, address) = parts(address);
        told(raw::request_b_lent(
            &mut self.0,
            name,
            owner,
            family,
            &address,
            policy,
        ))
    }

    /// The first remove request: at a name that the owner holds, deletes the address if it is
    /// there; the name stays. [`Answer::NxRrset`] where the owner does not hold the name.
    ///
    /// # Errors
    ///
    /// That of [`Zone::check`].
    pub fn request_remove_address(
        &mut self,
        name: &Name,
        owner: &Dhcid,
        address: impl Into<IpAddr>,
    ) -> Result<Answer, Refusal> {
        let (name, owner) = (name.as_raw(), &owner.to_raw());
        let (family, address) = parts(address);
        told(raw::request_remove_address_lent(
            &mut self.0,
            name,
            owner,
            family,
            &address,
        ))
    }

    /// The second remove request: deletes a name that the owner holds and that has no address.
    /// [`Answer::NxRrset`] where the owner does not hold the name, [`Answer::YxRrset`] where it
    /// does and an address is left.
    ///
    /// # Errors
    ///
    /// That of [`Zone::check`].
    pub fn request_remove_name(&mut self, name: &Name, owner: &Dhcid) -> Result<Answer, Refusal> {
        let (name, owner) = (name.as_raw(), &owner.to_raw());
        // The call takes an address as the others do; which one makes no difference.
        let any = raw::Address { octets: [0; 16] };
        told(raw::request_remove_name_lent(
            &mut self.0,
            name,
            owner,
            raw::FAMILY_4,
            &any,
        ))
    }
}

/// The family and the octets of an address.
pub(crate) fn parts(address: impl Into<IpAddr>) -> (u8, raw::Address) {
    let address = address.into();
    (Family::from(address).into(), address.into())
}

fn told(answer: raw::RequestAnswer) -> Result<Answer, Refusal> {
    Refusal::check(answer.refusal).map(|()| answered(answer.answer))
}
