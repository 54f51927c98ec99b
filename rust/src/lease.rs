//! Records of the lease table.

use core::fmt;
use core::net::Ipv4Addr;

use crate::limits::{CLIENT_ID_MAX, HARDWARE_MAX, RELAY_MAX};
use crate::numbers::{answered, numbers};
use crate::{raw, Expiry, Moment, Refusal};

numbers! {
    /// The state of a record.
    LeaseState: u8 {
        /// The address is free.
        Free = raw::LEASE_FREE,
        /// The address is leased; whether the lease is active depends on its expiry.
        Leased = raw::LEASE_LEASED,
    }
}

/// A record of the lease table. It is active where it is leased and its expiry is never or later
/// than now: at the very moment of its expiry it is not.
///
/// ```
/// use jespurla::{Expiry, Lease, Moment, Refusal};
///
/// let now = Moment::try_from(1_000)?;
/// let lease = Lease::leased([10, 0, 0, 7].into(), now, Expiry::Never)
///     .with_hardware(1, &[2, 0, 0, 0, 0, 7])?
///     .with_client_id(b"oboe")?;
/// assert_eq!(lease.address().to_string(), "10.0.0.7");
/// assert_eq!(lease.with_client_id(b"o"), Err(Refusal::LeaseTable));
/// # Ok::<(), Refusal>(())
/// ```
#[repr(transparent)]
#[derive(Clone, Copy)]
pub struct Lease(raw::Lease);

impl Lease {
    /// A free record of this address, with nothing known of any client.
    pub fn free(address: Ipv4Addr) -> Lease {
        Lease(raw::Lease::free(address.into()))
    }

    /// A leased record of this address: its last transaction, and when it expires.
    pub fn leased(address: Ipv4Addr, last: Moment, expiry: impl Into<Expiry>) -> Lease {
        Lease::free(address)
            .with_state(LeaseState::Leased)
            .with_last_transaction(last)
            .with_expiry(expiry)
    }

    /// The record in this state.
    #[must_use]
    pub fn with_state(mut self, state: LeaseState) -> Lease {
        self.0.state = state.into();
        self
    }

    /// The record with this last transaction.
    #[must_use]
    pub fn with_last_transaction(mut self, last: Moment) -> Lease {
        self.0.last = last.to_raw();
        self
    }

    /// The record with this expiry.
    #[must_use]
    pub fn with_expiry(mut self, expiry: impl Into<Expiry>) -> Lease {
        self.0.expiry = expiry.into().to_raw();
        self
    }

    /// The record with this type of hardware and this hardware address.
    ///
    /// # Errors
    ///
    /// [`Refusal::LeaseTable`] where the address has no octets or over [`HARDWARE_MAX`].
    pub fn with_hardware(mut self, htype: u8, address: &[u8]) -> Result<Lease, Refusal> {
        if address.is_empty() {
            return Err(Refusal::LeaseTable);
        }
        (self.0.chaddr, self.0.hlen) = padded::<HARDWARE_MAX>(address)?;
        self.0.htype = htype;
        Ok(self)
    }

    /// The record with this client id; no octets are none.
    ///
    /// # Errors
    ///
    /// [`Refusal::LeaseTable`] where it has one octet or over [`CLIENT_ID_MAX`].
    pub fn with_client_id(mut self, id: &[u8]) -> Result<Lease, Refusal> {
        if id.len() == 1 {
            return Err(Refusal::LeaseTable);
        }
        (self.0.id, self.0.idlen) = padded::<CLIENT_ID_MAX>(id)?;
        Ok(self)
    }

    /// The record with this relay agent information; no octets are none.
    ///
    /// # Errors
    ///
    /// [`Refusal::LeaseTable`] where it has over [`RELAY_MAX`] octets.
    pub fn with_relay_information(mut self, information: &[u8]) -> Result<Lease, Refusal> {
        (self.0.relay, self.0.relaylen) = padded::<RELAY_MAX>(information)?;
        Ok(self)
    }

    /// The address.
    pub fn address(&self) -> Ipv4Addr {
        self.0.address.into()
    }

    /// The state.
    pub fn state(&self) -> LeaseState {
        answered(self.0.state)
    }

    /// The last transaction.
    pub fn last_transaction(&self) -> Moment {
        Moment::from_raw(self.0.last)
    }

    /// When it expires.
    pub fn expiry(&self) -> Expiry {
        Expiry::from_raw(self.0.expiry)
    }

    /// The type of the hardware and the hardware address, where they are known.
    pub fn hardware(&self) -> Option<(u8, &[u8])> {
        let address = &self.0.chaddr[..self.0.hlen.into()];
        (!address.is_empty()).then_some((self.0.htype, address))
    }

    /// The client id; no octets where there is none.
    pub fn client_id(&self) -> &[u8] {
        &self.0.id[..self.0.idlen.into()]
    }

    /// The relay agent information; no octets where there is none.
    pub fn relay_information(&self) -> &[u8] {
        &self.0.relay[..self.0.relaylen.into()]
    }
}

/// The octets with zeros behind them, and how many there are, where they are not too many.
fn padded<const N: usize>(octets: &[u8]) -> Result<([u8; N], u8), Refusal> {
    let mut all = [0; N];
    let front = all.get_mut(..octets.len()).ok_or(Refusal::LeaseTable)?;
    front.copy_from_slice(octets);
    Ok((all, octets.len() as u8))
}

/// Every octet that is not looked at is 0 here, so records are equal where all that counts is.
impl PartialEq for Lease {
    fn eq(&self, other: &Lease) -> bool {
        self.0 == other.0
    }
}

impl Eq for Lease {}

impl fmt::Debug for Lease {
    fn fmt(&self, to: &mut fmt::Formatter) -> fmt::Result {
        to.debug_struct("Lease")
            .field("address", &self.address())
            .field("state", &self.state())
            .field("last_transaction", &self.last_transaction())
            .field("expiry", &self.expiry())
            .field("hardware", &self.hardware())
            .field("client_id", &self.client_id())
            .field("relay_information", &self.relay_information())
            .finish()
    }
}
