//! Moments on the clock, and spans of seconds between them.

use core::fmt;

use crate::{raw, Refusal};

/// A moment on the clock, in seconds: 0 to [`Moment::LATEST`]. From when the seconds count is the
/// caller's choice; the server list refuses a clock that goes back, so it wants one that is never
/// set back.
///
/// ```
/// use jespurla::{Moment, Refusal};
///
/// let now = Moment::try_from(1_000)?;
/// assert_eq!(now.seconds(), 1_000);
/// assert_eq!(Moment::try_from(1 << 48), Err(Refusal::Clock));
/// # Ok::<(), Refusal>(())
/// ```
#[derive(Clone, Copy, PartialEq, Eq, PartialOrd, Ord, Hash, Debug, Default)]
pub struct Moment(u64);

impl Moment {
    /// The last moment, 2^48 - 1.
    pub const LATEST: Moment = Moment(raw::Moment::LATEST.0);

    /// The moment of that many seconds, unless it is above [`Moment::LATEST`].
    pub const fn new(seconds: u64) -> Option<Moment> {
        if seconds > Moment::LATEST.0 {
            return None;
        }
        Some(Moment(seconds))
    }

    /// The seconds.
    pub const fn seconds(self) -> u64 {
        self.0
    }

    /// The expiry of what is given for a span at this moment: never where the span is endless, and
    /// the last moment at most. The server list reckons the same way, with the Lifetime of an option
    /// and with that of a router.
    pub fn after(self, span: Span) -> Expiry {
        if span == Span::ENDLESS {
            return Expiry::Never;
        }
        let sum = Moment(self.0.saturating_add(u64::from(span.0)));
        Expiry::At(sum.min(Moment::LATEST))
    }

    pub(crate) fn to_raw(self) -> raw::Moment {
        raw::Moment(self.0)
    }

    /// The moment of a record or list that is known to keep its form.
    pub(crate) fn from_raw(moment: raw::Moment) -> Moment {
        Moment(moment.0)
    }
}

impl TryFrom<u64> for Moment {
    type Error = Refusal;

    fn try_from(seconds: u64) -> Result<Moment, Refusal> {
        Moment::new(seconds).ok_or(Refusal::Clock)
    }
}

impl From<Moment> for u64 {
    fn from(moment: Moment) -> u64 {
        moment.0
    }
}

impl fmt::Display for Moment {
    fn fmt(&self, to: &mut fmt::Formatter) -> fmt::Result {
        self.0.fmt(to)
    }
}

/// When something expires. Never comes after every moment.
#[derive(Clone, Copy, PartialEq, Eq, PartialOrd, Ord, Hash, Debug)]
pub enum Expiry {
    /// At this moment.
    At(Moment),
    /// Not at all.
    Never,
}

impl Expiry {
    pub(crate) fn to_raw(self) -> raw::Moment {
        match self {
            Expiry::At(moment) => moment.to_raw(),
            Expiry::Never => raw::Moment::NEVER,
        }
    }

    /// The expiry of a record or list that is known to keep its form.
    pub(crate) fn from_raw(moment: raw::Moment) -> Expiry {
        match moment {
            raw::Moment::NEVER => Expiry::Never,
            _ => Expiry::At(Moment::from_raw(moment)),
        }
    }
}

impl From<Moment> for Expiry {
    fn from(moment: Moment) -> Expiry {
        Expiry::At(moment)
    }
}

impl fmt::Display for Expiry {
    fn fmt(&self, to: &mut fmt::Formatter) -> fmt::Result {
        match self {
            Expiry::At(moment) => moment.fmt(to),
            Expiry::Never => to.pad("never"),
        }
    }
}

/// A span of seconds, as packets carry it: the lifetimes of a server and of a router, and options 51
/// and 91 of a lease reply. It is no moment, and nothing takes one for the other.
///
/// ```
/// use jespurla::{Expiry, Moment, Refusal, Span};
///
/// let now = Moment::try_from(100)?;
/// assert_eq!(now.after(Span(60)), Expiry::At(Moment::try_from(160)?));
/// assert_eq!(now.after(Span::ENDLESS), Expiry::Never);
///
/// // The Router Lifetime of an advertisement has two octets.
/// let router_lifetime = Span(u16::from_be_bytes([7, 8]).into());
/// assert_eq!(router_lifetime, Span(1_800));
/// # Ok::<(), Refusal>(())
/// ```
#[derive(Clone, Copy, PartialEq, Eq, PartialOrd, Ord, Hash, Debug, Default)]
pub struct Span(pub u32);

impl Span {
    /// The span that has no end.
    pub const ENDLESS: Span = Span(u32::MAX);

    /// The seconds; all ones where the span is endless.
    pub const fn seconds(self) -> u32 {
        self.0
    }

    /// The span in four octets of a packet.
    pub const fn from_octets(octets: [u8; 4]) -> Span {
        Span(u32::from_be_bytes(octets))
    }

    pub(crate) fn to_raw(self) -> raw::Span {
        raw::Span(self.0)
    }
}

impl From<u32> for Span {
    fn from(seconds: u32) -> Span {
        Span(seconds)
    }
}

impl From<Span> for u32 {
    fn from(span: Span) -> u32 {
        span.0
    }
}

impl fmt::Display for Span {
    fn fmt(&self, to: &mut fmt::Formatter) -> fmt::Result {
        self.0.fmt(to)
    }
}
