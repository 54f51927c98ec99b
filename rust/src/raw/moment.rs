//! Moments on the clock, and spans of seconds, as the structs and calls have them.

/// A moment on the clock, in seconds: 0 to [`Moment::LATEST`]. Where it is an expiry it may also be
/// [`Moment::NEVER`]. Any other number breaks the form of the record that holds it.
#[repr(transparent)]
#[derive(Clone, Copy, PartialEq, Eq, PartialOrd, Ord, Debug, Default)]
pub struct Moment(pub u64);

impl Moment {
    /// The last moment.
    pub const LATEST: Moment = Moment(0xffff_ffff_ffff);
    /// The expiry of what doesn't expire. It comes after every moment.
    pub const NEVER: Moment = Moment(u64::MAX);
}

/// A span of seconds: how long, where a moment says when.
#[repr(transparent)]
#[derive(Clone, Copy, PartialEq, Eq, PartialOrd, Ord, Debug, Default)]
pub struct Span(pub u32);
