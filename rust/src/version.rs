//! The version of the library.

use core::fmt;

use crate::raw;

/// A version of the library. Versions are ordered as one expects.
#[derive(Clone, Copy, PartialEq, Eq, PartialOrd, Ord, Hash, Debug)]
pub struct Version {
    /// The first number.
    pub major: u32,
    /// The second. Until 1.0.0 it rises where a program that uses the library may have to change.
    pub minor: u32,
    /// The third.
    pub patch: u32,
}

/// The version of the library that is linked.
///
/// ```
/// assert_eq!(jespurla::library_version().to_string(), env!("CARGO_PKG_VERSION"));
/// ```
pub fn library_version() -> Version {
    let number = raw::version();
    Version {
        major: number >> 16,
        minor: number >> 8 & 0xff,
        patch: number & 0xff,
    }
}

impl fmt::Display for Version {
    fn fmt(&self, to: &mut fmt::Formatter) -> fmt::Result {
        write!(to, "{}.{}.{}", self.major, self.minor, self.patch)
    }
}
