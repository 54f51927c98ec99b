//! The flags of a DHCPv6 name option, and the server's decision about them.

use crate::numbers::{answered, numbers};
use crate::{raw, Refusal, FLAG_N, FLAG_O, FLAG_S};

const NO_FLAG: u8 = 0;

numbers! {
    /// The flags of the server's answer: one of S, O and N, or none.
    FlagDecision: u8 {
        /// No flag.
        NoFlag = NO_FLAG,
        /// S: the server updates the name's address.
        S = FLAG_S,
        /// O: the server overrides the client's wish for S.
        O = FLAG_O,
        /// N: the server updates nothing.
        N = FLAG_N,
    }
}

/// The flag decision (RFC 4704).
///
/// `flags` is the client's flags octet; bits above N are not looked at. `honour_s` and `honour_n`
/// say whether S, or N, may be honoured.
///
/// Where the client sets N and N may be honoured, the answer is N. Where it sets S and S may be
/// honoured, it is S; where it sets S and S may not, it is O. In every other case it has no flag.
///
/// # Errors
///
/// [`Refusal::Flags`] where O is set, or S and N both.
///
/// # Examples
///
/// ```
/// use jespurla::{flag_decision, FlagDecision, Refusal, FLAG_N, FLAG_S};
///
/// assert_eq!(flag_decision(FLAG_S, true, false), Ok(FlagDecision::S));
/// assert_eq!(flag_decision(FLAG_S, false, false), Ok(FlagDecision::O));
/// assert_eq!(flag_decision(FLAG_S | FLAG_N, true, true), Err(Refusal::Flags));
/// ```
pub fn flag_decision(flags: u8, honour_s: bool, honour_n: bool) -> Result<FlagDecision, Refusal> {
    let told = raw::flag_decision(flags, honour_s.into(), honour_n.into());
    // The answer is a flags octet.
    Refusal::check(told.refusal).map(|()| answered(told.flags as u8))
}
