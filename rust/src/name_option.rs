//! The server's answer to a DHCPv6 name option.

use crate::numbers::answered;
use crate::{raw, FlagDecision, Name, Refusal};

/// The answer to a name option: the value of the option to send.
#[derive(Clone, Copy, PartialEq, Eq, Debug)]
pub struct NameReply<'r> {
    octets: &'r [u8],
}

impl<'r> NameReply<'r> {
    /// The option's value: the flags octet and the name behind it.
    pub fn as_bytes(self) -> &'r [u8] {
        self.octets
    }

    /// The flags.
    pub fn flags(self) -> FlagDecision {
        answered(self.octets[0])
    }

    /// The name, a full one, octet for octet.
    pub fn name(self) -> Name {
        Name::from_full(&self.octets[1..])
    }
}

/// The server's answer to a name option (RFC 4704).
///
/// `value` is the option's value: a flags octet and then a name, full or partial. `suffix`
/// completes a partial one. `honour_s` and `honour_n` are as in
/// [`flag_decision`](crate::flag_decision). The answer goes to the front of `reply`, at least
/// [`NAME_REPLY_MIN`](crate::limits::NAME_REPLY_MIN) octets; the octets past it keep their values.
///
/// The answer has the flags of the decision. A full name is answered octet for octet, a partial one
/// with the suffix behind it.
///
/// # Errors
///
/// In the order in which they are tried: [`Refusal::NameReplyRoom`] `reply` too short;
/// [`Refusal::Flags`] `value` empty, or its flags refused; [`Refusal::NameEmpty`] no name;
/// [`Refusal::Name`] a malformed one; [`Refusal::NameTooLong`] a completed name of over 255 octets.
/// A server that gets one of the last four sends its reply without a name option, or asks its own
/// configuration for a name where there was none.
///
/// # Examples
///
/// ```
/// use jespurla::{name_option_answer, FlagDecision, Name, Refusal};
///
/// let suffix: Name = "stage.".parse().expect("a name");
/// let mut reply = [0; 256];
/// let answer = name_option_answer(b"\x01\x05pipe7", &suffix, true, false, &mut reply)?;
/// assert_eq!(answer.flags(), FlagDecision::S);
/// assert_eq!(answer.name().to_string(), "pipe7.stage.");
/// assert_eq!(answer.as_bytes(), b"\x01\x05pipe7\x05stage\x00");
/// # Ok::<(), Refusal>(())
/// ```
pub fn name_option_answer<'r>(
    value: &[u8],
    suffix: &Name,
    honour_s: bool,
    honour_n: bool,
    reply: &'r mut [u8],
) -> Result<NameReply<'r>, Refusal> {
    let (s, n) = (honour_s.into(), honour_n.into());
    let told = raw::name_option_answer(value, suffix.as_wire(), s, n, reply);
    Refusal::check(told.refusal).map(|()| NameReply {
        octets: &reply[..told.length as usize],
    })
}
