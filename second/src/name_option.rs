//! The name option of DHCPv6 (document 01, "Name option").
//!
//! The option's value is a flags octet and a name. The server answers with
//! its own flags octet and a full name.

/// Longest full name, its closing 0 included.
pub const FULL_MAX: usize = 255;
/// Longest partial name: with a closing 0 it would still fit.
pub const PARTIAL_MAX: usize = 254;
/// Longest label; greater length octets are malformed.
pub const LABEL_MAX: u8 = 63;
/// Least room for an answer: a flags octet and the longest full name.
pub const REPLY_MIN: usize = 1 + FULL_MAX;

/// The server is to do the forward update.
const S: u8 = 1;
/// The server overrode the client's wish for S.
const O: u8 = 2;
/// The server is to do no update at all.
const N: u8 = 4;

/// What a name field is, read from its first octet to its last.
#[derive(Clone, Copy, PartialEq, Eq, Debug)]
pub enum Shape {
    /// No octets at all.
    Empty,
    /// Labels and a closing 0 that is the field's last octet.
    Full,
    /// Labels up to the end of the field.
    Partial,
    /// Anything else.
    Malformed,
}

/// Reads a name field label by label.
pub fn shape(field: &[u8]) -> Shape {
    if field.is_empty() {
        return Shape::Empty;
    }
    // Too long in either shape, so the walk is bounded.
    if field.len() > FULL_MAX {
        return Shape::Malformed;
    }
    let mut at = 0;
    while let Some(&length) = field.get(at) {
        if length == 0 {
            // The root alone is no name here, and 0 closes the field.
            let closes = at > 0 && at + 1 == field.len();
            return if closes {
                Shape::Full
            } else {
                Shape::Malformed
            };
        }
        if length > LABEL_MAX {
            return Shape::Malformed;
        }
        at += 1 + usize::from(length);
    }
    // Past the end means that the last label was cut.
    if at == field.len() && at <= PARTIAL_MAX {
        Shape::Partial
    } else {
        Shape::Malformed
    }
}

/// The flags octet the server answers with, or refusal 10.
///
/// A client may not set O, nor S together with N. S not honoured is answered
/// by O; N not honoured is answered by no flag. Bits above N don't matter.
#[inline]
pub fn flag_decision(flags: u8, honour_s: bool, honour_n: bool) -> Result<u8, u8> {
    match flags & (S | O | N) {
        0 => Ok(0),
        S => Ok(if honour_s { S } else { O }),
        N => Ok(if honour_n { N } else { 0 }),
        _ => Err(10),
    }
}

/// Writes the answer to an option value at the front of `reply` and returns
/// the number of octets written.
///
/// A full name comes back as it is; a partial one is completed by `suffix`.
/// The suffix is checked even where the name is full. Refusals in the order
/// of document 01, "Refusal numbers": 14, 10, 11 (suffix), 12, 11 (name), 13.
pub fn answer(
    value: &[u8],
    suffix: &[u8],
    honour_s: bool,
    honour_n: bool,
    reply: &mut [u8],
) -> Result<usize, u8> {
    if reply.len() < REPLY_MIN {
        return Err(14);
    }
    let (&flags, name) = value.split_first().ok_or(10)?;
    let flags = flag_decision(flags, honour_s, honour_n)?;
    if shape(suffix) != Shape::Full {
        return Err(11);
    }
    let rest = match shape(name) {
        Shape::Empty => return Err(12),
        Shape::Malformed => return Err(11),
        Shape::Full => &[],
        Shape::Partial => suffix,
    };
    let named = 1 + name.len();
    let end = named + rest.len();
    if end > REPLY_MIN {
        return Err(13);
    }
    reply[0] = flags;
    reply[1..named].copy_from_slice(name);
    reply[named..end].copy_from_slice(rest);
    Ok(end)
}

#[cfg(test)]
mod tests {
    use super::*;

    const STAGE: &[u8] = b"\x05stage\x00";

    /// A partial name of exactly `octets` octets (2 or more).
    fn partial(octets: usize) -> Vec<u8> {
        let mut name = Vec::new();
        while name.len() < octets {
            let left = octets - name.len();
            // One octet can't be a label, so none may be left over.
            let label = match left {
                65 => 62,
                _ => (left - 1).min(63),
            };
            name.push(label as u8);
            name.resize(name.len() + label, b'a');
        }
        name
    }

    fn full(octets: usize) -> Vec<u8> {
        let mut name = partial(octets - 1);
        name.push(0);
        name
    }

    fn value(flags: u8, name: &[u8]) -> Vec<u8> {
        [&[flags], name].concat()
    }

    /// Document 01's four rows of eight; 255 stands for refusal 10.
    const ROWS: [[u8; 8]; 4] = [
        [0, 2, 255, 255, 0, 255, 255, 255],
        [0, 1, 255, 255, 0, 255, 255, 255],
        [0, 2, 255, 255, 4, 255, 255, 255],
        [0, 1, 255, 255, 4, 255, 255, 255],
    ];

    #[test]
    fn flag_decision_is_the_table() {
        for (row, answers) in ROWS.iter().enumerate() {
            for flags in 0..=255u8 {
                let expected = match answers[usize::from(flags % 8)] {
                    255 => Err(10),
                    sent => Ok(sent),
                };
                assert_eq!(flag_decision(flags, row & 1 != 0, row & 2 != 0), expected);
            }
        }
    }

    #[test]
    fn p1_to_p4_flags() {
        assert_eq!(flag_decision(249, true, false), Ok(1));
        assert_eq!(flag_decision(249, true, true), Ok(1));
        assert_eq!(flag_decision(1, false, false), Ok(2));
        assert_eq!(flag_decision(4, false, false), Ok(0));
        for row in 0..4 {
            assert_eq!(flag_decision(5, row & 1 != 0, row & 2 != 0), Err(10));
        }
    }

    #[test]
    fn p5_partial_name_is_completed() {
        let mut reply = [0xee; 300];
        let name = b"\x05pipe7";
        assert_eq!(
            answer(&value(0, name), STAGE, false, false, &mut reply),
            Ok(14)
        );
        assert_eq!(&reply[..14], b"\x00\x05pipe7\x05stage\x00");
        assert!(reply[14..].iter().all(|&octet| octet == 0xee));
    }

    #[test]
    fn p6_label_of_63_passes_and_64_is_malformed() {
        let mut label = vec![b'x'; 65];
        label[0] = 63;
        assert_eq!(shape(&label[..64]), Shape::Partial);
        label[0] = 64;
        assert_eq!(shape(&label), Shape::Malformed);
        let mut reply = [0; 256];
        assert_eq!(
            answer(&value(0, &label), STAGE, true, true, &mut reply),
            Err(11)
        );
    }

    #[test]
    fn shapes_at_the_limits() {
        assert_eq!(shape(&[]), Shape::Empty);
        assert_eq!(shape(&[0]), Shape::Malformed);
        assert_eq!(shape(&[1]), Shape::Malformed);
        assert_eq!(shape(&[1, 7]), Shape::Partial);
        assert_eq!(shape(&[1, 7, 0]), Shape::Full);
        assert_eq!(shape(&[1, 7, 0, 0]), Shape::Malformed);
        assert_eq!(shape(&[2, 7]), Shape::Malformed);
        assert_eq!(shape(&partial(254)), Shape::Partial);
        assert_eq!(shape(&partial(255)), Shape::Malformed);
        assert_eq!(shape(&full(255)), Shape::Full);
        assert_eq!(shape(&full(256)), Shape::Malformed);
        for length in 64..=255u8 {
            let mut name = vec![b'x'; 1 + usize::from(length)];
            name[0] = length;
            assert_eq!(shape(&name), Shape::Malformed);
        }
    }

    #[test]
    fn full_name_comes_back_unchanged() {
        let mut reply = [9; 256];
        let name = full(255);
        assert_eq!(
            answer(&value(252, &name), STAGE, true, true, &mut reply),
            Ok(256)
        );
        assert_eq!(reply[0], 4);
        assert_eq!(&reply[1..], &name[..]);
    }

    #[test]
    fn completed_name_stops_at_255() {
        let mut reply = [9; 256];
        let fits = partial(248);
        assert_eq!(
            answer(&value(1, &fits), STAGE, true, true, &mut reply),
            Ok(256)
        );
        let over = partial(249);
        let before = reply;
        assert_eq!(
            answer(&value(1, &over), STAGE, true, true, &mut reply),
            Err(13)
        );
        assert_eq!(reply, before);
    }

    #[test]
    fn refusals_come_in_order() {
        let mut short = [7; 255];
        let mut reply = [7; 256];
        let long = value(0, &partial(254));
        assert_eq!(answer(&[], &[], true, true, &mut short), Err(14));
        assert_eq!(answer(&[], &[], true, true, &mut reply), Err(10));
        assert_eq!(answer(&[2], &[], true, true, &mut reply), Err(10));
        assert_eq!(answer(&[0], &[], true, true, &mut reply), Err(11));
        assert_eq!(answer(&[0], b"\x01a", true, true, &mut reply), Err(11));
        assert_eq!(
            answer(&value(0, &full(9)), &[0], true, true, &mut reply),
            Err(11)
        );
        assert_eq!(answer(&[0], STAGE, true, true, &mut reply), Err(12));
        assert_eq!(answer(&[0, 0], STAGE, true, true, &mut reply), Err(11));
        assert_eq!(answer(&long, &full(3), true, true, &mut reply), Err(13));
        assert_eq!((short, reply), ([7; 255], [7; 256]));
    }
}
