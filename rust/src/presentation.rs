//! Names in presentation form (RFC 1035, section 5.1): labels with dots between them.

use core::error::Error;
use core::fmt::{self, Write};
use core::str::FromStr;

use crate::limits::{LABEL_MAX, NAME_MAX};
use crate::Name;

/// Why a text is no name in presentation form.
///
/// A text is labels with dots between them, and a final dot or none. The printable characters of
/// ASCII, the space not among them, stand for themselves, but for the dot and the backslash. A
/// backslash and three decimal digits, 000 to 255, stand for the octet of that number; a backslash
/// and any other printable character, or the space, for that character.
#[non_exhaustive]
#[derive(Clone, Copy, PartialEq, Eq, Hash, Debug)]
pub enum ParseNameError {
    /// A label has no octets, or there is no label at all.
    EmptyLabel,
    /// A label has over 63 octets.
    LabelTooLong,
    /// The name has over 255 octets, the lengths of its labels and the closing 0 among them.
    NameTooLong,
    /// A backslash is followed by something that it can't be.
    Escape,
    /// A character has to be written as a backslash and three digits.
    Character,
}

impl fmt::Display for ParseNameError {
    fn fmt(&self, to: &mut fmt::Formatter) -> fmt::Result {
        to.write_str(match self {
            ParseNameError::EmptyLabel => "a label is empty",
            ParseNameError::LabelTooLong => "a label has over 63 octets",
            ParseNameError::NameTooLong => "the name has over 255 octets",
            ParseNameError::Escape => "a backslash is followed by what it can't be",
            ParseNameError::Character => "a character needs a backslash and three digits",
        })
    }
}

impl Error for ParseNameError {}

impl FromStr for Name {
    type Err = ParseNameError;

    fn from_str(text: &str) -> Result<Name, ParseNameError> {
        let mut building = Building::new();
        let mut rest = text.as_bytes();
        while let Some((sign, behind)) = first_sign(rest)? {
            building.take(sign)?;
            rest = behind;
        }
        building.finish()
    }
}

/// What stands in a text.
enum Sign {
    /// The end of a label.
    Dot,
    /// An octet of a label.
    Octet(u8),
}

/// The first sign of a text, and what is behind it; none where the text is at its end.
fn first_sign(text: &[u8]) -> Result<Option<(Sign, &[u8])>, ParseNameError> {
    match text {
        [] => Ok(None),
        [b'.', behind @ ..] => Ok(Some((Sign::Dot, behind))),
        [b'\\', behind @ ..] => escaped(behind).map(Some),
        [octet @ b'!'..=b'~', behind @ ..] => Ok(Some((Sign::Octet(*octet), behind))),
        _ => Err(ParseNameError::Character),
    }
}

/// The octet that stands behind a backslash, and what is behind it.
fn escaped(text: &[u8]) -> Result<(Sign, &[u8]), ParseNameError> {
    let (octet, behind) = match text {
        [b'0'..=b'9', ..] => decimal(text)?,
        [octet @ b' '..=b'~', behind @ ..] => (*octet, behind),
        _ => return Err(ParseNameError::Escape),
    };
    Ok((Sign::Octet(octet), behind))
}

/// The octet that three digits stand for, and what is behind them.
fn decimal(text: &[u8]) -> Result<(u8, &[u8]), ParseNameError> {
    let Some((digits, behind)) = text.split_first_chunk::<3>() else {
        return Err(ParseNameError::Escape);
    };
    if !digits.iter().all(u8::is_ascii_digit) {
        return Err(ParseNameError::Escape);
    }
    let value = |digit: u8| u32::from(digit - b'0');
    let [a, b, c] = digits.map(value);
    let octet = u8::try_from(a * 100 + b * 10 + c).map_err(|_| ParseNameError::Escape)?;
    Ok((octet, behind))
}

/// A name as far as its text has been read.
struct Building {
    octets: [u8; NAME_MAX],
    /// The place of the length of the label that is being read.
    start: usize,
    /// The place of its next octet.
    at: usize,
}

impl Building {
    fn new() -> Building {
        Building {
            octets: [0; NAME_MAX],
            start: 0,
            at: 1,
        }
    }

    fn take(&mut self, sign: Sign) -> Result<(), ParseNameError> {
        match sign {
            Sign::Dot => self.end_label(),
            Sign::Octet(octet) => self.push(octet),
        }
    }

    /// The octets of the label that is being read.
    fn label_length(&self) -> usize {
        self.at - self.start - 1
    }

    fn push(&mut self, octet: u8) -> Result<(), ParseNameError> {
        if self.label_length() == LABEL_MAX {
            return Err(ParseNameError::LabelTooLong);
        }
        // The closing 0 needs a place behind this octet.
        if self.at + 1 >= NAME_MAX {
            return Err(ParseNameError::NameTooLong);
        }
        self.octets[self.at] = octet;
        self.at += 1;
        Ok(())
    }

    fn end_label(&mut self) -> Result<(), ParseNameError> {
        let length = self.label_length();
        if length == 0 {
            return Err(ParseNameError::EmptyLabel);
        }
        self.octets[self.start] = length as u8;
        self.start = self.at;
        self.at += 1;
        Ok(())
    }

    /// The name, where the text has ended. Behind a final dot no label is open.
    fn finish(mut self) -> Result<Name, ParseNameError> {
        if self.label_length() != 0 || self.start == 0 {
            self.end_label()?;
        }
        self.octets[self.start] = 0;
        Ok(Name::from_full(&self.octets[..=self.start]))
    }
}

/// The name in presentation form with its final dot, so that it is read back as it is. The
/// characters that mean something in a zone file have a backslash before them.
impl fmt::Display for Name {
    fn fmt(&self, to: &mut fmt::Formatter) -> fmt::Result {
        self.labels().try_for_each(|label| {
            label.iter().try_for_each(|&octet| write_octet(to, octet))?;
            to.write_char('.')
        })
    }
}

fn write_octet(to: &mut fmt::Formatter, octet: u8) -> fmt::Result {
    match octet {
        b'.' | b'\\' | b'"' | b'(' | b')' | b';' | b'@' | b'$' => {
            write!(to, "\\{}", char::from(octet))
        }
        b'!'..=b'~' => to.write_char(char::from(octet)),
        _ => write!(to, "\\{octet:03}"),
    }
}
