//! Full domain names.

use core::fmt;
use core::hash::{Hash, Hasher};
use core::iter;

use crate::{raw, Refusal};

/// A full domain name: labels of 1 to 63 octets, at most 255 octets with the lengths before them
/// and the closing 0. The root, which has no label, is not among them.
///
/// It is read from a text in presentation form, with or without the final dot, and printed with it;
/// [`ParseNameError`](crate::ParseNameError) says what a text must be.
///
/// ```
/// use jespurla::Name;
///
/// let name: Name = "pipe7.stage".parse()?;
/// assert_eq!(name.as_wire(), b"\x05pipe7\x05stage\x00");
/// assert_eq!(name.to_string(), "pipe7.stage.");
/// assert_eq!(Name::from_wire(b"\x02a.\x01\xe4\x00").unwrap().to_string(), r"a\..\228.");
/// # Ok::<(), jespurla::ParseNameError>(())
/// ```
///
/// # Equality
///
/// Names are equal, and have one hash, where they are the same with the letters A to Z of ASCII
/// folded (RFC 4343): `Oboe` and `oboe` are one name. Every other octet counts as itself, also those
/// above 127. A name keeps the octets that it was made of, and [`as_wire`](Name::as_wire),
/// [`labels`](Name::labels) and `Display` give them: two spellings are told apart by `as_wire`.
///
/// ```
/// use jespurla::Name;
///
/// let [typed, asked] = ["Oboe.stage", "oboe.stage"].map(|text| text.parse::<Name>());
/// let (typed, asked) = (typed?, asked?);
/// assert_eq!(typed, asked);
/// assert_ne!(typed.as_wire(), asked.as_wire());
/// assert_eq!(typed.to_string(), "Oboe.stage.");
/// # Ok::<(), jespurla::ParseNameError>(())
/// ```
#[derive(Clone)]
pub struct Name(raw::Name);

impl Name {
    /// The name of these octets, as they stand in a message: each label behind its length, and a 0.
    ///
    /// # Errors
    ///
    /// [`Refusal::Name`] where they are not a full name.
    pub fn from_wire(octets: &[u8]) -> Result<Name, Refusal> {
        let name = raw::Name::new(octets).ok_or(Refusal::Name)?;
        let (nobody, nowhere) = (
            raw::Dhcid { octets: [0; 35] },
            raw::Address { octets: [0; 16] },
        );
        let told = raw::new_remove(&name, &nobody, raw::FAMILY_4, &nowhere);
        Refusal::check(told.refusal).map(|()| Name(name))
    }

    /// Its octets, as they stand in a message.
    pub fn as_wire(&self) -> &[u8] {
        self.0.as_slice()
    }

    /// Its labels from the left, without their lengths.
    pub fn labels(&self) -> impl Iterator<Item = &[u8]> + '_ {
        let mut rest = self.as_wire();
        iter::from_fn(move || {
            let (&length, behind) = rest.split_first()?;
            let (label, behind) = behind.split_at_checked(length.into())?;
            rest = behind;
            (length != 0).then_some(label)
        })
    }

    pub(crate) fn as_raw(&self) -> &raw::Name {
        &self.0
    }

    /// The name of these octets, which are known to be a full one.
    pub(crate) fn from_full(octets: &[u8]) -> Name {
        Name(raw::Name::new(octets).expect("a full name has at most 255 octets"))
    }
}

/// Equality with A to Z folded; see [the type](Name#equality). The length of a label is below every
/// letter, so that folding all octets folds the labels alone.
impl PartialEq for Name {
    fn eq(&self, other: &Name) -> bool {
        self.as_wire().eq_ignore_ascii_case(other.as_wire())
    }
}

impl Eq for Name {}

impl Hash for Name {
    fn hash<H: Hasher>(&self, state: &mut H) {
        let mut folded = self.0;
        folded.octets.make_ascii_lowercase();
        folded.as_slice().hash(state);
    }
}

impl fmt::Debug for Name {
    fn fmt(&self, to: &mut fmt::Formatter) -> fmt::Result {
        write!(to, "Name({self})")
    }
}
