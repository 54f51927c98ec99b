//! Refusals.

use core::error::Error;
use core::fmt;

use crate::numbers::{answered, UnlistedNumber};

/// Makes the enum from the lines of include/jespurla_refusals.def, which build.rs hands on.
macro_rules! refusals {
    ($($number:literal $variant:ident $text:literal,)*) => {
        /// Why a call refused its input. Beside a refusal every buffer, list, zone and job is as it
        /// was before the call.
        ///
        /// ```
        /// use jespurla::Refusal;
        ///
        /// let refusal = Refusal::NameTooLong;
        /// assert_eq!(refusal.number(), 13);
        /// assert_eq!(refusal.to_string(), "refused 13: the completed name has over 255 octets");
        /// assert_eq!(Refusal::try_from(13), Ok(refusal));
        /// ```
        #[non_exhaustive]
        #[derive(Clone, Copy, PartialEq, Eq, Hash, Debug)]
        pub enum Refusal {
            $(
                #[doc = concat!("Refusal ", $number, ": ", $text, ".")]
                $variant = $number,
            )*
        }

        impl Refusal {
            /// Every refusal, by rising number.
            pub const ALL: &'static [Refusal] = &[$(Refusal::$variant,)*];

            /// What it means, in words.
            pub const fn text(self) -> &'static str {
                match self {
                    $(Refusal::$variant => $text,)*
                }
            }
        }

        impl TryFrom<u32> for Refusal {
            type Error = UnlistedNumber;

            fn try_from(number: u32) -> Result<Refusal, UnlistedNumber> {
                match number {
                    $($number => Ok(Refusal::$variant),)*
                    _ => Err(UnlistedNumber(number)),
                }
            }
        }
    };
}

include!(concat!(env!("OUT_DIR"), "/refusals.rs"));

impl Refusal {
    /// Its number, the one that C has.
    pub const fn number(self) -> u32 {
        self as u32
    }

    /// `Ok` where the number is 0, which is no refusal.
    pub(crate) fn check(number: u32) -> Result<(), Refusal> {
        match number {
            0 => Ok(()),
            _ => Err(answered(number)),
        }
    }
}

impl From<Refusal> for u32 {
    fn from(refusal: Refusal) -> u32 {
        refusal.number()
    }
}

impl fmt::Display for Refusal {
    fn fmt(&self, to: &mut fmt::Formatter) -> fmt::Result {
        write!(to, "refused {}: {}", self.number(), self.text())
    }
}

impl Error for Refusal {}
