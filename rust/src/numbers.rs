//! Enums for the numbers that the library takes and answers.

use core::error::Error;
use core::fmt;

/// A number that stands for nothing in the list at hand: the error of the conversions from numbers.
#[derive(Clone, Copy, PartialEq, Eq, Hash, Debug)]
pub struct UnlistedNumber(pub(crate) u32);

impl UnlistedNumber {
    /// The number.
    pub fn number(self) -> u32 {
        self.0
    }
}

impl fmt::Display for UnlistedNumber {
    fn fmt(&self, to: &mut fmt::Formatter) -> fmt::Result {
        write!(to, "the number {} is not listed", self.0)
    }
}

impl Error for UnlistedNumber {}

/// What a number that the library answered stands for. Its promise says which numbers it can
/// answer, so every one is listed, unless the library is of another version than this crate.
pub(crate) fn answered<T: TryFrom<N, Error = UnlistedNumber>, N>(number: N) -> T {
    T::try_from(number).unwrap_or_else(|unlisted| panic!("the library's answer: {unlisted}"))
}

/// An enum with conversions from and to the numbers that C has.
macro_rules! numbers {
    (
        $(#[$about:meta])*
        $name:ident: $number:ty { $($(#[$meaning:meta])* $variant:ident = $value:path,)* }
    ) => {
        $(#[$about])*
        #[derive(Clone, Copy, PartialEq, Eq, Hash, Debug)]
        pub enum $name {
            $($(#[$meaning])* $variant,)*
        }

        impl From<$name> for $number {
            fn from(listed: $name) -> $number {
                match listed {
                    $($name::$variant => $value,)*
                }
            }
        }

        impl TryFrom<$number> for $name {
            type Error = $crate::UnlistedNumber;

            fn try_from(number: $number) -> Result<$name, $crate::UnlistedNumber> {
                match number {
                    $($value => Ok($name::$variant),)*
                    _ => Err($crate::UnlistedNumber(number.into())),
                }
            }
        }
    };
}

pub(crate) use numbers;
