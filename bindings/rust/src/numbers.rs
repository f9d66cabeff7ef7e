//! Why a call refuses: each number with its name and its line of words, from the list in `include/abwakiris.h`.

use std::fmt;

/// One table gives each refusal its number, its name and its line of words.
macro_rules! numbers {
    ($($number:literal $name:ident $words:literal)*) => {
        /// Why a call refuses.
        ///
        /// Later versions of the library give more numbers, so a `match` needs an arm for others.
        #[derive(Clone, Copy, Debug, PartialEq, Eq, Hash)]
        #[non_exhaustive]
        pub enum Number {
            $(#[doc = concat!(stringify!($number), ": ", $words)] $name,)*
            /// A number that this crate has no words for, from a library that is newer than the crate.
            Unknown(u8),
        }

        impl Number {
            /// Every refusal that has words, in order.
            pub const ALL: &'static [Number] = &[$(Number::$name),*];

            /// The refusal of this number; [`Number::Unknown`] where it has no words.
            #[must_use]
            pub const fn of(number: u8) -> Number {
                match number {
                    $($number => Number::$name,)*
                    _ => Number::Unknown(number),
                }
            }

            /// The number itself.
            #[must_use]
            pub const fn number(self) -> u8 {
                match self {
                    $(Number::$name => $number,)*
                    Number::Unknown(number) => number,
                }
            }

            /// When it is given, in one line.
            #[must_use]
            pub const fn words(self) -> &'static str {
                match self {
                    $(Number::$name => $words,)*
                    Number::Unknown(_) => "refused, by a number that has no words here",
                }
            }
        }
    };
}

// The table, `numbers! { 1 FileTooShort ".." .. }`, which build.rs writes.
include!(concat!(env!("OUT_DIR"), "/numbers.rs"));

impl fmt::Display for Number {
    fn fmt(&self, f: &mut fmt::Formatter<'_>) -> fmt::Result {
        write!(f, "{}: {}", self.number(), self.words())
    }
}

/// The refusal of a number that has words.
///
/// ```
/// use abwakiris::Number;
///
/// assert_eq!(Number::try_from(21u8), Ok(Number::NoPath));
/// assert_eq!(Number::try_from(99u8).unwrap_err().number(), 99);
/// assert_eq!(Number::of(99), Number::Unknown(99));
/// ```
impl TryFrom<u8> for Number {
    type Error = UnknownNumber;

    fn try_from(number: u8) -> Result<Number, UnknownNumber> {
        match Number::of(number) {
            Number::Unknown(number) => Err(UnknownNumber(number)),
            known => Ok(known),
        }
    }
}

/// A number that no refusal with words has. 0 is one: it says that nothing is refused.
#[derive(Clone, Copy, Debug, PartialEq, Eq, Hash)]
pub struct UnknownNumber(u8);

impl UnknownNumber {
    /// The number itself.
    #[must_use]
    pub const fn number(self) -> u8 {
        self.0
    }
}

impl fmt::Display for UnknownNumber {
    fn fmt(&self, f: &mut fmt::Formatter<'_>) -> fmt::Result {
        write!(f, "{} is the number of no refusal that has words here", self.0)
    }
}

impl std::error::Error for UnknownNumber {}
