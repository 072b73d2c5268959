//! Elements of five bits, which the characters of a data part stand for.

use core::borrow::Borrow;
use core::fmt;
use core::num::TryFromIntError;
use core::ops::{Add, AddAssign, Sub, SubAssign};
#[cfg(feature = "std")]
use std::error::Error;

/// The characters of the elements from 0 to 31, in lower case (BIP-173).
///
/// ```
/// use bech32_proved::{Fe32, ALPHABET};
///
/// assert_eq!(ALPHABET.find('l'), Some(31));
/// assert!(ALPHABET.chars().eq((0..32).map(|it| Fe32::try_from(it as u8).unwrap().to_char())));
/// ```
pub const ALPHABET: &str = "qpzry9x8gf2tvdw0s3jn54khce6mua7l";

const CHARACTERS: &[u8] = ALPHABET.as_bytes();

// The value of each character, in either case, and 32 of others.
const VALUES: [u8; 128] = {
    let mut values = [32; 128];
    let mut value = 0;
    while value < CHARACTERS.len() {
        let character = CHARACTERS[value];
        values[character as usize] = value as u8;
        values[character.to_ascii_uppercase() as usize] = value as u8;
        value += 1;
    }
    values
};

/// An element, from 0 to 31: the value of a character of a data part, or a witness version.
///
/// Elements have a sum, which is their difference too: the exclusive or of their five bits. It is what
/// a correction adds to the element of a character.
///
/// ```
/// use bech32_proved::Fe32;
///
/// assert_eq!(Fe32::L + Fe32::X, Fe32::E);
/// assert_eq!(Fe32::E - Fe32::X, Fe32::L);
/// ```
#[derive(Clone, Copy, Debug, Default, PartialEq, Eq, PartialOrd, Ord, Hash)]
pub struct Fe32(u8);

macro_rules! elements {
    ($($name:ident $value:literal $character:literal;)*) => {
        impl Fe32 {
            $(
                #[doc = concat!("The element ", $value, ", whose character is ", $character, ".")]
                pub const $name: Fe32 = Fe32($value);
            )*
        }
    };
}

elements! {
    Q 0 "q"; P 1 "p"; Z 2 "z"; R 3 "r"; Y 4 "y"; _9 5 "9"; X 6 "x"; _8 7 "8";
    G 8 "g"; F 9 "f"; _2 10 "2"; T 11 "t"; V 12 "v"; D 13 "d"; W 14 "w"; _0 15 "0";
    S 16 "s"; _3 17 "3"; J 18 "j"; N 19 "n"; _5 20 "5"; _4 21 "4"; K 22 "k"; H 23 "h";
    C 24 "c"; E 25 "e"; _6 26 "6"; M 27 "m"; U 28 "u"; A 29 "a"; _7 30 "7"; L 31 "l";
}

impl Fe32 {
    /// The element of a character, in either case.
    ///
    /// ```
    /// use bech32_proved::primitives::gf32::FromCharError;
    /// use bech32_proved::Fe32;
    ///
    /// assert_eq!(Fe32::from_char('L'), Ok(Fe32::L));
    /// assert_eq!(Fe32::from_char('b'), Err(FromCharError::Invalid('b')));
    /// ```
    ///
    /// # Errors
    ///
    /// The character, where it is not one of the 32.
    pub fn from_char(c: char) -> Result<Fe32, FromCharError> {
        if !c.is_ascii() {
            return Err(FromCharError::NotAscii(c));
        }
        match VALUES[c as usize] {
            value @ 0..=31 => Ok(Fe32(value)),
            _ => Err(FromCharError::Invalid(c)),
        }
    }

    /// The element of a character that is known to be one of the 32, in either case.
    ///
    /// # Panics
    ///
    /// Where it is not.
    pub fn from_char_unchecked(c: u8) -> Fe32 {
        Fe32::from_char(char::from(c)).expect("a character of the alphabet")
    }

    /// Its value, from 0 to 31.
    pub fn to_u8(self) -> u8 {
        self.0
    }

    /// Its character, in lower case.
    ///
    /// ```
    /// use bech32_proved::Fe32;
    ///
    /// assert_eq!(Fe32::_9.to_char(), '9');
    /// assert_eq!(Fe32::L.to_u8(), 31);
    /// ```
    pub fn to_char(self) -> char {
        char::from(CHARACTERS[usize::from(self.0)])
    }

    // The sum, and the difference.
    fn summed(&self, other: &Fe32) -> Fe32 {
        Fe32(self.0 ^ other.0)
    }

    // The element of the five low bits of a number.
    pub(crate) fn of_low_bits(number: u32) -> Fe32 {
        Fe32((number & 31) as u8)
    }
}

macro_rules! from_numbers {
    ($($number:ident)*) => {
        $(
            impl TryFrom<$number> for Fe32 {
                type Error = TryFromError;

                /// The element of a value.
                ///
                /// # Errors
                ///
                /// Where it is not from 0 to 31.
                fn try_from(value: $number) -> Result<Fe32, TryFromError> {
                    match u8::try_from(value)? {
                        byte @ 0..=31 => Ok(Fe32(byte)),
                        byte => Err(TryFromError::InvalidByte(byte)),
                    }
                }
            }
        )*
    };
}

from_numbers! { u8 u16 u32 u64 u128 i8 i16 i32 i64 i128 }

macro_rules! sums {
    ($($operator:ident::$method:ident, $assigned:ident::$method_assigned:ident;)*) => {
        $(
            sums! { $operator::$method, Fe32, Fe32 }
            sums! { $operator::$method, Fe32, &Fe32 }
            sums! { $operator::$method, &Fe32, Fe32 }
            sums! { $operator::$method, &Fe32, &Fe32 }

            impl $assigned for Fe32 {
                fn $method_assigned(&mut self, other: Fe32) {
                    *self = self.summed(&other);
                }
            }

            impl $assigned<&Fe32> for Fe32 {
                fn $method_assigned(&mut self, other: &Fe32) {
                    *self = self.summed(other);
                }
            }
        )*
    };
    ($operator:ident::$method:ident, $one:ty, $other:ty) => {
        impl $operator<$other> for $one {
            type Output = Fe32;

            fn $method(self, other: $other) -> Fe32 {
                let (one, other): (&Fe32, &Fe32) = (self.borrow(), other.borrow());
                one.summed(other)
            }
        }
    };
}

sums! {
    Add::add, AddAssign::add_assign;
    Sub::sub, SubAssign::sub_assign;
}

impl From<Fe32> for u8 {
    fn from(element: Fe32) -> u8 {
        element.0
    }
}

impl AsRef<u8> for Fe32 {
    fn as_ref(&self) -> &u8 {
        &self.0
    }
}

impl fmt::Display for Fe32 {
    fn fmt(&self, f: &mut fmt::Formatter<'_>) -> fmt::Result {
        fmt::Display::fmt(&self.to_char(), f)
    }
}

/// Why a character stands for no element.
#[derive(Clone, Copy, Debug, PartialEq, Eq)]
#[non_exhaustive]
pub enum FromCharError {
    /// It is not ASCII.
    NotAscii(char),
    /// It is ASCII, and not one of the 32.
    Invalid(char),
}

impl fmt::Display for FromCharError {
    fn fmt(&self, f: &mut fmt::Formatter<'_>) -> fmt::Result {
        match self {
            FromCharError::NotAscii(c) => write!(f, "non-ascii char in field element: {c}"),
            FromCharError::Invalid(c) => write!(f, "invalid char in field element: {c}"),
        }
    }
}

#[cfg(feature = "std")]
impl Error for FromCharError {}

/// Why a number is no element.
#[derive(Clone, Copy, Debug, PartialEq, Eq)]
#[non_exhaustive]
pub enum TryFromError {
    /// It is not from 0 to 255.
    NotAByte(TryFromIntError),
    /// It is a byte above 31.
    InvalidByte(u8),
}

impl fmt::Display for TryFromError {
    fn fmt(&self, f: &mut fmt::Formatter<'_>) -> fmt::Result {
        match self {
            TryFromError::NotAByte(_) => f.write_str("invalid field element"),
            TryFromError::InvalidByte(byte) => {
                write!(f, "invalid byte in field element: {byte:#04x}")
            }
        }
    }
}

#[cfg(feature = "std")]
impl Error for TryFromError {
    fn source(&self) -> Option<&(dyn Error + 'static)> {
        match self {
            TryFromError::NotAByte(e) => Some(e),
            TryFromError::InvalidByte(_) => None,
        }
    }
}

impl From<TryFromIntError> for TryFromError {
    fn from(e: TryFromIntError) -> TryFromError {
        TryFromError::NotAByte(e)
    }
}

impl From<core::convert::Infallible> for TryFromError {
    fn from(never: core::convert::Infallible) -> TryFromError {
        match never {}
    }
}
