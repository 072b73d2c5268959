//! Where the fault of a text stands.

use crate::checksum::BECH32;
use crate::{raw, Checksum, Refusal};
use core::fmt;
#[cfg(feature = "std")]
use std::error::Error;

/// Why a checksum does not accept a text, and where it is at fault.
#[derive(Clone, Copy, Debug, PartialEq, Eq, Hash)]
pub struct Fault {
    refusal: Refusal,
    place: usize,
    // How many characters stand before the one at fault, and that one.
    character: Option<(usize, char)>,
    // Whether the text has a separator for a character to stand behind.
    has_separator: bool,
}

// What is said of a character that is refused in a text without a separator.
const NO_SEPARATOR_AND_CHARACTER: &str =
    "the text has no separator, 1, and a character that may not stand behind one";

impl Fault {
    /// Why the text is refused.
    pub fn refusal(&self) -> Refusal {
        self.refusal
    }

    /// Where the character at fault begins in the text, in bytes from 0, if [`character`](Self::character)
    /// is some. Else no single character is at fault, and this is a length, to be shown to nobody: that of a
    /// human-readable part that is empty or too long, and of every other text its own.
    pub fn place(&self) -> usize {
        self.place
    }

    /// The character at fault, if one is, with its place in the text: how many characters stand before it.
    /// People count from 1, as this fault's words do.
    pub fn character(&self) -> Option<(usize, char)> {
        self.character
    }
}

impl fmt::Display for Fault {
    fn fmt(&self, f: &mut fmt::Formatter<'_>) -> fmt::Result {
        if self.refusal == Refusal::InvalidCharacter && !self.has_separator {
            f.write_str(NO_SEPARATOR_AND_CHARACTER)?;
        } else {
            write!(f, "{}", self.refusal)?;
        }
        match self.character {
            // What would not show, or may be taken for another, has its code point.
            Some((place, c)) if c.is_ascii_graphic() => write!(f, ": character {}, {c}", place + 1),
            Some((place, c)) => write!(f, ": character {}, U+{:04X}", place + 1, u32::from(c)),
            None => Ok(()),
        }
    }
}

#[cfg(feature = "std")]
impl Error for Fault {}

/// Why a checksum does not accept a text, and where the text is at fault: None if it is accepted.
/// Faults of the characters and of the human-readable part are the same by each checksum.
///
/// ```
/// use bech32_proved::{fault, Bech32, Refusal};
///
/// let fault = fault::<Bech32>("bc1qar0srrr7xfkvy5l643lydnw9rebgtzzwf5mdq").unwrap();
/// assert_eq!(fault.refusal(), Refusal::InvalidCharacter);
/// assert_eq!((fault.place(), fault.character()), (30, Some((30, 'b'))));
/// assert_eq!(
///     fault.to_string(),
///     "a character behind the separator may not stand there: character 31, b"
/// );
/// ```
pub fn fault<Ck: Checksum>(s: &str) -> Option<Fault> {
    let number = Ck::CODE.unwrap_or(BECH32).number;
    let (refusal, place) = raw::fault(number, s.as_bytes()).err()?;
    let (of_checksum, of_character) = match refusal {
        Refusal::TextTooLong | Refusal::NoChecksum | Refusal::WrongChecksum => (true, false),
        Refusal::HrpNotAscii
        | Refusal::HrpInvalid
        | Refusal::InvalidCharacter
        | Refusal::MixedCase => (false, true),
        _ => (false, false),
    };
    if of_checksum && Ck::CODE.is_none() {
        return None;
    }
    let character = || Some((s[..place].chars().count(), s[place..].chars().next()?));
    Some(Fault {
        refusal,
        place,
        character: of_character.then(character).flatten(),
        has_separator: s.contains('1'),
    })
}
