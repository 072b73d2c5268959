//! Why the library `codex32_c` refuses.

use crate::primitives::gf32::FromCharError;
use crate::refusal::refusals;
use crate::refusals::codex32_refusals;

codex32_refusals! { refusals!
    /// Why a call of this module refuses, by the numbers of `include/codex32.h`. A call names the first
    /// refusal that applies, in the order that its documentation states.
    ///
    /// Where in a text a fault of its characters stands, those with the numbers 11 to 23, [`fault()`] says
    /// by any checksum: `fault::<NoChecksum>(text)`. It is no call on secrets: what it reads, and leaves on the
    /// stack, depends on the text.
    ///
    /// ```
    /// use bech32_proved::codex32::{Refusal, Share};
    ///
    /// let refusal = Share::parse("ms10testsxxx").unwrap_err();
    /// assert_eq!(refusal, Refusal::BadLength);
    /// assert_eq!(refusal.number(), 82);
    /// assert_eq!(
    ///     refusal.to_string(),
    ///     "a codex32 string has 48 to 93 characters, a long one 125 to 127"
    /// );
    /// ```
    ///
    /// [`fault()`]: crate::fault()
    pub enum Refusal
}

// The one character that a caller makes an element of is a share index.
impl From<FromCharError> for Refusal {
    fn from(_: FromCharError) -> Refusal {
        Refusal::NoShareIndex
    }
}
