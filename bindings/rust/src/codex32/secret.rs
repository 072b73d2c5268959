//! What is secret: wiped when it is dropped.

use crate::prelude::*;
use crate::raw;
use crate::text::is_in_upper_case;
use core::fmt;
use core::hint::black_box;
use core::ops::Deref;

// Puts zeros over all of the memory of a vector, that behind its end too.
fn wipe(bytes: &mut Vec<u8>) {
    bytes.resize(bytes.capacity(), 0);
    raw::wipe(bytes, 0);
}

// Whether bytes are equal. Of those of one length all are looked at, wherever they differ.
fn are_equal(some: &[u8], others: &[u8]) -> bool {
    let pairs = some.iter().zip(others);
    let differing = pairs.fold(0, |found, (a, b)| black_box(found | (a ^ b)));
    some.len() == others.len() && differing == 0
}

/// The bytes of a secret or of a share. They are wiped when they are dropped, do not show when they are printed
/// for debugging, and are compared in a time that does not tell where they differ.
///
/// They are read as a slice. `SecretBytes::from` takes a vector over with its memory, and copies nothing.
///
/// ```
/// use bech32_proved::codex32::SecretBytes;
///
/// let secret = SecretBytes::from(vec![0xab; 16]);
/// assert_eq!(secret, [0xab; 16]);
/// assert_eq!((secret.len(), secret[0]), (16, 0xab));
/// assert_eq!(format!("{secret:?}"), "SecretBytes { length: 16, .. }");
/// ```
#[derive(Clone)]
pub struct SecretBytes(Vec<u8>);

impl SecretBytes {
    /// `count` zeros.
    pub(super) fn zeros(count: usize) -> SecretBytes {
        SecretBytes(vec![0; count])
    }

    /// Slices one behind another.
    pub(super) fn joined<'s>(slices: impl Iterator<Item = &'s [u8]> + Clone) -> SecretBytes {
        // There is room for all from the first on: growing would leave copies.
        let size = slices.clone().map(<[u8]>::len).sum();
        let mut all = SecretBytes(Vec::with_capacity(size));
        slices.for_each(|slice| all.0.extend_from_slice(slice));
        all
    }

    /// The bytes, to be written to.
    pub(super) fn as_mut(&mut self) -> &mut [u8] {
        &mut self.0
    }

    /// What a call puts into a buffer of some size, and no more.
    pub(super) fn put<E>(
        size: usize,
        call: impl FnOnce(&mut [u8]) -> Result<usize, E>,
    ) -> Result<SecretBytes, E> {
        let mut bytes = SecretBytes::zeros(size);
        let count = call(&mut bytes.0)?;
        bytes.0.truncate(count);
        Ok(bytes)
    }
}

impl From<Vec<u8>> for SecretBytes {
    fn from(bytes: Vec<u8>) -> SecretBytes {
        SecretBytes(bytes)
    }
}

impl Deref for SecretBytes {
    type Target = [u8];

    fn deref(&self) -> &[u8] {
        &self.0
    }
}

impl AsRef<[u8]> for SecretBytes {
    fn as_ref(&self) -> &[u8] {
        &self.0
    }
}

impl<T: AsRef<[u8]> + ?Sized> PartialEq<T> for SecretBytes {
    fn eq(&self, other: &T) -> bool {
        are_equal(&self.0, other.as_ref())
    }
}

impl Eq for SecretBytes {}

impl fmt::Debug for SecretBytes {
    fn fmt(&self, f: &mut fmt::Formatter<'_>) -> fmt::Result {
        let mut shown = f.debug_struct("SecretBytes");
        shown.field("length", &self.0.len()).finish_non_exhaustive()
    }
}

impl Drop for SecretBytes {
    fn drop(&mut self) {
        wipe(&mut self.0);
    }
}

/// The text of a codex32 string: a share, or the secret itself. It is wiped when it is dropped, does not show
/// when it is printed for debugging, and is compared in a time that does not tell where two texts differ.
///
/// It is read as a `str`; to print it, print [`as_str`]. `SecretText::from` takes a `String` over with its
/// memory, and copies nothing.
///
/// ```
/// use bech32_proved::codex32::{Share, SecretText};
///
/// let typed = String::from("ms10testsxxxxxxxxxxxxxxxxxxxxxxxxxx4nzvca9cmczlw");
/// let text = SecretText::from(typed);
/// assert_eq!(text, "ms10testsxxxxxxxxxxxxxxxxxxxxxxxxxx4nzvca9cmczlw");
/// assert_eq!(Share::parse(&text)?.threshold().number(), 0);
/// assert_eq!(format!("{text:?}"), "SecretText { length: 48, .. }");
/// # Ok::<(), bech32_proved::codex32::Refusal>(())
/// ```
///
/// [`as_str`]: SecretText::as_str
#[derive(Clone)]
pub struct SecretText(String);

impl SecretText {
    /// The text, which may be printed: that is what a share is for.
    #[must_use]
    pub fn as_str(&self) -> &str {
        &self.0
    }

    // The text of bytes that the library wrote.
    pub(super) fn written(mut bytes: SecretBytes) -> SecretText {
        let text = String::from_utf8(core::mem::take(&mut bytes.0));
        // The error would show them.
        let text = text.map_err(|_| "other bytes");
        SecretText(text.expect("the library's characters are ASCII"))
    }

    // What the library made of a text, in lower case, in the case of that text.
    pub(super) fn in_case_of(mut self, s: &str) -> SecretText {
        if is_in_upper_case(s) {
            self.0.make_ascii_uppercase();
        }
        self
    }
}

impl From<String> for SecretText {
    fn from(text: String) -> SecretText {
        SecretText(text)
    }
}

impl Deref for SecretText {
    type Target = str;

    fn deref(&self) -> &str {
        &self.0
    }
}

impl AsRef<str> for SecretText {
    fn as_ref(&self) -> &str {
        &self.0
    }
}

impl<T: AsRef<str> + ?Sized> PartialEq<T> for SecretText {
    fn eq(&self, other: &T) -> bool {
        are_equal(self.0.as_bytes(), other.as_ref().as_bytes())
    }
}

impl Eq for SecretText {}

impl fmt::Debug for SecretText {
    fn fmt(&self, f: &mut fmt::Formatter<'_>) -> fmt::Result {
        let mut shown = f.debug_struct("SecretText");
        shown.field("length", &self.0.len()).finish_non_exhaustive()
    }
}

impl Drop for SecretText {
    fn drop(&mut self) {
        wipe(&mut core::mem::take(&mut self.0).into_bytes());
    }
}

#[cfg(test)]
mod tests {
    use super::*;

    #[test]
    fn wipes_all_of_a_vector() {
        let mut bytes = Vec::with_capacity(100);
        bytes.extend_from_slice(&[7; 60]);
        let start = bytes.as_ptr();
        bytes.truncate(20);
        wipe(&mut bytes);
        assert_eq!(bytes.as_ptr(), start);
        assert!(bytes.len() >= 100 && bytes.iter().all(|byte| *byte == 0));
        wipe(&mut Vec::new());
    }

    #[test]
    fn compares() {
        let bytes = SecretBytes::from(vec![1, 2, 3]);
        assert_eq!(bytes, [1, 2, 3]);
        assert_eq!(bytes, bytes.clone());
        for other in [&[][..], &[1, 2], &[1, 2, 3, 0], &[0, 2, 3], &[1, 2, 2]] {
            assert_ne!(bytes, other);
        }
        let text = SecretText::from(String::from("ms1"));
        assert_eq!(text, "ms1");
        assert_eq!(text, text.clone());
        for other in ["", "ms", "ms11", "ns1", "ms2"] {
            assert_ne!(text, other);
        }
        assert_eq!(SecretBytes::from(vec![]), [0_u8; 0]);
    }

    #[test]
    fn takes_memory_over() {
        let typed = String::from("MS1");
        let start = typed.as_ptr();
        let text = SecretText::from(typed).in_case_of("a1");
        assert_eq!((text.as_str().as_ptr(), &text[..2]), (start, "MS"));
        let bytes = vec![1, 2];
        let start = bytes.as_ptr();
        assert_eq!(SecretBytes::from(bytes).as_ptr(), start);
    }
}
