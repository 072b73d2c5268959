//! The functions of bech32.h over slices.

pub use crate::columns::{Column, Offsets};

use crate::columns::laid;
use crate::declared;
use crate::memory::{wipe_stack, Lent};

// Made by tools/make (tools/make.d/native_calls) from include/bech32.h; do not edit.

pub fn bech32_message(number: u32, message: &mut [u8], message_length: &mut usize) -> u32 {
    // SAFETY: as the crate says.
    let answer = unsafe { declared::bech32_message(number, message.as_mut_ptr(), message.len(), message_length) };
    answer
}

pub fn bech32_version() -> u32 {
    // SAFETY: as the crate says.
    let answer = unsafe { declared::bech32_version() };
    answer
}

pub fn bech32_encode(checksum: u32, hrp: &[u8], bytes: &[u8], text: &mut [u8], text_length: &mut usize) -> u32 {
    // SAFETY: as the crate says.
    let answer = unsafe { declared::bech32_encode(checksum, hrp.as_ptr(), hrp.len(), bytes.as_ptr(), bytes.len(), text.as_mut_ptr(), text.len(), text_length) };
    answer
}

pub fn bech32_decode(text: &[u8], hrp: &mut [u8], hrp_length: &mut usize, bytes: &mut [u8], bytes_length: &mut usize) -> u32 {
    // SAFETY: as the crate says.
    let answer = unsafe { declared::bech32_decode(text.as_ptr(), text.len(), hrp.as_mut_ptr(), hrp.len(), hrp_length, bytes.as_mut_ptr(), bytes.len(), bytes_length) };
    answer
}

pub fn bech32_decode_strict(checksum: u32, text: &[u8], hrp: &mut [u8], hrp_length: &mut usize, bytes: &mut [u8], bytes_length: &mut usize) -> u32 {
    // SAFETY: as the crate says.
    let answer = unsafe { declared::bech32_decode_strict(checksum, text.as_ptr(), text.len(), hrp.as_mut_ptr(), hrp.len(), hrp_length, bytes.as_mut_ptr(), bytes.len(), bytes_length) };
    answer
}

pub fn bech32_decode_elements(checksum: u32, text: &[u8], hrp: &mut [u8], hrp_length: &mut usize, elements: &mut [u8], elements_length: &mut usize) -> u32 {
    // SAFETY: as the crate says.
    let answer = unsafe { declared::bech32_decode_elements(checksum, text.as_ptr(), text.len(), hrp.as_mut_ptr(), hrp.len(), hrp_length, elements.as_mut_ptr(), elements.len(), elements_length) };
    answer
}

pub fn bech32_encode_elements(checksum: u32, hrp: &[u8], elements: &[u8], place: &mut usize, text: &mut [u8], text_length: &mut usize) -> u32 {
    // SAFETY: as the crate says.
    let answer = unsafe { declared::bech32_encode_elements(checksum, hrp.as_ptr(), hrp.len(), elements.as_ptr(), elements.len(), place, text.as_mut_ptr(), text.len(), text_length) };
    answer
}

pub fn bech32_check(checksum: u32, text: &[u8], hrp_length: &mut usize, data_length: &mut usize) -> u32 {
    // SAFETY: as the crate says.
    let answer = unsafe { declared::bech32_check(checksum, text.as_ptr(), text.len(), hrp_length, data_length) };
    answer
}

pub fn bech32_fault(checksum: u32, text: &[u8], place: &mut usize) -> u32 {
    // SAFETY: as the crate says.
    let answer = unsafe { declared::bech32_fault(checksum, text.as_ptr(), text.len(), place) };
    answer
}

pub fn bech32_segwit_encode(hrp: &[u8], version: u32, program: &[u8], text: &mut [u8], text_length: &mut usize) -> u32 {
    // SAFETY: as the crate says.
    let answer = unsafe { declared::bech32_segwit_encode(hrp.as_ptr(), hrp.len(), version, program.as_ptr(), program.len(), text.as_mut_ptr(), text.len(), text_length) };
    answer
}

pub fn bech32_segwit_decode(text: &[u8], hrp: &mut [u8], hrp_length: &mut usize, version: &mut u32, program: &mut [u8], program_length: &mut usize) -> u32 {
    // SAFETY: as the crate says.
    let answer = unsafe { declared::bech32_segwit_decode(text.as_ptr(), text.len(), hrp.as_mut_ptr(), hrp.len(), hrp_length, version, program.as_mut_ptr(), program.len(), program_length) };
    answer
}

pub fn bech32_residue(checksum: u32, elements: &[u8], residue: &mut u32) -> u32 {
    // SAFETY: as the crate says.
    let answer = unsafe { declared::bech32_residue(checksum, elements.as_ptr(), elements.len(), residue) };
    answer
}

pub fn bech32_correct(checksum: u32, text: &[u8], erasures: &[usize], locations: &mut [usize], values: &mut [u8], count: &mut usize, mended: &mut [u8], mended_length: &mut usize) -> u32 {
    // SAFETY: as the crate says.
    let answer = unsafe { declared::bech32_correct(checksum, text.as_ptr(), text.len(), erasures.as_ptr(), erasures.len(), locations.as_mut_ptr(), locations.len(), values.as_mut_ptr(), values.len(), count, mended.as_mut_ptr(), mended.len(), mended_length) };
    answer
}

pub fn bech32_nearest(checksum: u32, text: &[u8], erasures: &[usize], errors: usize, memory: usize, texts: &mut [u8], count: &mut usize) -> u32 {
    let mut lent = Lent::new(memory);
    // SAFETY: as the crate says.
    let answer = unsafe { declared::bech32_nearest(checksum, text.as_ptr(), text.len(), erasures.as_ptr(), erasures.len(), errors, &mut lent.memory(), texts.as_mut_ptr(), texts.len(), count) };
    answer
}

pub fn bech32_near_edits(checksum: u32, text: &[u8], memory: usize, kinds: &mut [u8], locations: &mut [usize], texts: &mut [u8], count: &mut usize) -> u32 {
    let mut lent = Lent::new(memory);
    // SAFETY: as the crate says.
    let answer = unsafe { declared::bech32_near_edits(checksum, text.as_ptr(), text.len(), &mut lent.memory(), kinds.as_mut_ptr(), kinds.len(), locations.as_mut_ptr(), locations.len(), texts.as_mut_ptr(), texts.len(), count) };
    answer
}

pub fn bech32_liquid_encode(hrp: &[u8], version: u32, key: &[u8; 33], program: &[u8], text: &mut [u8], text_length: &mut usize) -> u32 {
    // SAFETY: as the crate says.
    let answer = unsafe { declared::bech32_liquid_encode(hrp.as_ptr(), hrp.len(), version, key.as_ptr(), program.as_ptr(), program.len(), text.as_mut_ptr(), text.len(), text_length) };
    answer
}

pub fn bech32_liquid_decode(text: &[u8], hrp: &mut [u8], hrp_length: &mut usize, version: &mut u32, key: &mut [u8; 33], program: &mut [u8], program_length: &mut usize) -> u32 {
    // SAFETY: as the crate says.
    let answer = unsafe { declared::bech32_liquid_decode(text.as_ptr(), text.len(), hrp.as_mut_ptr(), hrp.len(), hrp_length, version, key.as_mut_ptr(), program.as_mut_ptr(), program.len(), program_length) };
    answer
}

pub fn bech32_liquid_nearest(text: &[u8], erasures: &[usize], errors: usize, memory: usize, texts: &mut [u8], count: &mut usize) -> u32 {
    let mut lent = Lent::new(memory);
    // SAFETY: as the crate says.
    let answer = unsafe { declared::bech32_liquid_nearest(text.as_ptr(), text.len(), erasures.as_ptr(), erasures.len(), errors, &mut lent.memory(), texts.as_mut_ptr(), texts.len(), count) };
    answer
}

pub fn bech32_descriptor_checksum(text: &[u8], checksum: &mut [u8], checksum_length: &mut usize, place: &mut usize) -> u32 {
    // SAFETY: as the crate says.
    let answer = unsafe { declared::bech32_descriptor_checksum(text.as_ptr(), text.len(), checksum.as_mut_ptr(), checksum.len(), checksum_length, place) };
    wipe_stack();
    answer
}

pub fn bech32_descriptor_check(text: &[u8], place: &mut usize) -> u32 {
    // SAFETY: as the crate says.
    let answer = unsafe { declared::bech32_descriptor_check(text.as_ptr(), text.len(), place) };
    wipe_stack();
    answer
}

pub fn bech32_descriptor_mend(text: &[u8], changed: usize, memory: usize, kinds: &mut [u8], places: &mut [usize], texts: &mut [u8], count: &mut usize) -> u32 {
    let mut lent = Lent::new(memory);
    // SAFETY: as the crate says.
    let answer = unsafe { declared::bech32_descriptor_mend(text.as_ptr(), text.len(), changed, &mut lent.memory(), kinds.as_mut_ptr(), kinds.len(), places.as_mut_ptr(), places.len(), texts.as_mut_ptr(), texts.len(), count) };
    lent.wipe();
    wipe_stack();
    answer
}

pub fn bech32_descriptor_mend_two(text: &[u8], memory: usize, places: &mut [usize], texts: &mut [u8], count: &mut usize) -> u32 {
    let mut lent = Lent::new(memory);
    // SAFETY: as the crate says.
    let answer = unsafe { declared::bech32_descriptor_mend_two(text.as_ptr(), text.len(), &mut lent.memory(), places.as_mut_ptr(), places.len(), texts.as_mut_ptr(), texts.len(), count) };
    lent.wipe();
    wipe_stack();
    answer
}

pub fn bech32_suggest(text: &[u8], hrp: &[u8], memory: usize, kinds: &mut [u8], places: &mut [usize], texts: &mut [u8], count: &mut usize) -> u32 {
    let mut lent = Lent::new(memory);
    // SAFETY: as the crate says.
    let answer = unsafe { declared::bech32_suggest(text.as_ptr(), text.len(), hrp.as_ptr(), hrp.len(), &mut lent.memory(), kinds.as_mut_ptr(), kinds.len(), places.as_mut_ptr(), places.len(), texts.as_mut_ptr(), texts.len(), count) };
    answer
}

pub fn bech32_check_many(checksum: u32, texts: &Column<'_>, first: usize, numbers: &mut [u8]) -> u32 {
    // SAFETY: as the crate says.
    let answer = unsafe { declared::bech32_check_many(checksum, &laid(texts), first, numbers.as_mut_ptr(), numbers.len()) };
    answer
}

pub fn bech32_segwit_decode_many(texts: &Column<'_>, first: usize, hrp: &[u8], numbers: &mut [u8], versions: &mut [u8], hrp_lengths: &mut [u8], program_offsets: &mut [i32], programs: &mut [u8], done: &mut usize) -> u32 {
    // SAFETY: as the crate says.
    let answer = unsafe { declared::bech32_segwit_decode_many(&laid(texts), first, hrp.as_ptr(), hrp.len(), numbers.as_mut_ptr(), numbers.len(), versions.as_mut_ptr(), versions.len(), hrp_lengths.as_mut_ptr(), hrp_lengths.len(), program_offsets.as_mut_ptr(), program_offsets.len(), programs.as_mut_ptr(), programs.len(), done) };
    answer
}

pub fn bech32_segwit_encode_many(hrp: &[u8], versions: &[u8], programs: &Column<'_>, first: usize, numbers: &mut [u8], text_offsets: &mut [i32], texts: &mut [u8], done: &mut usize) -> u32 {
    // SAFETY: as the crate says.
    let answer = unsafe { declared::bech32_segwit_encode_many(hrp.as_ptr(), hrp.len(), versions.as_ptr(), versions.len(), &laid(programs), first, numbers.as_mut_ptr(), numbers.len(), text_offsets.as_mut_ptr(), text_offsets.len(), texts.as_mut_ptr(), texts.len(), done) };
    answer
}

pub fn bech32_validity_of(numbers: &[u8], validity: &mut [u8], accepted: &mut usize) -> u32 {
    // SAFETY: as the crate says.
    let answer = unsafe { declared::bech32_validity_of(numbers.as_ptr(), numbers.len(), validity.as_mut_ptr(), validity.len(), accepted) };
    answer
}
