//! The functions of codex32.h over slices.

use crate::declared;
use crate::memory::{wipe_stack, Lent};

// Made by tools/make (tools/make.d/native_calls) from include/codex32.h; do not edit.

pub fn codex32_message(number: u32, message: &mut [u8], message_length: &mut usize) -> u32 {
    // SAFETY: as the crate says.
    let answer = unsafe { declared::codex32_message(number, message.as_mut_ptr(), message.len(), message_length) };
    answer
}

pub fn codex32_version() -> u32 {
    // SAFETY: as the crate says.
    let answer = unsafe { declared::codex32_version() };
    answer
}

pub fn codex32_parse(text: &[u8], threshold: &mut u32, share_index: &mut u32, payload_length: &mut usize) -> u32 {
    // SAFETY: as the crate says.
    let answer = unsafe { declared::codex32_parse(text.as_ptr(), text.len(), threshold, share_index, payload_length) };
    wipe_stack();
    answer
}

pub fn codex32_share(text: &[u8], threshold: &mut u32, identifier: &mut [u8; 4], share_index: &mut u32, bytes: &mut [u8], bytes_length: &mut usize) -> u32 {
    // SAFETY: as the crate says.
    let answer = unsafe { declared::codex32_share(text.as_ptr(), text.len(), threshold, identifier.as_mut_ptr(), share_index, bytes.as_mut_ptr(), bytes.len(), bytes_length) };
    wipe_stack();
    answer
}

pub fn codex32_encode(threshold: u32, identifier: &[u8], share_index: u32, bytes: &[u8], text: &mut [u8], text_length: &mut usize) -> u32 {
    // SAFETY: as the crate says.
    let answer = unsafe { declared::codex32_encode(threshold, identifier.as_ptr(), identifier.len(), share_index, bytes.as_ptr(), bytes.len(), text.as_mut_ptr(), text.len(), text_length) };
    wipe_stack();
    answer
}

pub fn codex32_encode_payload(threshold: u32, identifier: &[u8], share_index: u32, payload: &[u8], text: &mut [u8], text_length: &mut usize) -> u32 {
    // SAFETY: as the crate says.
    let answer = unsafe { declared::codex32_encode_payload(threshold, identifier.as_ptr(), identifier.len(), share_index, payload.as_ptr(), payload.len(), text.as_mut_ptr(), text.len(), text_length) };
    wipe_stack();
    answer
}

pub fn codex32_derive(share_index: u32, texts: &[u8], lengths: &[usize], text: &mut [u8], text_length: &mut usize) -> u32 {
    // SAFETY: as the crate says.
    let answer = unsafe { declared::codex32_derive(share_index, texts.as_ptr(), texts.len(), lengths.as_ptr(), lengths.len(), text.as_mut_ptr(), text.len(), text_length) };
    wipe_stack();
    answer
}

pub fn codex32_split(threshold: u32, identifier: &[u8], secret: &[u8], random: &[u8], count: usize, texts: &mut [u8], text_length: &mut usize) -> u32 {
    // SAFETY: as the crate says.
    let answer = unsafe { declared::codex32_split(threshold, identifier.as_ptr(), identifier.len(), secret.as_ptr(), secret.len(), random.as_ptr(), random.len(), count, texts.as_mut_ptr(), texts.len(), text_length) };
    wipe_stack();
    answer
}

pub fn codex32_recover(texts: &[u8], lengths: &[usize], bytes: &mut [u8], bytes_length: &mut usize) -> u32 {
    // SAFETY: as the crate says.
    let answer = unsafe { declared::codex32_recover(texts.as_ptr(), texts.len(), lengths.as_ptr(), lengths.len(), bytes.as_mut_ptr(), bytes.len(), bytes_length) };
    wipe_stack();
    answer
}

pub fn codex32_propose(text: &[u8], memory: usize, proposed: &mut [u8], proposed_length: &mut usize) -> u32 {
    let mut lent = Lent::new(memory);
    // SAFETY: as the crate says.
    let answer = unsafe { declared::codex32_propose(text.as_ptr(), text.len(), &mut lent.memory(), proposed.as_mut_ptr(), proposed.len(), proposed_length) };
    lent.wipe();
    wipe_stack();
    answer
}

pub fn codex32_propose_long(text: &[u8], memory: usize, proposed: &mut [u8], proposed_length: &mut usize) -> u32 {
    let mut lent = Lent::new(memory);
    // SAFETY: as the crate says.
    let answer = unsafe { declared::codex32_propose_long(text.as_ptr(), text.len(), &mut lent.memory(), proposed.as_mut_ptr(), proposed.len(), proposed_length) };
    lent.wipe();
    wipe_stack();
    answer
}
