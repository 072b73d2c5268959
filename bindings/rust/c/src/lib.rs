//! The proved libraries as C, under the same functions as the Rust that is made of them: for the crate `bech32_proved`, whose
//! feature `c` takes this one. All `unsafe` code stands here.
//!
//! What a caller owes the library, a slice gives: its pointer is never null, its length is true, and what a mutable one covers
//! nothing else covers. Memory that a call is lent is made and freed here. What is secret is wiped: that memory, and the stack
//! below the call.

#![allow(clippy::too_many_arguments, clippy::must_use_candidate, missing_docs)]

#[rustfmt::skip]
pub mod bech32;
#[rustfmt::skip]
pub mod codex32;
mod columns;
mod declared;
mod memory;
