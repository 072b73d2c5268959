//! The functions of `include/bech32.h` and `include/codex32.h`, each with its refusal, over the Rust that is made of the
//! proved library, or by the feature `c` over the library as C.

#[cfg(not(feature = "c"))]
use crate::bech32_form as form;
#[cfg(feature = "codex32")]
use crate::codex32;
#[cfg(all(feature = "codex32", not(feature = "c")))]
use crate::codex32_form;
#[cfg(feature = "columns")]
use crate::columns::{self, Layout};
use crate::Refusal;
#[cfg(feature = "c")]
use bech32_proved_c::bech32 as form;
#[cfg(all(feature = "codex32", feature = "c"))]
use bech32_proved_c::codex32 as codex32_form;
#[cfg(feature = "columns")]
use form::{Column, Offsets};

/// Puts zeros over items, which a compiler does not leave out, since it is told that they are read.
#[cfg(any(feature = "codex32", feature = "descriptor"))]
#[inline(never)]
pub fn wipe<T: Copy>(items: &mut [T], zero: T) {
    items.fill(zero);
    core::hint::black_box(items);
}

// More of the stack than any call takes, of which the memory that it makes there is wiped by the call itself.
// A compiler that optimizes nothing gives each value of a call its own place.
#[cfg(any(feature = "codex32", feature = "descriptor"))]
const STACK: usize = if cfg!(debug_assertions) { 1 << 18 } else { 1 << 15 };

// Puts zeros over the stack below the function that calls it, where a call left copies of a secret. The functions here
// call it behind the library, so that both begin at the same place.
#[cfg(any(feature = "codex32", feature = "descriptor"))]
#[inline(never)]
fn wipe_stack() {
    core::hint::black_box(&mut [0u8; STACK]);
}

// What a call of codex32 returned. What it left on the stack is wiped.
#[cfg(feature = "codex32")]
#[inline(always)]
fn wiped<T>(number: u32, value: T) -> Result<T, codex32::Refusal> {
    wipe_stack();
    known(number, codex32::Refusal::from_number(number), value)
}

// What a call returned: its value, or the refusal that has the number.
fn known<T, R>(number: u32, refusal: Option<R>, value: T) -> Result<T, R> {
    match (number, refusal) {
        (0, _) => Ok(value),
        (_, Some(refusal)) => Err(refusal),
        (_, None) => panic!("the library returned {number}, which this crate does not know"),
    }
}

// The same of a call of bech32_c.
fn returned<T>(number: u32, value: T) -> Result<T, Refusal> {
    known(number, Refusal::from_number(number), value)
}

// The same of a call that counts all of what it lists, and puts what there is room for.
#[cfg(any(feature = "correct", feature = "descriptor"))]
fn counted(number: u32, count: usize) -> Result<usize, Refusal> {
    match returned(number, count) {
        Err(Refusal::NoRoom) => Ok(count),
        other => other,
    }
}

/// Puts the text of a human-readable part and bytes into a buffer, and returns its length.
pub fn encode(checksum: u32, hrp: &[u8], bytes: &[u8], text: &mut [u8]) -> Result<usize, Refusal> {
    let mut length = 0;
    let number = form::bech32_encode(checksum, hrp, bytes, text, &mut length);
    returned(number, length)
}

/// Puts the human-readable part and the bytes of a text into buffers, and returns their lengths.
pub fn decode(text: &[u8], hrp: &mut [u8], bytes: &mut [u8]) -> Result<(usize, usize), Refusal> {
    let (mut hrp_length, mut bytes_length) = (0, 0);
    let number = form::bech32_decode(text, hrp, &mut hrp_length, bytes, &mut bytes_length);
    returned(number, (hrp_length, bytes_length))
}

/// The lengths of the human-readable part and of the data part, without the checksum, of a text.
pub fn check(checksum: u32, text: &[u8]) -> Result<(usize, usize), Refusal> {
    let (mut hrp_length, mut data_length) = (0, 0);
    let number = form::bech32_check(checksum, text, &mut hrp_length, &mut data_length);
    returned(number, (hrp_length, data_length))
}

/// Why a text is not accepted, and where its fault stands.
pub fn fault(checksum: u32, text: &[u8]) -> Result<(), (Refusal, usize)> {
    let mut place = 0;
    let number = form::bech32_fault(checksum, text, &mut place);
    returned(number, ()).map_err(|refusal| (refusal, place))
}

/// The remainder that elements leave, a byte from 0 to 31 each.
pub fn residue(checksum: u32, elements: &[u8]) -> Result<u32, Refusal> {
    let mut residue = 0;
    let number = form::bech32_residue(checksum, elements, &mut residue);
    returned(number, residue)
}

/// Puts a segwit address into a buffer, and returns its length.
pub fn segwit_encode(
    hrp: &[u8],
    version: u32,
    program: &[u8],
    text: &mut [u8],
) -> Result<usize, Refusal> {
    let mut length = 0;
    let number = form::bech32_segwit_encode(hrp, version, program, text, &mut length);
    returned(number, length)
}

/// Puts the human-readable part and the program of a segwit address into buffers, and returns the
/// length of the one, the witness version, and the length of the other.
pub fn segwit_decode(
    text: &[u8],
    hrp: &mut [u8],
    program: &mut [u8],
) -> Result<(usize, u32, usize), Refusal> {
    let (mut hrp_length, mut version, mut program_length) = (0, 0, 0);
    let number = form::bech32_segwit_decode(
        text,
        hrp,
        &mut hrp_length,
        &mut version,
        program,
        &mut program_length,
    );
    returned(number, (hrp_length, version, program_length))
}

/// Puts the locations of a correction, the values to add there and the mended text into buffers,
/// and returns how many locations there are and the length of the text.
#[cfg(feature = "correct")]
pub fn correct(
    checksum: u32,
    text: &[u8],
    erasures: &[usize],
    locations: &mut [usize],
    values: &mut [u8],
    mended: &mut [u8],
) -> Result<(usize, usize), Refusal> {
    let (mut count, mut mended_length) = (0, 0);
    let number = form::bech32_correct(
        checksum,
        text,
        erasures,
        locations,
        values,
        &mut count,
        mended,
        &mut mended_length,
    );
    returned(number, (count, mended_length))
}

/// Puts the texts near to a text into a buffer, one behind another, as many as it has room for, and returns
/// how many there are in all. The call takes `memory` bytes for its own use.
#[cfg(feature = "correct")]
pub fn nearest(
    checksum: u32,
    text: &[u8],
    erasures: &[usize],
    errors: usize,
    memory: usize,
    texts: &mut [u8],
) -> Result<usize, Refusal> {
    let mut count = 0;
    let number = form::bech32_nearest(checksum, text, erasures, errors, memory, texts, &mut count);
    counted(number, count)
}

/// Puts what one edit makes of a text into buffers, as much as they have room for, and returns how many such
/// texts there are in all: the kind of each edit, its location, and the texts, one behind another. The
/// memory is for the call's own use.
#[cfg(feature = "correct")]
pub fn near_edits(
    checksum: u32,
    text: &[u8],
    memory: usize,
    kinds: &mut [u8],
    locations: &mut [usize],
    texts: &mut [u8],
) -> Result<usize, Refusal> {
    let mut count = 0;
    let number =
        form::bech32_near_edits(checksum, text, memory, kinds, locations, texts, &mut count);
    counted(number, count)
}

/// Puts a confidential address of Liquid into a buffer, and returns its length.
#[cfg(feature = "liquid")]
pub fn liquid_encode(
    hrp: &[u8],
    version: u32,
    key: &[u8; 33],
    program: &[u8],
    text: &mut [u8],
) -> Result<usize, Refusal> {
    let mut length = 0;
    let number = form::bech32_liquid_encode(hrp, version, key, program, text, &mut length);
    returned(number, length)
}

/// Puts the human-readable part, the blinding key and the program of a confidential address into buffers, and
/// returns the length of the first, the witness version, and the length of the last.
#[cfg(feature = "liquid")]
pub fn liquid_decode(
    text: &[u8],
    hrp: &mut [u8],
    key: &mut [u8; 33],
    program: &mut [u8],
) -> Result<(usize, u32, usize), Refusal> {
    let (mut hrp_length, mut version, mut program_length) = (0, 0, 0);
    let number = form::bech32_liquid_decode(
        text,
        hrp,
        &mut hrp_length,
        &mut version,
        key,
        program,
        &mut program_length,
    );
    returned(number, (hrp_length, version, program_length))
}

/// The same as `nearest` by Blech32, the checksum of Liquid's confidential addresses.
#[cfg(all(feature = "correct", feature = "liquid"))]
pub fn liquid_nearest(
    text: &[u8],
    erasures: &[usize],
    errors: usize,
    memory: usize,
    texts: &mut [u8],
) -> Result<usize, Refusal> {
    let mut count = 0;
    let number = form::bech32_liquid_nearest(text, erasures, errors, memory, texts, &mut count);
    counted(number, count)
}

/// Puts the addresses of a network that may have been meant by a text into buffers, with what is done and where, as
/// much as they have room for, and returns how many there are in all. The call takes `memory` bytes for its own use.
#[cfg(feature = "correct")]
pub fn suggest(
    text: &[u8],
    hrp: &[u8],
    memory: usize,
    kinds: &mut [u8],
    places: &mut [usize],
    texts: &mut [u8],
) -> Result<usize, Refusal> {
    let mut count = 0;
    let number = form::bech32_suggest(text, hrp, memory, kinds, places, texts, &mut count);
    returned(number, count)
}

/// Reads a string of either length, puts the bytes of its payload into a buffer, and returns how many they
/// are.
#[cfg(feature = "codex32")]
pub fn codex32_share(text: &[u8], bytes: &mut [u8]) -> Result<usize, codex32::Refusal> {
    let (mut threshold, mut identifier, mut share_index, mut length) = (0, [0; 4], 0, 0);
    let number = codex32_form::codex32_share(
        text,
        &mut threshold,
        &mut identifier,
        &mut share_index,
        bytes,
        &mut length,
    );
    wiped(number, length)
}

/// Puts the string of a header and bytes into a buffer, and returns its length.
#[cfg(feature = "codex32")]
pub fn codex32_encode(
    threshold: u32,
    identifier: &[u8],
    share_index: u32,
    bytes: &[u8],
    text: &mut [u8],
) -> Result<usize, codex32::Refusal> {
    let mut length = 0;
    let number =
        codex32_form::codex32_encode(threshold, identifier, share_index, bytes, text, &mut length);
    wiped(number, length)
}

/// Puts the string of a header and the characters of a payload into a buffer, and returns its length.
#[cfg(feature = "codex32")]
pub fn codex32_encode_payload(
    threshold: u32,
    identifier: &[u8],
    share_index: u32,
    payload: &[u8],
    text: &mut [u8],
) -> Result<usize, codex32::Refusal> {
    let mut length = 0;
    let number = codex32_form::codex32_encode_payload(
        threshold,
        identifier,
        share_index,
        payload,
        text,
        &mut length,
    );
    wiped(number, length)
}

/// Puts the string at an index into a buffer, and returns its length. The others of its set stand one behind
/// another in `texts`, with their lengths.
#[cfg(feature = "codex32")]
pub fn codex32_derive(
    share_index: u32,
    texts: &[u8],
    lengths: &[usize],
    text: &mut [u8],
) -> Result<usize, codex32::Refusal> {
    let mut length = 0;
    let number = codex32_form::codex32_derive(share_index, texts, lengths, text, &mut length);
    wiped(number, length)
}

/// Puts shares of a secret into a buffer, `count` of them, one behind another, and returns the length of each.
#[cfg(feature = "codex32")]
pub fn codex32_split(
    threshold: u32,
    identifier: &[u8],
    secret: &[u8],
    random: &[u8],
    count: usize,
    texts: &mut [u8],
) -> Result<usize, codex32::Refusal> {
    let mut length = 0;
    let number = codex32_form::codex32_split(
        threshold,
        identifier,
        secret,
        random,
        count,
        texts,
        &mut length,
    );
    wiped(number, length)
}

/// Puts the bytes of the secret of shares into a buffer, and returns how many they are. The shares stand one
/// behind another in `texts`, with their lengths.
#[cfg(feature = "codex32")]
pub fn codex32_recover(
    texts: &[u8],
    lengths: &[usize],
    bytes: &mut [u8],
) -> Result<usize, codex32::Refusal> {
    let mut length = 0;
    let number = codex32_form::codex32_recover(texts, lengths, bytes, &mut length);
    wiped(number, length)
}

/// Puts the nearest string to a damaged one into a buffer, and returns its length. The memory is for the
/// call's own use.
#[cfg(feature = "codex32")]
pub fn codex32_propose(
    text: &[u8],
    memory: usize,
    proposed: &mut [u8],
) -> Result<usize, codex32::Refusal> {
    let mut length = 0;
    let number = codex32_form::codex32_propose(text, memory, proposed, &mut length);
    wiped(number, length)
}

/// The same for a damaged long string.
#[cfg(feature = "codex32")]
pub fn codex32_propose_long(
    text: &[u8],
    memory: usize,
    proposed: &mut [u8],
) -> Result<usize, codex32::Refusal> {
    let mut length = 0;
    let number = codex32_form::codex32_propose_long(text, memory, proposed, &mut length);
    wiped(number, length)
}

/// Puts the human-readable part and the bytes of a text that is the only one of them into buffers, and
/// returns their lengths.
#[cfg(feature = "elements")]
pub fn decode_strict(
    checksum: u32,
    text: &[u8],
    hrp: &mut [u8],
    bytes: &mut [u8],
) -> Result<(usize, usize), Refusal> {
    let (mut hrp_length, mut bytes_length) = (0, 0);
    let number = form::bech32_decode_strict(
        checksum,
        text,
        hrp,
        &mut hrp_length,
        bytes,
        &mut bytes_length,
    );
    returned(number, (hrp_length, bytes_length))
}

/// Puts the human-readable part and the elements of a text into buffers, and returns their lengths.
#[cfg(feature = "elements")]
pub fn decode_elements(
    checksum: u32,
    text: &[u8],
    hrp: &mut [u8],
    elements: &mut [u8],
) -> Result<(usize, usize), Refusal> {
    let (mut hrp_length, mut elements_length) = (0, 0);
    let number = form::bech32_decode_elements(
        checksum,
        text,
        hrp,
        &mut hrp_length,
        elements,
        &mut elements_length,
    );
    returned(number, (hrp_length, elements_length))
}

/// Puts the text of a human-readable part and elements into a buffer, and returns 0 and its length.
#[cfg(feature = "elements")]
pub fn encode_elements(
    checksum: u32,
    hrp: &[u8],
    elements: &[u8],
    text: &mut [u8],
) -> Result<(usize, usize), Refusal> {
    let (mut place, mut text_length) = (0, 0);
    let number =
        form::bech32_encode_elements(checksum, hrp, elements, &mut place, text, &mut text_length);
    returned(number, (place, text_length))
}

// What a call on a descriptor returned. What it left on the stack is wiped.
#[cfg(feature = "descriptor")]
#[inline(always)]
fn kept_secret<T>(number: u32, value: T) -> Result<T, Refusal> {
    wipe_stack();
    returned(number, value)
}

/// Puts the checksum of a descriptor into a buffer, and returns its length. A refusal has the place of a
/// character at fault.
#[cfg(feature = "descriptor")]
pub fn descriptor_checksum(text: &[u8], checksum: &mut [u8]) -> Result<usize, (Refusal, usize)> {
    let (mut checksum_length, mut place) = (0, 0);
    let number = form::bech32_descriptor_checksum(text, checksum, &mut checksum_length, &mut place);
    kept_secret(number, checksum_length).map_err(|refusal| (refusal, place))
}

/// Tests the checksum of a descriptor. A refusal has the place of a character at fault.
#[cfg(feature = "descriptor")]
pub fn descriptor_check(text: &[u8]) -> Result<(), (Refusal, usize)> {
    let mut place = 0;
    let number = form::bech32_descriptor_check(text, &mut place);
    kept_secret(number, ()).map_err(|refusal| (refusal, place))
}

/// Puts what one mistake makes of a descriptor into buffers, as much as they have room for, and returns how many
/// such texts there are in all: the kinds, two places for each, and the texts, one behind another. The memory is
/// for the call's own use.
#[cfg(feature = "descriptor")]
pub fn descriptor_mend(
    text: &[u8],
    changed: usize,
    memory: usize,
    kinds: &mut [u8],
    places: &mut [usize],
    texts: &mut [u8],
) -> Result<usize, Refusal> {
    let mut count = 0;
    let number =
        form::bech32_descriptor_mend(text, changed, memory, kinds, places, texts, &mut count);
    wipe_stack();
    counted(number, count)
}

/// Puts what two changed characters make of a descriptor into buffers, as much as they have room for, and returns how
/// many such texts there are in all: two places for each, and the texts, one behind another. The memory is for the
/// call's own use.
#[cfg(feature = "descriptor")]
pub fn descriptor_mend_two(
    text: &[u8],
    memory: usize,
    places: &mut [usize],
    texts: &mut [u8],
) -> Result<usize, Refusal> {
    let mut count = 0;
    let number = form::bech32_descriptor_mend_two(text, memory, places, texts, &mut count);
    wipe_stack();
    counted(number, count)
}

// A column as a function takes it.
#[cfg(feature = "columns")]
fn laid<'a>(column: &columns::Column<'a>) -> Column<'a> {
    Column {
        bytes: column.bytes,
        offsets: match column.layout {
            Layout::Offsets32(it) => Offsets::Narrow(it),
            Layout::Offsets64(it) => Offsets::Wide(it),
            Layout::Fixed(width) => Offsets::Width(width),
        },
        validity: column.validity.unwrap_or_default(),
        rows: column.rows,
    }
}

/// Puts the numbers of as many rows, from one on, into a buffer.
#[cfg(feature = "columns")]
pub fn check_many(
    checksum: u32,
    texts: &columns::Column<'_>,
    first: usize,
    numbers: &mut [u8],
) -> Result<(), Refusal> {
    let number = form::bech32_check_many(checksum, &laid(texts), first, numbers);
    returned(number, ())
}

/// What `segwit_decode_many` puts, for as many rows as it has numbers.
#[cfg(feature = "columns")]
pub struct Decoded<'b> {
    pub numbers: &'b mut [u8],
    pub versions: &'b mut [u8],
    pub hrp_lengths: &'b mut [u8],
    pub program_offsets: &'b mut [i32],
    pub programs: &'b mut [u8],
}

/// Decodes segwit addresses, from a row on.
#[cfg(feature = "columns")]
pub fn segwit_decode_many(
    texts: &columns::Column<'_>,
    first: usize,
    hrp: &[u8],
    decoded: Decoded<'_>,
) -> Result<(), Refusal> {
    let mut done = 0;
    let number = form::bech32_segwit_decode_many(
        &laid(texts),
        first,
        hrp,
        decoded.numbers,
        decoded.versions,
        decoded.hrp_lengths,
        decoded.program_offsets,
        decoded.programs,
        &mut done,
    );
    returned(number, ())
}

/// What `segwit_encode_many` puts, for as many rows as it has numbers.
#[cfg(feature = "columns")]
pub struct Encoded<'b> {
    pub numbers: &'b mut [u8],
    pub text_offsets: &'b mut [i32],
    pub texts: &'b mut [u8],
}

/// Encodes segwit addresses, from a row on.
#[cfg(feature = "columns")]
pub fn segwit_encode_many(
    hrp: &[u8],
    versions: &[u8],
    programs: &columns::Column<'_>,
    first: usize,
    encoded: Encoded<'_>,
) -> Result<(), Refusal> {
    let mut done = 0;
    let number = form::bech32_segwit_encode_many(
        hrp,
        versions,
        &laid(programs),
        first,
        encoded.numbers,
        encoded.text_offsets,
        encoded.texts,
        &mut done,
    );
    returned(number, ())
}

/// Puts the bits of numbers into a buffer, and returns how many are 0.
#[cfg(feature = "columns")]
pub fn validity_of(numbers: &[u8], validity: &mut [u8]) -> Result<usize, Refusal> {
    let mut accepted = 0;
    let number = form::bech32_validity_of(numbers, validity, &mut accepted);
    returned(number, accepted)
}
