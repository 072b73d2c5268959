// Made by tools/make (tools/make.d/native_calls) from include/bech32.h; do not edit.

pub fn bech32_message(number: u32, message: &mut [u8], message_length: &mut usize) -> u32 {
    let message = some_mut(message);
    let mut layout = Layout(STACK_BECH32_MESSAGE as u64);
    let message_at = layout.put(message.len());
    let message_length_at = layout.put(8);
    with::<{ STACK_BECH32_MESSAGE + 512 }, { STACK_BECH32_MESSAGE + 8192 }, false>(layout.0, &mut |m: &mut [u8]| {
        let answer = of_bech32_message(m, STACK_BECH32_MESSAGE as u64, number, message_at, message.len() as u64, message_length_at);
        if answer == 0 {
            *message_length = index(load_64(m, message_length_at));
        }
        if answer == 0 {
            take(m, message_at, &mut message[..*message_length]);
        }
        answer
    })
}

pub fn bech32_version() -> u32 {
    let layout = Layout(STACK_BECH32_VERSION as u64);
    with::<{ STACK_BECH32_VERSION + 512 }, { STACK_BECH32_VERSION + 8192 }, false>(layout.0, &mut |m: &mut [u8]| {
        let answer = of_bech32_version(m, STACK_BECH32_VERSION as u64);
        answer
    })
}

pub fn bech32_encode(checksum: u32, hrp: &[u8], bytes: &[u8], text: &mut [u8], text_length: &mut usize) -> u32 {
    let bytes = some(bytes);
    let text = some_mut(text);
    let mut layout = Layout(STACK_BECH32_ENCODE as u64);
    let hrp_at = layout.put(hrp.len());
    let bytes_at = layout.put(bytes.len());
    let text_at = layout.put(text.len());
    let text_length_at = layout.put(8);
    with::<{ STACK_BECH32_ENCODE + 512 }, { STACK_BECH32_ENCODE + 8192 }, false>(layout.0, &mut |m: &mut [u8]| {
        put(m, hrp_at, hrp);
        put(m, bytes_at, bytes);
        let answer = of_bech32_encode(m, STACK_BECH32_ENCODE as u64, checksum, hrp_at, hrp.len() as u64, bytes_at, bytes.len() as u64, text_at, text.len() as u64, text_length_at);
        if answer == 0 {
            *text_length = index(load_64(m, text_length_at));
        }
        if answer == 0 {
            take(m, text_at, &mut text[..*text_length]);
        }
        answer
    })
}

pub fn bech32_decode(text: &[u8], hrp: &mut [u8], hrp_length: &mut usize, bytes: &mut [u8], bytes_length: &mut usize) -> u32 {
    let hrp = some_mut(hrp);
    let bytes = some_mut(bytes);
    let mut layout = Layout(STACK_BECH32_DECODE as u64);
    let text_at = layout.put(text.len());
    let hrp_at = layout.put(hrp.len());
    let hrp_length_at = layout.put(8);
    let bytes_at = layout.put(bytes.len());
    let bytes_length_at = layout.put(8);
    with::<{ STACK_BECH32_DECODE + 512 }, { STACK_BECH32_DECODE + 8192 }, false>(layout.0, &mut |m: &mut [u8]| {
        put(m, text_at, text);
        let answer = of_bech32_decode(m, STACK_BECH32_DECODE as u64, text_at, text.len() as u64, hrp_at, hrp.len() as u64, hrp_length_at, bytes_at, bytes.len() as u64, bytes_length_at);
        if answer == 0 {
            *hrp_length = index(load_64(m, hrp_length_at));
            *bytes_length = index(load_64(m, bytes_length_at));
        }
        if answer == 0 {
            take(m, hrp_at, &mut hrp[..*hrp_length]);
        }
        if answer == 0 {
            take(m, bytes_at, &mut bytes[..*bytes_length]);
        }
        answer
    })
}

#[cfg(feature = "elements")]
pub fn bech32_decode_strict(checksum: u32, text: &[u8], hrp: &mut [u8], hrp_length: &mut usize, bytes: &mut [u8], bytes_length: &mut usize) -> u32 {
    let hrp = some_mut(hrp);
    let bytes = some_mut(bytes);
    let mut layout = Layout(STACK_BECH32_DECODE_STRICT as u64);
    let text_at = layout.put(text.len());
    let hrp_at = layout.put(hrp.len());
    let hrp_length_at = layout.put(8);
    let bytes_at = layout.put(bytes.len());
    let bytes_length_at = layout.put(8);
    with::<{ STACK_BECH32_DECODE_STRICT + 512 }, { STACK_BECH32_DECODE_STRICT + 8192 }, false>(layout.0, &mut |m: &mut [u8]| {
        put(m, text_at, text);
        let answer = of_bech32_decode_strict(m, STACK_BECH32_DECODE_STRICT as u64, checksum, text_at, text.len() as u64, hrp_at, hrp.len() as u64, hrp_length_at, bytes_at, bytes.len() as u64, bytes_length_at);
        if answer == 0 {
            *hrp_length = index(load_64(m, hrp_length_at));
            *bytes_length = index(load_64(m, bytes_length_at));
        }
        if answer == 0 {
            take(m, hrp_at, &mut hrp[..*hrp_length]);
        }
        if answer == 0 {
            take(m, bytes_at, &mut bytes[..*bytes_length]);
        }
        answer
    })
}

#[cfg(feature = "elements")]
pub fn bech32_decode_elements(checksum: u32, text: &[u8], hrp: &mut [u8], hrp_length: &mut usize, elements: &mut [u8], elements_length: &mut usize) -> u32 {
    let hrp = some_mut(hrp);
    let elements = some_mut(elements);
    let mut layout = Layout(STACK_BECH32_DECODE_ELEMENTS as u64);
    let text_at = layout.put(text.len());
    let hrp_at = layout.put(hrp.len());
    let hrp_length_at = layout.put(8);
    let elements_at = layout.put(elements.len());
    let elements_length_at = layout.put(8);
    with::<{ STACK_BECH32_DECODE_ELEMENTS + 512 }, { STACK_BECH32_DECODE_ELEMENTS + 8192 }, false>(layout.0, &mut |m: &mut [u8]| {
        put(m, text_at, text);
        let answer = of_bech32_decode_elements(m, STACK_BECH32_DECODE_ELEMENTS as u64, checksum, text_at, text.len() as u64, hrp_at, hrp.len() as u64, hrp_length_at, elements_at, elements.len() as u64, elements_length_at);
        if answer == 0 {
            *hrp_length = index(load_64(m, hrp_length_at));
            *elements_length = index(load_64(m, elements_length_at));
        }
        if answer == 0 {
            take(m, hrp_at, &mut hrp[..*hrp_length]);
        }
        if answer == 0 {
            take(m, elements_at, &mut elements[..*elements_length]);
        }
        answer
    })
}

#[cfg(feature = "elements")]
pub fn bech32_encode_elements(checksum: u32, hrp: &[u8], elements: &[u8], place: &mut usize, text: &mut [u8], text_length: &mut usize) -> u32 {
    let text = some_mut(text);
    let mut layout = Layout(STACK_BECH32_ENCODE_ELEMENTS as u64);
    let hrp_at = layout.put(hrp.len());
    let elements_at = layout.put(elements.len());
    let place_at = layout.put(8);
    let text_at = layout.put(text.len());
    let text_length_at = layout.put(8);
    with::<{ STACK_BECH32_ENCODE_ELEMENTS + 512 }, { STACK_BECH32_ENCODE_ELEMENTS + 8192 }, false>(layout.0, &mut |m: &mut [u8]| {
        put(m, hrp_at, hrp);
        put(m, elements_at, elements);
        let answer = of_bech32_encode_elements(m, STACK_BECH32_ENCODE_ELEMENTS as u64, checksum, hrp_at, hrp.len() as u64, elements_at, elements.len() as u64, place_at, text_at, text.len() as u64, text_length_at);
        if answer == 67 {
            *place = index(load_64(m, place_at));
        }
        if answer == 0 {
            *text_length = index(load_64(m, text_length_at));
        }
        if answer == 0 {
            take(m, text_at, &mut text[..*text_length]);
        }
        answer
    })
}

pub fn bech32_check(checksum: u32, text: &[u8], hrp_length: &mut usize, data_length: &mut usize) -> u32 {
    let mut layout = Layout(STACK_BECH32_CHECK as u64);
    let text_at = layout.put(text.len());
    let hrp_length_at = layout.put(8);
    let data_length_at = layout.put(8);
    with::<{ STACK_BECH32_CHECK + 512 }, { STACK_BECH32_CHECK + 8192 }, false>(layout.0, &mut |m: &mut [u8]| {
        put(m, text_at, text);
        let answer = of_bech32_check(m, STACK_BECH32_CHECK as u64, checksum, text_at, text.len() as u64, hrp_length_at, data_length_at);
        if answer == 0 {
            *hrp_length = index(load_64(m, hrp_length_at));
            *data_length = index(load_64(m, data_length_at));
        }
        answer
    })
}

pub fn bech32_fault(checksum: u32, text: &[u8], place: &mut usize) -> u32 {
    let mut layout = Layout(STACK_BECH32_FAULT as u64);
    let text_at = layout.put(text.len());
    let place_at = layout.put(8);
    with::<{ STACK_BECH32_FAULT + 512 }, { STACK_BECH32_FAULT + 8192 }, false>(layout.0, &mut |m: &mut [u8]| {
        put(m, text_at, text);
        let answer = of_bech32_fault(m, STACK_BECH32_FAULT as u64, checksum, text_at, text.len() as u64, place_at);
        if answer != 0 && answer != 2 && answer != 4 {
            *place = index(load_64(m, place_at));
        }
        answer
    })
}

pub fn bech32_segwit_encode(hrp: &[u8], version: u32, program: &[u8], text: &mut [u8], text_length: &mut usize) -> u32 {
    let program = some(program);
    let text = some_mut(text);
    let mut layout = Layout(STACK_BECH32_SEGWIT_ENCODE as u64);
    let hrp_at = layout.put(hrp.len());
    let program_at = layout.put(program.len());
    let text_at = layout.put(text.len());
    let text_length_at = layout.put(8);
    with::<{ STACK_BECH32_SEGWIT_ENCODE + 512 }, { STACK_BECH32_SEGWIT_ENCODE + 8192 }, false>(layout.0, &mut |m: &mut [u8]| {
        put(m, hrp_at, hrp);
        put(m, program_at, program);
        let answer = of_bech32_segwit_encode(m, STACK_BECH32_SEGWIT_ENCODE as u64, hrp_at, hrp.len() as u64, version, program_at, program.len() as u64, text_at, text.len() as u64, text_length_at);
        if answer == 0 {
            *text_length = index(load_64(m, text_length_at));
        }
        if answer == 0 {
            take(m, text_at, &mut text[..*text_length]);
        }
        answer
    })
}

pub fn bech32_segwit_decode(text: &[u8], hrp: &mut [u8], hrp_length: &mut usize, version: &mut u32, program: &mut [u8], program_length: &mut usize) -> u32 {
    let hrp = some_mut(hrp);
    let program = some_mut(program);
    let mut layout = Layout(STACK_BECH32_SEGWIT_DECODE as u64);
    let text_at = layout.put(text.len());
    let hrp_at = layout.put(hrp.len());
    let hrp_length_at = layout.put(8);
    let version_at = layout.put(8);
    let program_at = layout.put(program.len());
    let program_length_at = layout.put(8);
    with::<{ STACK_BECH32_SEGWIT_DECODE + 512 }, { STACK_BECH32_SEGWIT_DECODE + 8192 }, false>(layout.0, &mut |m: &mut [u8]| {
        put(m, text_at, text);
        let answer = of_bech32_segwit_decode(m, STACK_BECH32_SEGWIT_DECODE as u64, text_at, text.len() as u64, hrp_at, hrp.len() as u64, hrp_length_at, version_at, program_at, program.len() as u64, program_length_at);
        if answer == 0 {
            *hrp_length = index(load_64(m, hrp_length_at));
            *version = load_32(m, version_at);
            *program_length = index(load_64(m, program_length_at));
        }
        if answer == 0 {
            take(m, hrp_at, &mut hrp[..*hrp_length]);
        }
        if answer == 0 {
            take(m, program_at, &mut program[..*program_length]);
        }
        answer
    })
}

pub fn bech32_residue(checksum: u32, elements: &[u8], residue: &mut u32) -> u32 {
    let mut layout = Layout(STACK_BECH32_RESIDUE as u64);
    let elements_at = layout.put(elements.len());
    let residue_at = layout.put(8);
    with::<{ STACK_BECH32_RESIDUE + 512 }, { STACK_BECH32_RESIDUE + 8192 }, false>(layout.0, &mut |m: &mut [u8]| {
        put(m, elements_at, elements);
        let answer = of_bech32_residue(m, STACK_BECH32_RESIDUE as u64, checksum, elements_at, elements.len() as u64, residue_at);
        if answer == 0 {
            *residue = load_32(m, residue_at);
        }
        answer
    })
}

#[cfg(feature = "correct")]
pub fn bech32_correct(checksum: u32, text: &[u8], erasures: &[usize], locations: &mut [usize], values: &mut [u8], count: &mut usize, mended: &mut [u8], mended_length: &mut usize) -> u32 {
    let values = some_mut(values);
    let mended = some_mut(mended);
    let mut layout = Layout(STACK_BECH32_CORRECT as u64);
    let text_at = layout.put(text.len());
    let erasures_at = layout.put(erasures.len().saturating_mul(8));
    let locations_at = layout.put(locations.len().saturating_mul(8));
    let values_at = layout.put(values.len());
    let count_at = layout.put(8);
    let mended_at = layout.put(mended.len());
    let mended_length_at = layout.put(8);
    with::<{ STACK_BECH32_CORRECT + 512 }, { STACK_BECH32_CORRECT + 8192 }, false>(layout.0, &mut |m: &mut [u8]| {
        put(m, text_at, text);
        put_sizes(m, erasures_at, erasures);
        put_sizes(m, locations_at, locations);
        put(m, values_at, values);
        let answer = of_bech32_correct(m, STACK_BECH32_CORRECT as u64, checksum, text_at, text.len() as u64, erasures_at, erasures.len() as u64, locations_at, locations.len() as u64, values_at, values.len() as u64, count_at, mended_at, mended.len() as u64, mended_length_at);
        if answer == 0 {
            *count = index(load_64(m, count_at));
            *mended_length = index(load_64(m, mended_length_at));
        }
        take_sizes(m, locations_at, locations);
        take(m, values_at, values);
        if answer == 0 {
            take(m, mended_at, &mut mended[..*mended_length]);
        }
        answer
    })
}

#[cfg(feature = "correct")]
pub fn bech32_nearest(checksum: u32, text: &[u8], erasures: &[usize], errors: usize, memory: usize, texts: &mut [u8], count: &mut usize) -> u32 {
    let texts = some_mut(texts);
    let mut layout = Layout(STACK_BECH32_NEAREST as u64);
    let text_at = layout.put(text.len());
    let erasures_at = layout.put(erasures.len().saturating_mul(8));
    let memory_at = layout.put(memory.saturating_add(16));
    let texts_at = layout.put(texts.len());
    let count_at = layout.put(8);
    with::<{ STACK_BECH32_NEAREST + 512 }, { STACK_BECH32_NEAREST + 8192 }, false>(layout.0, &mut |m: &mut [u8]| {
        put(m, text_at, text);
        put_sizes(m, erasures_at, erasures);
        store_64(m, memory_at, memory_at + 16);
        store_64(m, memory_at + 8, memory as u64);
        put(m, texts_at, texts);
        let answer = of_bech32_nearest(m, STACK_BECH32_NEAREST as u64, checksum, text_at, text.len() as u64, erasures_at, erasures.len() as u64, errors as u64, memory_at, texts_at, texts.len() as u64, count_at);
        if answer == 0 || answer == 92 {
            *count = index(load_64(m, count_at));
        }
        take(m, texts_at, texts);
        answer
    })
}

#[cfg(feature = "correct")]
pub fn bech32_near_edits(checksum: u32, text: &[u8], memory: usize, kinds: &mut [u8], locations: &mut [usize], texts: &mut [u8], count: &mut usize) -> u32 {
    let kinds = some_mut(kinds);
    let texts = some_mut(texts);
    let mut layout = Layout(STACK_BECH32_NEAR_EDITS as u64);
    let text_at = layout.put(text.len());
    let memory_at = layout.put(memory.saturating_add(16));
    let kinds_at = layout.put(kinds.len());
    let locations_at = layout.put(locations.len().saturating_mul(8));
    let texts_at = layout.put(texts.len());
    let count_at = layout.put(8);
    with::<{ STACK_BECH32_NEAR_EDITS + 512 }, { STACK_BECH32_NEAR_EDITS + 8192 }, false>(layout.0, &mut |m: &mut [u8]| {
        put(m, text_at, text);
        store_64(m, memory_at, memory_at + 16);
        store_64(m, memory_at + 8, memory as u64);
        put(m, kinds_at, kinds);
        put_sizes(m, locations_at, locations);
        put(m, texts_at, texts);
        let answer = of_bech32_near_edits(m, STACK_BECH32_NEAR_EDITS as u64, checksum, text_at, text.len() as u64, memory_at, kinds_at, kinds.len() as u64, locations_at, locations.len() as u64, texts_at, texts.len() as u64, count_at);
        if answer == 0 || answer == 92 {
            *count = index(load_64(m, count_at));
        }
        take(m, kinds_at, kinds);
        take_sizes(m, locations_at, locations);
        take(m, texts_at, texts);
        answer
    })
}

#[cfg(feature = "liquid")]
pub fn bech32_liquid_encode(hrp: &[u8], version: u32, key: &[u8; 33], program: &[u8], text: &mut [u8], text_length: &mut usize) -> u32 {
    let program = some(program);
    let text = some_mut(text);
    let mut layout = Layout(STACK_BECH32_LIQUID_ENCODE as u64);
    let hrp_at = layout.put(hrp.len());
    let key_at = layout.put(33);
    let program_at = layout.put(program.len());
    let text_at = layout.put(text.len());
    let text_length_at = layout.put(8);
    with::<{ STACK_BECH32_LIQUID_ENCODE + 512 }, { STACK_BECH32_LIQUID_ENCODE + 8192 }, false>(layout.0, &mut |m: &mut [u8]| {
        put(m, hrp_at, hrp);
        put(m, key_at, key);
        put(m, program_at, program);
        let answer = of_bech32_liquid_encode(m, STACK_BECH32_LIQUID_ENCODE as u64, hrp_at, hrp.len() as u64, version, key_at, program_at, program.len() as u64, text_at, text.len() as u64, text_length_at);
        if answer == 0 {
            *text_length = index(load_64(m, text_length_at));
        }
        if answer == 0 {
            take(m, text_at, &mut text[..*text_length]);
        }
        answer
    })
}

#[cfg(feature = "liquid")]
pub fn bech32_liquid_decode(text: &[u8], hrp: &mut [u8], hrp_length: &mut usize, version: &mut u32, key: &mut [u8; 33], program: &mut [u8], program_length: &mut usize) -> u32 {
    let hrp = some_mut(hrp);
    let program = some_mut(program);
    let mut layout = Layout(STACK_BECH32_LIQUID_DECODE as u64);
    let text_at = layout.put(text.len());
    let hrp_at = layout.put(hrp.len());
    let hrp_length_at = layout.put(8);
    let version_at = layout.put(8);
    let key_at = layout.put(33);
    let program_at = layout.put(program.len());
    let program_length_at = layout.put(8);
    with::<{ STACK_BECH32_LIQUID_DECODE + 512 }, { STACK_BECH32_LIQUID_DECODE + 8192 }, false>(layout.0, &mut |m: &mut [u8]| {
        put(m, text_at, text);
        put(m, key_at, key);
        let answer = of_bech32_liquid_decode(m, STACK_BECH32_LIQUID_DECODE as u64, text_at, text.len() as u64, hrp_at, hrp.len() as u64, hrp_length_at, version_at, key_at, program_at, program.len() as u64, program_length_at);
        if answer == 0 {
            *hrp_length = index(load_64(m, hrp_length_at));
            *version = load_32(m, version_at);
            *program_length = index(load_64(m, program_length_at));
        }
        if answer == 0 {
            take(m, hrp_at, &mut hrp[..*hrp_length]);
        }
        take(m, key_at, key);
        if answer == 0 {
            take(m, program_at, &mut program[..*program_length]);
        }
        answer
    })
}

#[cfg(all(feature = "correct", feature = "liquid"))]
pub fn bech32_liquid_nearest(text: &[u8], erasures: &[usize], errors: usize, memory: usize, texts: &mut [u8], count: &mut usize) -> u32 {
    let texts = some_mut(texts);
    let mut layout = Layout(STACK_BECH32_LIQUID_NEAREST as u64);
    let text_at = layout.put(text.len());
    let erasures_at = layout.put(erasures.len().saturating_mul(8));
    let memory_at = layout.put(memory.saturating_add(16));
    let texts_at = layout.put(texts.len());
    let count_at = layout.put(8);
    with::<{ STACK_BECH32_LIQUID_NEAREST + 512 }, { STACK_BECH32_LIQUID_NEAREST + 8192 }, false>(layout.0, &mut |m: &mut [u8]| {
        put(m, text_at, text);
        put_sizes(m, erasures_at, erasures);
        store_64(m, memory_at, memory_at + 16);
        store_64(m, memory_at + 8, memory as u64);
        put(m, texts_at, texts);
        let answer = of_bech32_liquid_nearest(m, STACK_BECH32_LIQUID_NEAREST as u64, text_at, text.len() as u64, erasures_at, erasures.len() as u64, errors as u64, memory_at, texts_at, texts.len() as u64, count_at);
        if answer == 0 || answer == 92 {
            *count = index(load_64(m, count_at));
        }
        take(m, texts_at, texts);
        answer
    })
}

#[cfg(feature = "descriptor")]
pub fn bech32_descriptor_checksum(text: &[u8], checksum: &mut [u8], checksum_length: &mut usize, place: &mut usize) -> u32 {
    let checksum = some_mut(checksum);
    let mut layout = Layout(STACK_BECH32_DESCRIPTOR_CHECKSUM as u64);
    let text_at = layout.put(text.len());
    let checksum_at = layout.put(checksum.len());
    let checksum_length_at = layout.put(8);
    let place_at = layout.put(8);
    with::<{ STACK_BECH32_DESCRIPTOR_CHECKSUM + 512 }, { STACK_BECH32_DESCRIPTOR_CHECKSUM + 8192 }, true>(layout.0, &mut |m: &mut [u8]| {
        put(m, text_at, text);
        let answer = of_bech32_descriptor_checksum(m, STACK_BECH32_DESCRIPTOR_CHECKSUM as u64, text_at, text.len() as u64, checksum_at, checksum.len() as u64, checksum_length_at, place_at);
        if answer == 0 {
            *checksum_length = index(load_64(m, checksum_length_at));
        }
        if answer == 80 {
            *place = index(load_64(m, place_at));
        }
        if answer == 0 {
            take(m, checksum_at, &mut checksum[..*checksum_length]);
        }
        answer
    })
}

#[cfg(feature = "descriptor")]
pub fn bech32_descriptor_check(text: &[u8], place: &mut usize) -> u32 {
    let mut layout = Layout(STACK_BECH32_DESCRIPTOR_CHECK as u64);
    let text_at = layout.put(text.len());
    let place_at = layout.put(8);
    with::<{ STACK_BECH32_DESCRIPTOR_CHECK + 512 }, { STACK_BECH32_DESCRIPTOR_CHECK + 8192 }, true>(layout.0, &mut |m: &mut [u8]| {
        put(m, text_at, text);
        let answer = of_bech32_descriptor_check(m, STACK_BECH32_DESCRIPTOR_CHECK as u64, text_at, text.len() as u64, place_at);
        if answer == 80 {
            *place = index(load_64(m, place_at));
        }
        answer
    })
}

#[cfg(feature = "descriptor")]
pub fn bech32_descriptor_mend(text: &[u8], changed: usize, memory: usize, kinds: &mut [u8], places: &mut [usize], texts: &mut [u8], count: &mut usize) -> u32 {
    let kinds = some_mut(kinds);
    let texts = some_mut(texts);
    let mut layout = Layout(STACK_BECH32_DESCRIPTOR_MEND as u64);
    let text_at = layout.put(text.len());
    let memory_at = layout.put(memory.saturating_add(16));
    let kinds_at = layout.put(kinds.len());
    let places_at = layout.put(places.len().saturating_mul(8));
    let texts_at = layout.put(texts.len());
    let count_at = layout.put(8);
    with::<{ STACK_BECH32_DESCRIPTOR_MEND + 512 }, { STACK_BECH32_DESCRIPTOR_MEND + 8192 }, true>(layout.0, &mut |m: &mut [u8]| {
        put(m, text_at, text);
        store_64(m, memory_at, memory_at + 16);
        store_64(m, memory_at + 8, memory as u64);
        put(m, kinds_at, kinds);
        put_sizes(m, places_at, places);
        put(m, texts_at, texts);
        let answer = of_bech32_descriptor_mend(m, STACK_BECH32_DESCRIPTOR_MEND as u64, text_at, text.len() as u64, changed as u64, memory_at, kinds_at, kinds.len() as u64, places_at, places.len() as u64, texts_at, texts.len() as u64, count_at);
        if answer == 0 || answer == 92 {
            *count = index(load_64(m, count_at));
        }
        take(m, kinds_at, kinds);
        take_sizes(m, places_at, places);
        take(m, texts_at, texts);
        answer
    })
}

#[cfg(feature = "descriptor")]
pub fn bech32_descriptor_mend_two(text: &[u8], memory: usize, places: &mut [usize], texts: &mut [u8], count: &mut usize) -> u32 {
    let texts = some_mut(texts);
    let mut layout = Layout(STACK_BECH32_DESCRIPTOR_MEND_TWO as u64);
    let text_at = layout.put(text.len());
    let memory_at = layout.put(memory.saturating_add(16));
    let places_at = layout.put(places.len().saturating_mul(8));
    let texts_at = layout.put(texts.len());
    let count_at = layout.put(8);
    with::<{ STACK_BECH32_DESCRIPTOR_MEND_TWO + 512 }, { STACK_BECH32_DESCRIPTOR_MEND_TWO + 8192 }, true>(layout.0, &mut |m: &mut [u8]| {
        put(m, text_at, text);
        store_64(m, memory_at, memory_at + 16);
        store_64(m, memory_at + 8, memory as u64);
        put_sizes(m, places_at, places);
        put(m, texts_at, texts);
        let answer = of_bech32_descriptor_mend_two(m, STACK_BECH32_DESCRIPTOR_MEND_TWO as u64, text_at, text.len() as u64, memory_at, places_at, places.len() as u64, texts_at, texts.len() as u64, count_at);
        if answer == 0 || answer == 92 {
            *count = index(load_64(m, count_at));
        }
        take_sizes(m, places_at, places);
        take(m, texts_at, texts);
        answer
    })
}

#[cfg(feature = "correct")]
pub fn bech32_suggest(text: &[u8], hrp: &[u8], memory: usize, kinds: &mut [u8], places: &mut [usize], texts: &mut [u8], count: &mut usize) -> u32 {
    let kinds = some_mut(kinds);
    let texts = some_mut(texts);
    let mut layout = Layout(STACK_BECH32_SUGGEST as u64);
    let text_at = layout.put(text.len());
    let hrp_at = layout.put(hrp.len());
    let memory_at = layout.put(memory.saturating_add(16));
    let kinds_at = layout.put(kinds.len());
    let places_at = layout.put(places.len().saturating_mul(8));
    let texts_at = layout.put(texts.len());
    let count_at = layout.put(8);
    with::<{ STACK_BECH32_SUGGEST + 512 }, { STACK_BECH32_SUGGEST + 8192 }, false>(layout.0, &mut |m: &mut [u8]| {
        put(m, text_at, text);
        put(m, hrp_at, hrp);
        store_64(m, memory_at, memory_at + 16);
        store_64(m, memory_at + 8, memory as u64);
        put(m, kinds_at, kinds);
        put_sizes(m, places_at, places);
        put(m, texts_at, texts);
        let answer = of_bech32_suggest(m, STACK_BECH32_SUGGEST as u64, text_at, text.len() as u64, hrp_at, hrp.len() as u64, memory_at, kinds_at, kinds.len() as u64, places_at, places.len() as u64, texts_at, texts.len() as u64, count_at);
        if answer == 0 || answer == 92 {
            *count = index(load_64(m, count_at));
        }
        take(m, kinds_at, kinds);
        take_sizes(m, places_at, places);
        take(m, texts_at, texts);
        answer
    })
}

#[cfg(feature = "columns")]
pub fn bech32_check_many(checksum: u32, texts: &Column<'_>, first: usize, numbers: &mut [u8]) -> u32 {
    let Some(texts_part) = Part::of(texts, first, numbers.len()) else {
        return 4;
    };
    let mut layout = Layout(STACK_BECH32_CHECK_MANY as u64);
    let texts_at = layout.put(texts_part.size());
    let numbers_at = layout.put(numbers.len());
    with::<{ STACK_BECH32_CHECK_MANY + 512 }, { STACK_BECH32_CHECK_MANY + 8192 }, false>(layout.0, &mut |m: &mut [u8]| {
        texts_part.put(m, texts_at);
        put(m, numbers_at, numbers);
        let answer = of_bech32_check_many(m, STACK_BECH32_CHECK_MANY as u64, checksum, texts_at, (first % 8) as u64, numbers_at, numbers.len() as u64);
        take(m, numbers_at, numbers);
        answer
    })
}

#[cfg(feature = "columns")]
pub fn bech32_segwit_decode_many(texts: &Column<'_>, first: usize, hrp: &[u8], numbers: &mut [u8], versions: &mut [u8], hrp_lengths: &mut [u8], program_offsets: &mut [i32], programs: &mut [u8], done: &mut usize) -> u32 {
    let Some(texts_part) = Part::of(texts, first, numbers.len()) else {
        return 4;
    };
    let mut layout = Layout(STACK_BECH32_SEGWIT_DECODE_MANY as u64);
    let texts_at = layout.put(texts_part.size());
    let hrp_at = layout.put(hrp.len());
    let numbers_at = layout.put(numbers.len());
    let versions_at = layout.put(versions.len());
    let hrp_lengths_at = layout.put(hrp_lengths.len());
    let program_offsets_at = layout.put(program_offsets.len().saturating_mul(4));
    let programs_at = layout.put(programs.len());
    let done_at = layout.put(8);
    with::<{ STACK_BECH32_SEGWIT_DECODE_MANY + 512 }, { STACK_BECH32_SEGWIT_DECODE_MANY + 8192 }, false>(layout.0, &mut |m: &mut [u8]| {
        texts_part.put(m, texts_at);
        put(m, hrp_at, hrp);
        put(m, numbers_at, numbers);
        put(m, versions_at, versions);
        put(m, hrp_lengths_at, hrp_lengths);
        put_offsets(m, program_offsets_at, program_offsets);
        put(m, programs_at, programs);
        let answer = of_bech32_segwit_decode_many(m, STACK_BECH32_SEGWIT_DECODE_MANY as u64, texts_at, (first % 8) as u64, hrp_at, hrp.len() as u64, numbers_at, numbers.len() as u64, versions_at, versions.len() as u64, hrp_lengths_at, hrp_lengths.len() as u64, program_offsets_at, program_offsets.len() as u64, programs_at, programs.len() as u64, done_at);
        if answer == 0 || answer == 92 {
            *done = index(load_64(m, done_at));
        }
        take(m, numbers_at, numbers);
        take(m, versions_at, versions);
        take(m, hrp_lengths_at, hrp_lengths);
        take_offsets(m, program_offsets_at, program_offsets);
        take(m, programs_at, programs);
        answer
    })
}

#[cfg(feature = "columns")]
pub fn bech32_segwit_encode_many(hrp: &[u8], versions: &[u8], programs: &Column<'_>, first: usize, numbers: &mut [u8], text_offsets: &mut [i32], texts: &mut [u8], done: &mut usize) -> u32 {
    let Some(programs_part) = Part::of(programs, first, numbers.len()) else {
        return 4;
    };
    if versions.len() < numbers.len() {
        return 4;
    }
    let mut layout = Layout(STACK_BECH32_SEGWIT_ENCODE_MANY as u64);
    let hrp_at = layout.put(hrp.len());
    let versions_at = layout.put(versions.len());
    let programs_at = layout.put(programs_part.size());
    let numbers_at = layout.put(numbers.len());
    let text_offsets_at = layout.put(text_offsets.len().saturating_mul(4));
    let texts_at = layout.put(texts.len());
    let done_at = layout.put(8);
    with::<{ STACK_BECH32_SEGWIT_ENCODE_MANY + 512 }, { STACK_BECH32_SEGWIT_ENCODE_MANY + 8192 }, false>(layout.0, &mut |m: &mut [u8]| {
        put(m, hrp_at, hrp);
        put(m, versions_at, versions);
        programs_part.put(m, programs_at);
        put(m, numbers_at, numbers);
        put_offsets(m, text_offsets_at, text_offsets);
        put(m, texts_at, texts);
        let answer = of_bech32_segwit_encode_many(m, STACK_BECH32_SEGWIT_ENCODE_MANY as u64, hrp_at, hrp.len() as u64, versions_at, versions.len() as u64, programs_at, (first % 8) as u64, numbers_at, numbers.len() as u64, text_offsets_at, text_offsets.len() as u64, texts_at, texts.len() as u64, done_at);
        if answer == 0 || answer == 92 {
            *done = index(load_64(m, done_at));
        }
        take(m, numbers_at, numbers);
        take_offsets(m, text_offsets_at, text_offsets);
        take(m, texts_at, texts);
        answer
    })
}

#[cfg(feature = "columns")]
pub fn bech32_validity_of(numbers: &[u8], validity: &mut [u8], accepted: &mut usize) -> u32 {
    let validity = some_mut(validity);
    let mut layout = Layout(STACK_BECH32_VALIDITY_OF as u64);
    let numbers_at = layout.put(numbers.len());
    let validity_at = layout.put(validity.len());
    let accepted_at = layout.put(8);
    with::<{ STACK_BECH32_VALIDITY_OF + 512 }, { STACK_BECH32_VALIDITY_OF + 8192 }, false>(layout.0, &mut |m: &mut [u8]| {
        put(m, numbers_at, numbers);
        put(m, validity_at, validity);
        let answer = of_bech32_validity_of(m, STACK_BECH32_VALIDITY_OF as u64, numbers_at, numbers.len() as u64, validity_at, validity.len() as u64, accepted_at);
        if answer == 0 {
            *accepted = index(load_64(m, accepted_at));
        }
        take(m, validity_at, validity);
        answer
    })
}
