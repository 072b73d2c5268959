// Made by tools/make (tools/make.d/native_calls) from include/codex32.h; do not edit.

pub fn codex32_message(number: u32, message: &mut [u8], message_length: &mut usize) -> u32 {
    let message = some_mut(message);
    let mut layout = Layout(STACK_CODEX32_MESSAGE as u64);
    let message_at = layout.put(message.len());
    let message_length_at = layout.put(8);
    with::<{ STACK_CODEX32_MESSAGE + 512 }, { STACK_CODEX32_MESSAGE + 8192 }, false>(layout.0, &mut |m: &mut [u8]| {
        let answer = of_codex32_message(m, STACK_CODEX32_MESSAGE as u64, number, message_at, message.len() as u64, message_length_at);
        if answer == 0 {
            *message_length = index(load_64(m, message_length_at));
        }
        if answer == 0 {
            take(m, message_at, &mut message[..*message_length]);
        }
        answer
    })
}

pub fn codex32_version() -> u32 {
    let layout = Layout(STACK_CODEX32_VERSION as u64);
    with::<{ STACK_CODEX32_VERSION + 512 }, { STACK_CODEX32_VERSION + 8192 }, false>(layout.0, &mut |m: &mut [u8]| {
        let answer = of_codex32_version(m, STACK_CODEX32_VERSION as u64);
        answer
    })
}

pub fn codex32_parse(text: &[u8], threshold: &mut u32, share_index: &mut u32, payload_length: &mut usize) -> u32 {
    let mut layout = Layout(STACK_CODEX32_PARSE as u64);
    let text_at = layout.put(text.len());
    let threshold_at = layout.put(8);
    let share_index_at = layout.put(8);
    let payload_length_at = layout.put(8);
    with::<{ STACK_CODEX32_PARSE + 512 }, { STACK_CODEX32_PARSE + 8192 }, true>(layout.0, &mut |m: &mut [u8]| {
        put(m, text_at, text);
        let answer = of_codex32_parse(m, STACK_CODEX32_PARSE as u64, text_at, text.len() as u64, threshold_at, share_index_at, payload_length_at);
        if answer == 0 {
            *threshold = load_32(m, threshold_at);
            *share_index = load_32(m, share_index_at);
            *payload_length = index(load_64(m, payload_length_at));
        }
        answer
    })
}

pub fn codex32_share(text: &[u8], threshold: &mut u32, identifier: &mut [u8; 4], share_index: &mut u32, bytes: &mut [u8], bytes_length: &mut usize) -> u32 {
    let bytes = some_mut(bytes);
    let mut layout = Layout(STACK_CODEX32_SHARE as u64);
    let text_at = layout.put(text.len());
    let threshold_at = layout.put(8);
    let identifier_at = layout.put(4);
    let share_index_at = layout.put(8);
    let bytes_at = layout.put(bytes.len());
    let bytes_length_at = layout.put(8);
    with::<{ STACK_CODEX32_SHARE + 512 }, { STACK_CODEX32_SHARE + 8192 }, true>(layout.0, &mut |m: &mut [u8]| {
        put(m, text_at, text);
        put(m, identifier_at, identifier);
        let answer = of_codex32_share(m, STACK_CODEX32_SHARE as u64, text_at, text.len() as u64, threshold_at, identifier_at, share_index_at, bytes_at, bytes.len() as u64, bytes_length_at);
        if answer == 0 {
            *threshold = load_32(m, threshold_at);
            *share_index = load_32(m, share_index_at);
            *bytes_length = index(load_64(m, bytes_length_at));
        }
        take(m, identifier_at, identifier);
        if answer == 0 {
            take(m, bytes_at, &mut bytes[..*bytes_length]);
        }
        answer
    })
}

pub fn codex32_encode(threshold: u32, identifier: &[u8], share_index: u32, bytes: &[u8], text: &mut [u8], text_length: &mut usize) -> u32 {
    let identifier = some(identifier);
    let bytes = some(bytes);
    let text = some_mut(text);
    let mut layout = Layout(STACK_CODEX32_ENCODE as u64);
    let identifier_at = layout.put(identifier.len());
    let bytes_at = layout.put(bytes.len());
    let text_at = layout.put(text.len());
    let text_length_at = layout.put(8);
    with::<{ STACK_CODEX32_ENCODE + 512 }, { STACK_CODEX32_ENCODE + 8192 }, true>(layout.0, &mut |m: &mut [u8]| {
        put(m, identifier_at, identifier);
        put(m, bytes_at, bytes);
        let answer = of_codex32_encode(m, STACK_CODEX32_ENCODE as u64, threshold, identifier_at, identifier.len() as u64, share_index, bytes_at, bytes.len() as u64, text_at, text.len() as u64, text_length_at);
        if answer == 0 {
            *text_length = index(load_64(m, text_length_at));
        }
        if answer == 0 {
            take(m, text_at, &mut text[..*text_length]);
        }
        answer
    })
}

pub fn codex32_encode_payload(threshold: u32, identifier: &[u8], share_index: u32, payload: &[u8], text: &mut [u8], text_length: &mut usize) -> u32 {
    let identifier = some(identifier);
    let text = some_mut(text);
    let mut layout = Layout(STACK_CODEX32_ENCODE_PAYLOAD as u64);
    let identifier_at = layout.put(identifier.len());
    let payload_at = layout.put(payload.len());
    let text_at = layout.put(text.len());
    let text_length_at = layout.put(8);
    with::<{ STACK_CODEX32_ENCODE_PAYLOAD + 512 }, { STACK_CODEX32_ENCODE_PAYLOAD + 8192 }, true>(layout.0, &mut |m: &mut [u8]| {
        put(m, identifier_at, identifier);
        put(m, payload_at, payload);
        let answer = of_codex32_encode_payload(m, STACK_CODEX32_ENCODE_PAYLOAD as u64, threshold, identifier_at, identifier.len() as u64, share_index, payload_at, payload.len() as u64, text_at, text.len() as u64, text_length_at);
        if answer == 0 {
            *text_length = index(load_64(m, text_length_at));
        }
        if answer == 0 {
            take(m, text_at, &mut text[..*text_length]);
        }
        answer
    })
}

pub fn codex32_derive(share_index: u32, texts: &[u8], lengths: &[usize], text: &mut [u8], text_length: &mut usize) -> u32 {
    let text = some_mut(text);
    let mut layout = Layout(STACK_CODEX32_DERIVE as u64);
    let texts_at = layout.put(texts.len());
    let lengths_at = layout.put(lengths.len().saturating_mul(8));
    let text_at = layout.put(text.len());
    let text_length_at = layout.put(8);
    with::<{ STACK_CODEX32_DERIVE + 512 }, { STACK_CODEX32_DERIVE + 8192 }, true>(layout.0, &mut |m: &mut [u8]| {
        put(m, texts_at, texts);
        put_sizes(m, lengths_at, lengths);
        let answer = of_codex32_derive(m, STACK_CODEX32_DERIVE as u64, share_index, texts_at, texts.len() as u64, lengths_at, lengths.len() as u64, text_at, text.len() as u64, text_length_at);
        if answer == 0 {
            *text_length = index(load_64(m, text_length_at));
        }
        if answer == 0 {
            take(m, text_at, &mut text[..*text_length]);
        }
        answer
    })
}

pub fn codex32_split(threshold: u32, identifier: &[u8], secret: &[u8], random: &[u8], count: usize, texts: &mut [u8], text_length: &mut usize) -> u32 {
    let identifier = some(identifier);
    let secret = some(secret);
    let random = some(random);
    let texts = some_mut(texts);
    let mut layout = Layout(STACK_CODEX32_SPLIT as u64);
    let identifier_at = layout.put(identifier.len());
    let secret_at = layout.put(secret.len());
    let random_at = layout.put(random.len());
    let texts_at = layout.put(texts.len());
    let text_length_at = layout.put(8);
    with::<{ STACK_CODEX32_SPLIT + 512 }, { STACK_CODEX32_SPLIT + 8192 }, true>(layout.0, &mut |m: &mut [u8]| {
        put(m, identifier_at, identifier);
        put(m, secret_at, secret);
        put(m, random_at, random);
        put(m, texts_at, texts);
        let answer = of_codex32_split(m, STACK_CODEX32_SPLIT as u64, threshold, identifier_at, identifier.len() as u64, secret_at, secret.len() as u64, random_at, random.len() as u64, count as u64, texts_at, texts.len() as u64, text_length_at);
        if answer == 0 {
            *text_length = index(load_64(m, text_length_at));
        }
        take(m, texts_at, texts);
        answer
    })
}

pub fn codex32_recover(texts: &[u8], lengths: &[usize], bytes: &mut [u8], bytes_length: &mut usize) -> u32 {
    let bytes = some_mut(bytes);
    let mut layout = Layout(STACK_CODEX32_RECOVER as u64);
    let texts_at = layout.put(texts.len());
    let lengths_at = layout.put(lengths.len().saturating_mul(8));
    let bytes_at = layout.put(bytes.len());
    let bytes_length_at = layout.put(8);
    with::<{ STACK_CODEX32_RECOVER + 512 }, { STACK_CODEX32_RECOVER + 8192 }, true>(layout.0, &mut |m: &mut [u8]| {
        put(m, texts_at, texts);
        put_sizes(m, lengths_at, lengths);
        let answer = of_codex32_recover(m, STACK_CODEX32_RECOVER as u64, texts_at, texts.len() as u64, lengths_at, lengths.len() as u64, bytes_at, bytes.len() as u64, bytes_length_at);
        if answer == 0 {
            *bytes_length = index(load_64(m, bytes_length_at));
        }
        if answer == 0 {
            take(m, bytes_at, &mut bytes[..*bytes_length]);
        }
        answer
    })
}

pub fn codex32_propose(text: &[u8], memory: usize, proposed: &mut [u8], proposed_length: &mut usize) -> u32 {
    let proposed = some_mut(proposed);
    let mut layout = Layout(STACK_CODEX32_PROPOSE as u64);
    let text_at = layout.put(text.len());
    let memory_at = layout.put(memory.saturating_add(16));
    let proposed_at = layout.put(proposed.len());
    let proposed_length_at = layout.put(8);
    with::<{ STACK_CODEX32_PROPOSE + 512 }, { STACK_CODEX32_PROPOSE + 8192 }, true>(layout.0, &mut |m: &mut [u8]| {
        put(m, text_at, text);
        store_64(m, memory_at, memory_at + 16);
        store_64(m, memory_at + 8, memory as u64);
        let answer = of_codex32_propose(m, STACK_CODEX32_PROPOSE as u64, text_at, text.len() as u64, memory_at, proposed_at, proposed.len() as u64, proposed_length_at);
        if answer == 0 {
            *proposed_length = index(load_64(m, proposed_length_at));
        }
        if answer == 0 {
            take(m, proposed_at, &mut proposed[..*proposed_length]);
        }
        answer
    })
}

pub fn codex32_propose_long(text: &[u8], memory: usize, proposed: &mut [u8], proposed_length: &mut usize) -> u32 {
    let proposed = some_mut(proposed);
    let mut layout = Layout(STACK_CODEX32_PROPOSE_LONG as u64);
    let text_at = layout.put(text.len());
    let memory_at = layout.put(memory.saturating_add(16));
    let proposed_at = layout.put(proposed.len());
    let proposed_length_at = layout.put(8);
    with::<{ STACK_CODEX32_PROPOSE_LONG + 512 }, { STACK_CODEX32_PROPOSE_LONG + 8192 }, true>(layout.0, &mut |m: &mut [u8]| {
        put(m, text_at, text);
        store_64(m, memory_at, memory_at + 16);
        store_64(m, memory_at + 8, memory as u64);
        let answer = of_codex32_propose_long(m, STACK_CODEX32_PROPOSE_LONG as u64, text_at, text.len() as u64, memory_at, proposed_at, proposed.len() as u64, proposed_length_at);
        if answer == 0 {
            *proposed_length = index(load_64(m, proposed_length_at));
        }
        if answer == 0 {
            take(m, proposed_at, &mut proposed[..*proposed_length]);
        }
        answer
    })
}
