/* Made by tools/make (tools/make.d/machine_calls) from include/codex32.h; do not edit. */

uint32_t codex32_message(uint32_t number, uint8_t *message, size_t message_room, size_t *message_length) {
    NUMBERS(1);
    MACHINE(codex32_message);
    u64 message_size = SOME(message_room), message_at = lend_room(&m, message, message_size);
    u64 at = lend_room(&m, numbers, sizeof number_words);
    uint32_t answer = of_codex32_message(&m, number, message_at, message_size, at);
    if (answer == CODEX32_OK) {
        *message_length = (size_t)get_64(numbers);
    }
    return answer;
}

uint32_t codex32_version(void) {
    MACHINE(codex32_version);
    uint32_t answer = of_codex32_version(&m);
    return answer;
}

uint32_t codex32_parse(const uint8_t *text, size_t text_length, uint32_t *threshold, uint32_t *share_index,
                       size_t *payload_length) {
    NUMBERS(3);
    if (IS_TOO_LONG(text_length)) {
        return CODEX32_NO_MEMORY;
    }
    MACHINE(codex32_parse);
    u64 text_at = lend(&m, text, text_length);
    u64 at = lend_room(&m, numbers, sizeof number_words);
    uint32_t answer = of_codex32_parse(&m, text_at, text_length, at, at + 8, at + 16);
    if (answer == CODEX32_OK) {
        *threshold = get_32(numbers);
        *share_index = get_32(numbers + 8);
        *payload_length = (size_t)get_64(numbers + 16);
    }
    wipe(stack, sizeof stack);
    return answer;
}

uint32_t codex32_share(const uint8_t *text, size_t text_length, uint32_t *threshold,
                       uint8_t identifier[CODEX32_IDENTIFIER_LENGTH], uint32_t *share_index, uint8_t *bytes,
                       size_t bytes_room, size_t *bytes_length) {
    NUMBERS(3);
    if (IS_TOO_LONG(text_length)) {
        return CODEX32_NO_MEMORY;
    }
    MACHINE(codex32_share);
    u64 text_at = lend(&m, text, text_length);
    u64 identifier_at = lend_room(&m, identifier, CODEX32_IDENTIFIER_LENGTH);
    u64 bytes_size = SOME(bytes_room), bytes_at = lend_room(&m, bytes, bytes_size);
    u64 at = lend_room(&m, numbers, sizeof number_words);
    uint32_t answer = of_codex32_share(&m, text_at, text_length, at, identifier_at, at + 8, bytes_at, bytes_size,
                                       at + 16);
    if (answer == CODEX32_OK) {
        *threshold = get_32(numbers);
        *share_index = get_32(numbers + 8);
        *bytes_length = (size_t)get_64(numbers + 16);
    }
    wipe(stack, sizeof stack);
    return answer;
}

uint32_t codex32_encode(uint32_t threshold, const uint8_t *identifier, size_t identifier_length, uint32_t share_index,
                        const uint8_t *bytes, size_t bytes_length, uint8_t *text, size_t text_room,
                        size_t *text_length) {
    NUMBERS(1);
    MACHINE(codex32_encode);
    u64 identifier_size = SOME(identifier_length), identifier_at = lend(&m, identifier, identifier_size);
    u64 bytes_size = SOME(bytes_length), bytes_at = lend(&m, bytes, bytes_size);
    u64 text_size = SOME(text_room), text_at = lend_room(&m, text, text_size);
    u64 at = lend_room(&m, numbers, sizeof number_words);
    uint32_t answer = of_codex32_encode(&m, threshold, identifier_at, identifier_size, share_index, bytes_at,
                                        bytes_size, text_at, text_size, at);
    if (answer == CODEX32_OK) {
        *text_length = (size_t)get_64(numbers);
    }
    wipe(stack, sizeof stack);
    return answer;
}

uint32_t codex32_encode_payload(uint32_t threshold, const uint8_t *identifier, size_t identifier_length,
                                uint32_t share_index, const uint8_t *payload, size_t payload_length, uint8_t *text,
                                size_t text_room, size_t *text_length) {
    NUMBERS(1);
    if (IS_TOO_LONG(payload_length)) {
        return CODEX32_NO_MEMORY;
    }
    MACHINE(codex32_encode_payload);
    u64 identifier_size = SOME(identifier_length), identifier_at = lend(&m, identifier, identifier_size);
    u64 payload_at = lend(&m, payload, payload_length);
    u64 text_size = SOME(text_room), text_at = lend_room(&m, text, text_size);
    u64 at = lend_room(&m, numbers, sizeof number_words);
    uint32_t answer = of_codex32_encode_payload(&m, threshold, identifier_at, identifier_size, share_index,
                                                payload_at, payload_length, text_at, text_size, at);
    if (answer == CODEX32_OK) {
        *text_length = (size_t)get_64(numbers);
    }
    wipe(stack, sizeof stack);
    return answer;
}

uint32_t codex32_derive(uint32_t share_index, const uint8_t *texts, size_t texts_length, const size_t *lengths,
                        size_t count, uint8_t *text, size_t text_room, size_t *text_length) {
    GIVEN(CODEX32_MAX_SHARES + 1u);
    NUMBERS(1);
    if (IS_TOO_LONG(texts_length)) {
        return CODEX32_NO_MEMORY;
    }
    MACHINE(codex32_derive);
    u64 given_count = put_lengths(given, lengths, count), given_at = lend(&m, given, 8 * given_count);
    u64 texts_at = lend(&m, texts, texts_length);
    u64 text_size = SOME(text_room), text_at = lend_room(&m, text, text_size);
    u64 at = lend_room(&m, numbers, sizeof number_words);
    uint32_t answer = of_codex32_derive(&m, share_index, texts_at, texts_length, given_at, given_count, text_at,
                                        text_size, at);
    if (answer == CODEX32_OK) {
        *text_length = (size_t)get_64(numbers);
    }
    wipe(stack, sizeof stack);
    return answer;
}

uint32_t codex32_split(uint32_t threshold, const uint8_t *identifier, size_t identifier_length, const uint8_t *secret,
                       size_t secret_length, const uint8_t *random, size_t random_length, size_t count,
                       uint8_t *texts, size_t texts_room, size_t *text_length) {
    NUMBERS(1);
    MACHINE(codex32_split);
    u64 identifier_size = SOME(identifier_length), identifier_at = lend(&m, identifier, identifier_size);
    u64 secret_size = SOME(secret_length), secret_at = lend(&m, secret, secret_size);
    u64 random_size = SOME(random_length), random_at = lend(&m, random, random_size);
    u64 texts_size = SOME(texts_room), texts_at = lend_room(&m, texts, texts_size);
    u64 at = lend_room(&m, numbers, sizeof number_words);
    uint32_t answer = of_codex32_split(&m, threshold, identifier_at, identifier_size, secret_at, secret_size,
                                       random_at, random_size, count, texts_at, texts_size, at);
    if (answer == CODEX32_OK) {
        *text_length = (size_t)get_64(numbers);
    }
    wipe(stack, sizeof stack);
    return answer;
}

uint32_t codex32_recover(const uint8_t *texts, size_t texts_length, const size_t *lengths, size_t count,
                         uint8_t *bytes, size_t bytes_room, size_t *bytes_length) {
    GIVEN(CODEX32_MAX_SHARES + 1u);
    NUMBERS(1);
    if (IS_TOO_LONG(texts_length)) {
        return CODEX32_NO_MEMORY;
    }
    MACHINE(codex32_recover);
    u64 given_count = put_lengths(given, lengths, count), given_at = lend(&m, given, 8 * given_count);
    u64 texts_at = lend(&m, texts, texts_length);
    u64 bytes_size = SOME(bytes_room), bytes_at = lend_room(&m, bytes, bytes_size);
    u64 at = lend_room(&m, numbers, sizeof number_words);
    uint32_t answer = of_codex32_recover(&m, texts_at, texts_length, given_at, given_count, bytes_at, bytes_size, at);
    if (answer == CODEX32_OK) {
        *bytes_length = (size_t)get_64(numbers);
    }
    wipe(stack, sizeof stack);
    return answer;
}

uint32_t codex32_propose(const uint8_t *text, size_t text_length, codex32_memory *memory, uint8_t *proposed,
                         size_t proposed_room, size_t *proposed_length) {
    NUMBERS(3);
    if (IS_TOO_LONG(text_length)) {
        return CODEX32_NO_MEMORY;
    }
    MACHINE(codex32_propose);
    u64 text_at = lend(&m, text, text_length);
    u64 proposed_size = SOME(proposed_room), proposed_at = lend_room(&m, proposed, proposed_size);
    u64 memory_size = SOME(memory->size), memory_at = lend_room(&m, memory->start, memory_size);
    u64 at = lend_room(&m, numbers, sizeof number_words);
    put_64(numbers + 8, memory_at);
    put_64(numbers + 16, memory_size);
    uint32_t answer = of_codex32_propose(&m, text_at, text_length, at + 8, proposed_at, proposed_size, at);
    if (answer == CODEX32_OK) {
        *proposed_length = (size_t)get_64(numbers);
    }
    if (get_64(numbers + 16) == 0) {
        memory->size = 0;
    }
    wipe(stack, sizeof stack);
    return answer;
}

uint32_t codex32_propose_long(const uint8_t *text, size_t text_length, codex32_memory *memory, uint8_t *proposed,
                              size_t proposed_room, size_t *proposed_length) {
    NUMBERS(3);
    if (IS_TOO_LONG(text_length)) {
        return CODEX32_NO_MEMORY;
    }
    MACHINE(codex32_propose_long);
    u64 text_at = lend(&m, text, text_length);
    u64 proposed_size = SOME(proposed_room), proposed_at = lend_room(&m, proposed, proposed_size);
    u64 memory_size = SOME(memory->size), memory_at = lend_room(&m, memory->start, memory_size);
    u64 at = lend_room(&m, numbers, sizeof number_words);
    put_64(numbers + 8, memory_at);
    put_64(numbers + 16, memory_size);
    uint32_t answer = of_codex32_propose_long(&m, text_at, text_length, at + 8, proposed_at, proposed_size, at);
    if (answer == CODEX32_OK) {
        *proposed_length = (size_t)get_64(numbers);
    }
    if (get_64(numbers + 16) == 0) {
        memory->size = 0;
    }
    wipe(stack, sizeof stack);
    return answer;
}
