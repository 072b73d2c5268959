/* Made by tools/make (tools/make.d/machine_calls) from include/bech32.h; do not edit. */

uint32_t bech32_message(uint32_t number, uint8_t *message, size_t message_room, size_t *message_length) {
    NUMBERS(1);
    MACHINE(bech32_message);
    u64 message_size = SOME(message_room), message_at = lend_room(&m, message, message_size);
    u64 at = lend_room(&m, numbers, sizeof number_words);
    uint32_t answer = of_bech32_message(&m, number, message_at, message_size, at);
    if (answer == BECH32_OK) {
        *message_length = (size_t)get_64(numbers);
    }
    return answer;
}

uint32_t bech32_version(void) {
    MACHINE(bech32_version);
    uint32_t answer = of_bech32_version(&m);
    return answer;
}

uint32_t bech32_encode(uint32_t checksum, const uint8_t *hrp, size_t hrp_length, const uint8_t *bytes,
                       size_t bytes_length, uint8_t *text, size_t text_room, size_t *text_length) {
    NUMBERS(1);
    if (IS_TOO_LONG(hrp_length)) {
        return BECH32_NO_MEMORY;
    }
    MACHINE(bech32_encode);
    u64 hrp_at = lend(&m, hrp, hrp_length);
    u64 bytes_size = SOME(bytes_length), bytes_at = lend(&m, bytes, bytes_size);
    u64 text_size = SOME(text_room), text_at = lend_room(&m, text, text_size);
    u64 at = lend_room(&m, numbers, sizeof number_words);
    uint32_t answer = of_bech32_encode(&m, checksum, hrp_at, hrp_length, bytes_at, bytes_size, text_at, text_size,
                                       at);
    if (answer == BECH32_OK) {
        *text_length = (size_t)get_64(numbers);
    }
    return answer;
}

uint32_t bech32_decode(const uint8_t *text, size_t text_length, uint8_t *hrp, size_t hrp_room, size_t *hrp_length,
                       uint8_t *bytes, size_t bytes_room, size_t *bytes_length) {
    NUMBERS(2);
    if (IS_TOO_LONG(text_length)) {
        return BECH32_NO_MEMORY;
    }
    MACHINE(bech32_decode);
    u64 text_at = lend(&m, text, text_length);
    u64 hrp_size = SOME(hrp_room), hrp_at = lend_room(&m, hrp, hrp_size);
    u64 bytes_size = SOME(bytes_room), bytes_at = lend_room(&m, bytes, bytes_size);
    u64 at = lend_room(&m, numbers, sizeof number_words);
    uint32_t answer = of_bech32_decode(&m, text_at, text_length, hrp_at, hrp_size, at, bytes_at, bytes_size, at + 8);
    if (answer == BECH32_OK) {
        *hrp_length = (size_t)get_64(numbers);
        *bytes_length = (size_t)get_64(numbers + 8);
    }
    return answer;
}

uint32_t bech32_decode_strict(uint32_t checksum, const uint8_t *text, size_t text_length, uint8_t *hrp,
                              size_t hrp_room, size_t *hrp_length, uint8_t *bytes, size_t bytes_room,
                              size_t *bytes_length) {
    NUMBERS(2);
    if (IS_TOO_LONG(text_length)) {
        return BECH32_NO_MEMORY;
    }
    MACHINE(bech32_decode_strict);
    u64 text_at = lend(&m, text, text_length);
    u64 hrp_size = SOME(hrp_room), hrp_at = lend_room(&m, hrp, hrp_size);
    u64 bytes_size = SOME(bytes_room), bytes_at = lend_room(&m, bytes, bytes_size);
    u64 at = lend_room(&m, numbers, sizeof number_words);
    uint32_t answer = of_bech32_decode_strict(&m, checksum, text_at, text_length, hrp_at, hrp_size, at, bytes_at,
                                              bytes_size, at + 8);
    if (answer == BECH32_OK) {
        *hrp_length = (size_t)get_64(numbers);
        *bytes_length = (size_t)get_64(numbers + 8);
    }
    return answer;
}

uint32_t bech32_decode_elements(uint32_t checksum, const uint8_t *text, size_t text_length, uint8_t *hrp,
                                size_t hrp_room, size_t *hrp_length, uint8_t *elements, size_t elements_room,
                                size_t *elements_length) {
    NUMBERS(2);
    if (IS_TOO_LONG(text_length)) {
        return BECH32_NO_MEMORY;
    }
    MACHINE(bech32_decode_elements);
    u64 text_at = lend(&m, text, text_length);
    u64 hrp_size = SOME(hrp_room), hrp_at = lend_room(&m, hrp, hrp_size);
    u64 elements_size = SOME(elements_room), elements_at = lend_room(&m, elements, elements_size);
    u64 at = lend_room(&m, numbers, sizeof number_words);
    uint32_t answer = of_bech32_decode_elements(&m, checksum, text_at, text_length, hrp_at, hrp_size, at, elements_at,
                                                elements_size, at + 8);
    if (answer == BECH32_OK) {
        *hrp_length = (size_t)get_64(numbers);
        *elements_length = (size_t)get_64(numbers + 8);
    }
    return answer;
}

uint32_t bech32_encode_elements(uint32_t checksum, const uint8_t *hrp, size_t hrp_length, const uint8_t *elements,
                                size_t elements_length, size_t *place, uint8_t *text, size_t text_room,
                                size_t *text_length) {
    NUMBERS(2);
    if (IS_TOO_LONG(hrp_length) || IS_TOO_LONG(elements_length)) {
        return BECH32_NO_MEMORY;
    }
    MACHINE(bech32_encode_elements);
    u64 hrp_at = lend(&m, hrp, hrp_length);
    u64 elements_at = lend(&m, elements, elements_length);
    u64 text_size = SOME(text_room), text_at = lend_room(&m, text, text_size);
    u64 at = lend_room(&m, numbers, sizeof number_words);
    uint32_t answer = of_bech32_encode_elements(&m, checksum, hrp_at, hrp_length, elements_at, elements_length, at,
                                                text_at, text_size, at + 8);
    if (answer == BECH32_BAD_ELEMENT) {
        *place = (size_t)get_64(numbers);
    }
    if (answer == BECH32_OK) {
        *text_length = (size_t)get_64(numbers + 8);
    }
    return answer;
}

uint32_t bech32_check(uint32_t checksum, const uint8_t *text, size_t text_length, size_t *hrp_length,
                      size_t *data_length) {
    NUMBERS(2);
    if (IS_TOO_LONG(text_length)) {
        return BECH32_NO_MEMORY;
    }
    MACHINE(bech32_check);
    u64 text_at = lend(&m, text, text_length);
    u64 at = lend_room(&m, numbers, sizeof number_words);
    uint32_t answer = of_bech32_check(&m, checksum, text_at, text_length, at, at + 8);
    if (answer == BECH32_OK) {
        *hrp_length = (size_t)get_64(numbers);
        *data_length = (size_t)get_64(numbers + 8);
    }
    return answer;
}

uint32_t bech32_fault(uint32_t checksum, const uint8_t *text, size_t text_length, size_t *place) {
    NUMBERS(1);
    if (IS_TOO_LONG(text_length)) {
        return BECH32_NO_MEMORY;
    }
    MACHINE(bech32_fault);
    u64 text_at = lend(&m, text, text_length);
    u64 at = lend_room(&m, numbers, sizeof number_words);
    uint32_t answer = of_bech32_fault(&m, checksum, text_at, text_length, at);
    if (answer != BECH32_OK && answer != BECH32_NOT_UTF8 && answer != BECH32_BAD_NUMBER) {
        *place = (size_t)get_64(numbers);
    }
    return answer;
}

uint32_t bech32_segwit_encode(const uint8_t *hrp, size_t hrp_length, uint32_t version, const uint8_t *program,
                              size_t program_length, uint8_t *text, size_t text_room, size_t *text_length) {
    NUMBERS(1);
    if (IS_TOO_LONG(hrp_length)) {
        return BECH32_NO_MEMORY;
    }
    MACHINE(bech32_segwit_encode);
    u64 hrp_at = lend(&m, hrp, hrp_length);
    u64 program_size = SOME(program_length), program_at = lend(&m, program, program_size);
    u64 text_size = SOME(text_room), text_at = lend_room(&m, text, text_size);
    u64 at = lend_room(&m, numbers, sizeof number_words);
    uint32_t answer = of_bech32_segwit_encode(&m, hrp_at, hrp_length, version, program_at, program_size, text_at,
                                              text_size, at);
    if (answer == BECH32_OK) {
        *text_length = (size_t)get_64(numbers);
    }
    return answer;
}

uint32_t bech32_segwit_decode(const uint8_t *text, size_t text_length, uint8_t *hrp, size_t hrp_room,
                              size_t *hrp_length, uint32_t *version, uint8_t *program, size_t program_room,
                              size_t *program_length) {
    NUMBERS(3);
    if (IS_TOO_LONG(text_length)) {
        return BECH32_NO_MEMORY;
    }
    MACHINE(bech32_segwit_decode);
    u64 text_at = lend(&m, text, text_length);
    u64 hrp_size = SOME(hrp_room), hrp_at = lend_room(&m, hrp, hrp_size);
    u64 program_size = SOME(program_room), program_at = lend_room(&m, program, program_size);
    u64 at = lend_room(&m, numbers, sizeof number_words);
    uint32_t answer = of_bech32_segwit_decode(&m, text_at, text_length, hrp_at, hrp_size, at, at + 8, program_at,
                                              program_size, at + 16);
    if (answer == BECH32_OK) {
        *hrp_length = (size_t)get_64(numbers);
        *version = get_32(numbers + 8);
        *program_length = (size_t)get_64(numbers + 16);
    }
    return answer;
}

uint32_t bech32_residue(uint32_t checksum, const uint8_t *elements, size_t elements_length, uint32_t *residue) {
    NUMBERS(1);
    if (IS_TOO_LONG(elements_length)) {
        return BECH32_NO_MEMORY;
    }
    MACHINE(bech32_residue);
    u64 elements_at = lend(&m, elements, elements_length);
    u64 at = lend_room(&m, numbers, sizeof number_words);
    uint32_t answer = of_bech32_residue(&m, checksum, elements_at, elements_length, at);
    if (answer == BECH32_OK) {
        *residue = get_32(numbers);
    }
    return answer;
}

uint32_t bech32_nearest(uint32_t checksum, const uint8_t *text, size_t text_length, const size_t *erasures,
                        size_t erasures_length, size_t errors, bech32_memory *memory, uint8_t *texts,
                        size_t texts_room, size_t *count) {
    GIVEN(MOST_ERASURES);
    NUMBERS(3);
    if (IS_TOO_LONG(text_length)) {
        return BECH32_NO_MEMORY;
    }
    MACHINE(bech32_nearest);
    u64 given_count = put_erasures(given, MOST_ERASURES, erasures, erasures_length), given_at = lend(&m, given, 8 * given_count);
    u64 text_at = lend(&m, text, text_length);
    u64 texts_size = SOME(texts_room), texts_at = lend_room(&m, texts, texts_size);
    u64 memory_size = SOME(memory->size), memory_at = lend_room(&m, memory->start, memory_size);
    u64 at = lend_room(&m, numbers, sizeof number_words);
    put_64(numbers + 8, memory_at);
    put_64(numbers + 16, memory_size);
    uint32_t answer = of_bech32_nearest(&m, checksum, text_at, text_length, given_at, given_count, errors, at + 8,
                                        texts_at, texts_size, at);
    if (answer == BECH32_OK || answer == BECH32_NO_ROOM) {
        *count = (size_t)get_64(numbers);
    }
    if (get_64(numbers + 16) == 0) {
        memory->size = 0;
    }
    return answer;
}

uint32_t bech32_near_edits(uint32_t checksum, const uint8_t *text, size_t text_length, bech32_memory *memory,
                           uint8_t *kinds, size_t kinds_room, size_t *locations, size_t locations_room,
                           uint8_t *texts, size_t texts_room, size_t *count) {
    NUMBERS(3 + FEW_EDITS);
    if (IS_TOO_LONG(text_length)) {
        return BECH32_NO_MEMORY;
    }
    MACHINE(bech32_near_edits);
    u64 text_at = lend(&m, text, text_length);
    u64 kinds_size = SOME(kinds_room), kinds_at = lend_room(&m, kinds, kinds_size);
    u64 texts_size = SOME(texts_room), texts_at = lend_room(&m, texts, texts_size);
    u64 memory_size = SOME(memory->size), memory_at = lend_room(&m, memory->start, memory_size);
    u64 at = lend_room(&m, numbers, sizeof number_words);
    u64 places_at = at + 24, most = locations_room;
    u8 *found = numbers + 24;
    uint32_t answer = BECH32_NO_ROOM;
    put_64(numbers + 8, memory_at);
    put_64(numbers + 16, memory_size);
    if (most > FEW_EDITS) {
        answer = of_bech32_near_edits(&m, checksum, text_at, text_length, at + 8, kinds_at, 0, places_at, 0, texts_at,
                                      0, at);
        most = get_64(numbers) < most ? get_64(numbers) : most;
    }
    if (answer == BECH32_NO_ROOM && most > FEW_EDITS) {
        if (memory_size / 8 <= most) {
            return BECH32_NO_MEMORY;
        }
        memory_size -= 8 * most;
        put_64(numbers + 16, memory_size);
        places_at = memory_at + memory_size;
        found = memory->start + memory_size;
    }
    if (answer == BECH32_NO_ROOM) {
        for (u64 i = 0; i < most; i++) {
            put_64(found + 8 * i, NO_LOCATION);
        }
        answer = of_bech32_near_edits(&m, checksum, text_at, text_length, at + 8, kinds_at, kinds_size, places_at,
                                      most, texts_at, texts_size, at);
        for (u64 i = 0; i < most && answer != BECH32_NO_MEMORY && get_64(found + 8 * i) != NO_LOCATION; i++) {
            locations[i] = (size_t)get_64(found + 8 * i);
        }
    }
    if (answer == BECH32_OK || answer == BECH32_NO_ROOM) {
        *count = (size_t)get_64(numbers);
    }
    if (get_64(numbers + 16) == 0) {
        memory->size = 0;
    }
    return answer;
}

uint32_t bech32_liquid_encode(const uint8_t *hrp, size_t hrp_length, uint32_t version,
                              const uint8_t key[BECH32_LIQUID_KEY_LENGTH], const uint8_t *program,
                              size_t program_length, uint8_t *text, size_t text_room, size_t *text_length) {
    NUMBERS(1);
    if (IS_TOO_LONG(hrp_length)) {
        return BECH32_NO_MEMORY;
    }
    MACHINE(bech32_liquid_encode);
    u64 hrp_at = lend(&m, hrp, hrp_length);
    u64 key_at = lend(&m, key, BECH32_LIQUID_KEY_LENGTH);
    u64 program_size = SOME(program_length), program_at = lend(&m, program, program_size);
    u64 text_size = SOME(text_room), text_at = lend_room(&m, text, text_size);
    u64 at = lend_room(&m, numbers, sizeof number_words);
    uint32_t answer = of_bech32_liquid_encode(&m, hrp_at, hrp_length, version, key_at, program_at, program_size,
                                              text_at, text_size, at);
    if (answer == BECH32_OK) {
        *text_length = (size_t)get_64(numbers);
    }
    return answer;
}

uint32_t bech32_liquid_decode(const uint8_t *text, size_t text_length, uint8_t *hrp, size_t hrp_room,
                              size_t *hrp_length, uint32_t *version, uint8_t key[BECH32_LIQUID_KEY_LENGTH],
                              uint8_t *program, size_t program_room, size_t *program_length) {
    NUMBERS(3);
    if (IS_TOO_LONG(text_length)) {
        return BECH32_NO_MEMORY;
    }
    MACHINE(bech32_liquid_decode);
    u64 text_at = lend(&m, text, text_length);
    u64 hrp_size = SOME(hrp_room), hrp_at = lend_room(&m, hrp, hrp_size);
    u64 key_at = lend_room(&m, key, BECH32_LIQUID_KEY_LENGTH);
    u64 program_size = SOME(program_room), program_at = lend_room(&m, program, program_size);
    u64 at = lend_room(&m, numbers, sizeof number_words);
    uint32_t answer = of_bech32_liquid_decode(&m, text_at, text_length, hrp_at, hrp_size, at, at + 8, key_at,
                                              program_at, program_size, at + 16);
    if (answer == BECH32_OK) {
        *hrp_length = (size_t)get_64(numbers);
        *version = get_32(numbers + 8);
        *program_length = (size_t)get_64(numbers + 16);
    }
    return answer;
}

uint32_t bech32_liquid_nearest(const uint8_t *text, size_t text_length, const size_t *erasures,
                               size_t erasures_length, size_t errors, bech32_memory *memory, uint8_t *texts,
                               size_t texts_room, size_t *count) {
    GIVEN(MOST_LIQUID_ERASURES);
    NUMBERS(3);
    if (IS_TOO_LONG(text_length)) {
        return BECH32_NO_MEMORY;
    }
    MACHINE(bech32_liquid_nearest);
    u64 given_count = put_erasures(given, MOST_LIQUID_ERASURES, erasures, erasures_length), given_at = lend(&m, given, 8 * given_count);
    u64 text_at = lend(&m, text, text_length);
    u64 texts_size = SOME(texts_room), texts_at = lend_room(&m, texts, texts_size);
    u64 memory_size = SOME(memory->size), memory_at = lend_room(&m, memory->start, memory_size);
    u64 at = lend_room(&m, numbers, sizeof number_words);
    put_64(numbers + 8, memory_at);
    put_64(numbers + 16, memory_size);
    uint32_t answer = of_bech32_liquid_nearest(&m, text_at, text_length, given_at, given_count, errors, at + 8,
                                               texts_at, texts_size, at);
    if (answer == BECH32_OK || answer == BECH32_NO_ROOM) {
        *count = (size_t)get_64(numbers);
    }
    if (get_64(numbers + 16) == 0) {
        memory->size = 0;
    }
    return answer;
}

uint32_t bech32_descriptor_checksum(const uint8_t *text, size_t text_length, uint8_t *checksum, size_t checksum_room,
                                    size_t *checksum_length, size_t *place) {
    NUMBERS(2);
    if (IS_TOO_LONG(text_length)) {
        return BECH32_NO_MEMORY;
    }
    MACHINE(bech32_descriptor_checksum);
    u64 text_at = lend(&m, text, text_length);
    u64 checksum_size = SOME(checksum_room), checksum_at = lend_room(&m, checksum, checksum_size);
    u64 at = lend_room(&m, numbers, sizeof number_words);
    uint32_t answer = of_bech32_descriptor_checksum(&m, text_at, text_length, checksum_at, checksum_size, at, at + 8);
    if (answer == BECH32_OK) {
        *checksum_length = (size_t)get_64(numbers);
    }
    if (answer == BECH32_NOT_IN_DESCRIPTOR) {
        *place = (size_t)get_64(numbers + 8);
    }
    return answer;
}

uint32_t bech32_descriptor_check(const uint8_t *text, size_t text_length, size_t *place) {
    NUMBERS(1);
    if (IS_TOO_LONG(text_length)) {
        return BECH32_NO_MEMORY;
    }
    MACHINE(bech32_descriptor_check);
    u64 text_at = lend(&m, text, text_length);
    u64 at = lend_room(&m, numbers, sizeof number_words);
    uint32_t answer = of_bech32_descriptor_check(&m, text_at, text_length, at);
    if (answer == BECH32_NOT_IN_DESCRIPTOR) {
        *place = (size_t)get_64(numbers);
    }
    return answer;
}

uint32_t bech32_descriptor_mend(const uint8_t *text, size_t text_length, size_t changed, bech32_memory *memory,
                                uint8_t *kinds, size_t kinds_room, size_t *places, size_t places_room, uint8_t *texts,
                                size_t texts_room, size_t *count) {
    NUMBERS(3 + FEW_EDITS);
    if (IS_TOO_LONG(text_length)) {
        return BECH32_NO_MEMORY;
    }
    MACHINE(bech32_descriptor_mend);
    u64 text_at = lend(&m, text, text_length);
    u64 kinds_size = SOME(kinds_room), kinds_at = lend_room(&m, kinds, kinds_size);
    u64 texts_size = SOME(texts_room), texts_at = lend_room(&m, texts, texts_size);
    u64 memory_size = SOME(memory->size), memory_at = lend_room(&m, memory->start, memory_size);
    u64 at = lend_room(&m, numbers, sizeof number_words);
    u64 places_at = at + 24, most = places_room;
    u8 *found = numbers + 24;
    uint32_t answer = BECH32_NO_ROOM;
    put_64(numbers + 8, memory_at);
    put_64(numbers + 16, memory_size);
    if (most > FEW_EDITS) {
        answer = of_bech32_descriptor_mend(&m, text_at, text_length, changed, at + 8, kinds_at, 0, places_at, 0,
                                           texts_at, 0, at);
        most = get_64(numbers) < most / 2 ? 2 * get_64(numbers) : most;
    }
    if (answer == BECH32_NO_ROOM && most > FEW_EDITS) {
        if (memory_size / 8 <= most) {
            return BECH32_NO_MEMORY;
        }
        memory_size -= 8 * most;
        put_64(numbers + 16, memory_size);
        places_at = memory_at + memory_size;
        found = memory->start + memory_size;
    }
    if (answer == BECH32_NO_ROOM) {
        for (u64 i = 0; i < most; i++) {
            put_64(found + 8 * i, NO_LOCATION);
        }
        answer = of_bech32_descriptor_mend(&m, text_at, text_length, changed, at + 8, kinds_at, kinds_size, places_at,
                                           most, texts_at, texts_size, at);
        for (u64 i = 0; i < most && answer != BECH32_NO_MEMORY && get_64(found + 8 * i) != NO_LOCATION; i++) {
            places[i] = (size_t)get_64(found + 8 * i);
        }
    }
    if (answer == BECH32_OK || answer == BECH32_NO_ROOM) {
        *count = (size_t)get_64(numbers);
    }
    if (get_64(numbers + 16) == 0) {
        memory->size = 0;
    }
    return answer;
}

uint32_t bech32_descriptor_mend_two(const uint8_t *text, size_t text_length, bech32_memory *memory, size_t *places,
                                    size_t places_room, uint8_t *texts, size_t texts_room, size_t *count) {
    NUMBERS(3 + FEW_EDITS);
    if (IS_TOO_LONG(text_length)) {
        return BECH32_NO_MEMORY;
    }
    MACHINE(bech32_descriptor_mend_two);
    u64 text_at = lend(&m, text, text_length);
    u64 texts_size = SOME(texts_room), texts_at = lend_room(&m, texts, texts_size);
    u64 memory_size = SOME(memory->size), memory_at = lend_room(&m, memory->start, memory_size);
    u64 at = lend_room(&m, numbers, sizeof number_words);
    u64 places_at = at + 24, most = places_room;
    u8 *found = numbers + 24;
    uint32_t answer = BECH32_NO_ROOM;
    put_64(numbers + 8, memory_at);
    put_64(numbers + 16, memory_size);
    if (most > FEW_EDITS) {
        answer = of_bech32_descriptor_mend_two(&m, text_at, text_length, at + 8, places_at, 0, texts_at, 0, at);
        most = get_64(numbers) < most / 2 ? 2 * get_64(numbers) : most;
    }
    if (answer == BECH32_NO_ROOM && most > FEW_EDITS) {
        if (memory_size / 8 <= most) {
            return BECH32_NO_MEMORY;
        }
        memory_size -= 8 * most;
        put_64(numbers + 16, memory_size);
        places_at = memory_at + memory_size;
        found = memory->start + memory_size;
    }
    if (answer == BECH32_NO_ROOM) {
        for (u64 i = 0; i < most; i++) {
            put_64(found + 8 * i, NO_LOCATION);
        }
        answer = of_bech32_descriptor_mend_two(&m, text_at, text_length, at + 8, places_at, most, texts_at,
                                               texts_size, at);
        for (u64 i = 0; i < most && answer != BECH32_NO_MEMORY && get_64(found + 8 * i) != NO_LOCATION; i++) {
            places[i] = (size_t)get_64(found + 8 * i);
        }
    }
    if (answer == BECH32_OK || answer == BECH32_NO_ROOM) {
        *count = (size_t)get_64(numbers);
    }
    if (get_64(numbers + 16) == 0) {
        memory->size = 0;
    }
    return answer;
}

uint32_t bech32_suggest(const uint8_t *text, size_t text_length, const uint8_t *hrp, size_t hrp_length,
                        bech32_memory *memory, uint8_t *kinds, size_t kinds_room, size_t *places, size_t places_room,
                        uint8_t *texts, size_t texts_room, size_t *count) {
    NUMBERS(3 + FEW_EDITS);
    if (IS_TOO_LONG(text_length) || IS_TOO_LONG(hrp_length)) {
        return BECH32_NO_MEMORY;
    }
    MACHINE(bech32_suggest);
    u64 text_at = lend(&m, text, text_length);
    u64 hrp_at = lend(&m, hrp, hrp_length);
    u64 kinds_size = SOME(kinds_room), kinds_at = lend_room(&m, kinds, kinds_size);
    u64 texts_size = SOME(texts_room), texts_at = lend_room(&m, texts, texts_size);
    u64 memory_size = SOME(memory->size), memory_at = lend_room(&m, memory->start, memory_size);
    u64 at = lend_room(&m, numbers, sizeof number_words);
    u64 places_at = at + 24, most = places_room;
    u8 *found = numbers + 24;
    uint32_t answer = BECH32_NO_ROOM;
    put_64(numbers + 8, memory_at);
    put_64(numbers + 16, memory_size);
    if (most > FEW_EDITS) {
        answer = of_bech32_suggest(&m, text_at, text_length, hrp_at, hrp_length, at + 8, kinds_at, 0, places_at, 0,
                                   texts_at, 0, at);
        most = get_64(numbers) < most ? get_64(numbers) : most;
    }
    if (answer == BECH32_NO_ROOM && most > FEW_EDITS) {
        if (memory_size / 8 <= most) {
            return BECH32_NO_MEMORY;
        }
        memory_size -= 8 * most;
        put_64(numbers + 16, memory_size);
        places_at = memory_at + memory_size;
        found = memory->start + memory_size;
    }
    if (answer == BECH32_NO_ROOM) {
        for (u64 i = 0; i < most; i++) {
            put_64(found + 8 * i, NO_LOCATION);
        }
        answer = of_bech32_suggest(&m, text_at, text_length, hrp_at, hrp_length, at + 8, kinds_at, kinds_size,
                                   places_at, most, texts_at, texts_size, at);
        for (u64 i = 0; i < most && answer != BECH32_NO_MEMORY && get_64(found + 8 * i) != NO_LOCATION; i++) {
            places[i] = (size_t)get_64(found + 8 * i);
        }
    }
    if (answer == BECH32_OK || answer == BECH32_NO_ROOM) {
        *count = (size_t)get_64(numbers);
    }
    if (get_64(numbers + 16) == 0) {
        memory->size = 0;
    }
    return answer;
}
