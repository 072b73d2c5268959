/*
 * Random calls of every function of bech32.h and codex32.h, and for each function a hash of all that it answered: the
 * number, what it wrote, and what it left as it was. It is the same of each right library, on every processor.
 *
 *     replies CALLS [SEED [FUNCTION]]    with FUNCTION each of its calls has a line of its own, to find where two differ
 */
#include <stdio.h>
#include <stdlib.h>
#include <string.h>

#include "bech32.h"
#include "codex32.h"

#if defined(__GNUC__) || defined(__TINYC__)
#define ALIGNED_TO_16 __attribute__((aligned(16)))
#else
#define ALIGNED_TO_16
#endif

#define MOST 2048u

static uint64_t state, hash;
static const char alphabet[] = "qpzry9x8gf2tvdw0s3jn54khce6mua7l";
static uint8_t part[MOST], data[MOST], text[MOST], out[MOST], other[MOST], near[65536];
static size_t part_length, data_length, text_length, erasures[40];
static ALIGNED_TO_16 uint8_t lent[65536];

/* SplitMix64. */
static uint32_t next(void) {
    uint64_t z = state += UINT64_C(0x9e3779b97f4a7c15);
    z = (z ^ z >> 30) * UINT64_C(0xbf58476d1ce4e5b9);
    z = (z ^ z >> 27) * UINT64_C(0x94d049bb133111eb);
    return (uint32_t)((z ^ z >> 31) >> 16);
}

static uint32_t below(uint32_t n) {
    return next() % n;
}

static void put(const void *bytes, size_t length) {
    for (size_t i = 0; i < length; i++) {
        hash = (hash ^ ((const uint8_t *)bytes)[i]) * UINT64_C(0x100000001b3);
    }
}

static void put_size(size_t size) {
    for (int i = 0; i < 4; i++) {
        uint8_t byte = (uint8_t)(size >> 8 * i);
        put(&byte, 1);
    }
}

/* Mostly as much room as is enough; also just so much as is wanted, where the call is accepted, and one less. */
static size_t room(size_t usual, size_t wanted) {
    uint32_t which = below(10);
    return which > 2 ? usual : which == 2 ? below((uint32_t)usual + 2) : wanted - (wanted > 0 ? which : 0);
}

static uint32_t checksum(void) {
    return below(40) ? 1 + below(2) : next();
}

static void make(size_t most, uint32_t longest) {
    part_length = below(30) ? 1 + below(12) : below(90);
    int upper = !below(4);
    for (size_t i = 0; i < part_length; i++) {
        uint8_t byte = (uint8_t)(33 + below(94));
        int is_letter = (byte | 32) >= 'a' && (byte | 32) <= 'z';
        part[i] = is_letter ? (uint8_t)(upper ? byte & ~32 : byte | 32) : byte;
        if (!below(300)) {
            part[i] = (uint8_t)next();
        }
    }
    data_length = below(12) ? below((uint32_t)most + 1) : below(longest);
    for (size_t i = 0; i < data_length; i++) {
        data[i] = (uint8_t)next();
    }
}

static void change(void) {
    uint32_t changes = below(3) ? below(4) : 0;
    for (uint32_t i = 0; i < changes && text_length > 0; i++) {
        uint32_t last = (uint32_t)(text_length < 60 ? text_length : 60);
        size_t at = below(4) ? text_length - 1 - below(last) : below((uint32_t)text_length);
        text[at] = (uint8_t)(below(12) ? alphabet[below(32)] : (int)(next() & 255));
    }
    if (!below(40)) {
        text_length = below((uint32_t)text_length + 1);
    }
    if (!below(60)) {
        while (text_length < 1100) {
            text[text_length++] = (uint8_t)alphabet[below(32)];
        }
    }
    if (!below(20)) {
        for (size_t i = 0; i < text_length; i++) {
            text[i] = (uint8_t)(text[i] >= 'a' && text[i] <= 'z' ? text[i] - 32 : text[i]);
        }
    }
}

/* Texts that are accepted, and texts near to them, are made without the library. */
static uint32_t step(uint32_t residue, uint32_t element) {
    static const uint32_t generator[5] = {0x3b6a57b2, 0x26508e6d, 0x1ea119fa, 0x3d4233dd, 0x2a1462b3};
    uint32_t high = residue >> 25;
    residue = (residue & 0x1ffffff) << 5 ^ element;
    for (int i = 0; i < 5; i++) {
        residue ^= high >> i & 1 ? generator[i] : 0;
    }
    return residue;
}

static void write_text(const uint8_t *elements, size_t count, uint32_t target) {
    uint32_t residue = 1;
    int upper = 0;
    for (size_t i = 0; i < part_length; i++) {
        upper |= part[i] >= 'A' && part[i] <= 'Z';
    }
    for (int half = 0; half < 2; half++) {
        for (size_t i = 0; i < part_length; i++) {
            uint32_t lower = part[i] >= 'A' && part[i] <= 'Z' ? part[i] + 32u : part[i];
            residue = step(residue, half ? lower & 31 : lower >> 5);
        }
        residue = half ? residue : step(residue, 0);
    }
    memcpy(text, part, part_length);
    text[part_length] = '1';
    text_length = part_length + 1;
    for (size_t i = 0; i < count + 6; i++) {
        uint32_t element = i < count ? elements[i] : 0;
        residue = step(residue, element);
        text[text_length++] = (uint8_t)element;
    }
    residue ^= target;
    for (size_t i = 0; i < 6; i++) {
        text[text_length - 1 - i] = (uint8_t)(residue >> 5 * i & 31);
    }
    for (size_t i = part_length + 1; i < text_length; i++) {
        int letter = alphabet[text[i]];
        text[i] = (uint8_t)(upper && letter >= 'a' ? letter - 32 : letter);
    }
}

static size_t elements_of(uint8_t *elements) {
    size_t count = 0;
    uint32_t held = 0, bits = 0;
    for (size_t i = 0; i < data_length; i++) {
        held = (held << 8 | data[i]) & 0xfff;
        for (bits += 8; bits >= 5; bits -= 5) {
            elements[count++] = held >> (bits - 5) & 31;
        }
    }
    if (bits > 0) {
        elements[count++] = (uint8_t)((held << (5 - bits) & 31) | (below(10) ? 0 : below(1u << (5 - bits))));
    }
    return count;
}

static void text_of_bytes(size_t most, uint32_t longest) {
    static uint8_t elements[MOST];
    make(most, longest);
    size_t count = elements_of(elements);
    write_text(elements, count, below(2) ? BECH32_TARGET : BECH32M_TARGET);
    change();
}

static void address(void) {
    static const size_t sizes[] = {20, 32, 32, 20, 2, 40, 16};
    static uint8_t elements[MOST];
    make(40, 42);
    data_length = below(4) ? sizes[below(7)] : below(42);
    part[0] = 'b', part[1] = 'c', part_length = below(4) ? 2 : part_length;
    elements[0] = (uint8_t)below(below(10) ? 17 : 32);
    size_t count = 1 + elements_of(elements + 1);
    uint32_t usual = elements[0] ? BECH32M_TARGET : BECH32_TARGET;
    write_text(elements, count, below(20) ? usual : usual ^ BECH32_TARGET ^ BECH32M_TARGET);
    change();
}

static size_t make_erasures(void) {
    size_t count = below(3) ? below(4) : below(40);
    for (size_t i = 0; i < count; i++) {
        erasures[i] = below(20) ? below(text_length < 2 ? 2 : (uint32_t)text_length) : (size_t)next() << 4;
        if (!below(4)) {
            erasures[i] = erasures[below((uint32_t)i + 1)];
        }
    }
    return count;
}

/* Mistypes three characters whose locations are given, some of them again and again. */
static size_t mistype_erasures(void) {
    size_t chosen[3], count = 3 + below(5);
    int is_upper = 0;
    if (text_length < 8) {
        return make_erasures();
    }
    for (size_t i = 0; i < text_length; i++) {
        is_upper |= text[i] >= 'A' && text[i] <= 'Z';
    }
    for (size_t i = 0; i < 3; i++) {
        int letter = alphabet[below(32)];
        chosen[i] = below(text_length < 50 ? 6 : 40);
        text[text_length - 1 - chosen[i]] = (uint8_t)(is_upper && letter >= 'a' ? letter - 32 : letter);
    }
    for (size_t i = 0; i < count; i++) {
        erasures[i] = chosen[i + 1 < count ? below(2) : 2];
    }
    return count;
}

/* ---- a call of each function */

static uint32_t try_encode(void) {
    size_t length = 7777;
    make(40, 700);
    uint32_t by = checksum();
    size_t room_1 = room(1023, part_length + 7 + (8 * data_length + 4) / 5);
    uint32_t number = bech32_encode(by, part, part_length, data, data_length, out, room_1, &length);
    put_size(length);
    return number;
}

static uint32_t try_decode(void) {
    size_t length = 7777, length_2 = 8888;
    text_of_bytes(50, 640);
    size_t room_1 = room(83, part_length), room_2 = room(634, data_length);
    uint32_t number = bech32_decode(text, text_length, out, room_1, &length, other, room_2, &length_2);
    put_size(length);
    put_size(length_2);
    return number;
}

static uint32_t try_check(void) {
    size_t length = 7777, length_2 = 8888;
    text_of_bytes(50, 640);
    uint32_t number = bech32_check(checksum(), text, text_length, &length, &length_2);
    put_size(length);
    put_size(length_2);
    return number;
}

static uint32_t try_fault(void) {
    size_t place = 7777;
    text_of_bytes(50, 640);
    uint32_t number = bech32_fault(checksum(), text, text_length, &place);
    put_size(place);
    return number;
}

static uint32_t try_message(void) {
    size_t length = 7777;
    uint32_t asked = below(100);
    uint32_t number = bech32_message(asked, out, room(100, 40), &length);
    put_size(length);
    put_size(bech32_version());
    return number;
}

static uint32_t try_codex32_message(void) {
    size_t length = 7777;
    uint32_t asked = below(100);
    uint32_t number = codex32_message(asked, out, room(100, 40), &length);
    put_size(length);
    put_size(codex32_version());
    return number;
}

static uint32_t try_segwit_encode(void) {
    size_t length = 7777;
    make(42, 700);
    data_length = below(3) ? 20 + 12 * below(2) : data_length;
    uint32_t version = below(20);
    size_t room_1 = room(90, part_length + 8 + (8 * data_length + 4) / 5);
    uint32_t number =
        bech32_segwit_encode(part, part_length, version, data, data_length, out, room_1, &length);
    put_size(length);
    return number;
}

static uint32_t try_segwit_decode(void) {
    size_t length = 7777, length_2 = 8888;
    uint32_t version = 9999;
    address();
    size_t room_1 = room(83, part_length), room_2 = room(40, data_length);
    uint32_t number =
        bech32_segwit_decode(text, text_length, out, room_1, &length, &version, other, room_2, &length_2);
    put_size(length);
    put_size(length_2);
    put_size(version);
    return number;
}

static uint32_t try_residue(void) {
    uint32_t residue = 7777;
    make(60, 1000);
    for (size_t i = 0; i < data_length; i++) {
        data[i] &= below(2000) ? 31 : 63;
    }
    uint32_t number = bech32_residue(checksum(), data, data_length, &residue);
    put_size(residue);
    return number;
}

static uint32_t try_correct(void) {
    size_t locations[5] = {1, 2, 3, 4, 5}, count = 7777, length = 8888;
    uint8_t values[5] = {1, 2, 3, 4, 5};
    below(2) ? address() : text_of_bytes(50, 640);
    size_t given = below(3) ? make_erasures() : mistype_erasures();
    uint32_t by = checksum();
    size_t room_1 = room(4, 1), room_2 = room(4, 3), room_3 = room(1023, text_length);
    uint32_t number = bech32_correct(by, text, text_length, erasures, given, locations, room_1, values, room_2,
                                     &count, out, room_3, &length);
    put_size(count);
    put_size(length);
    put(values, sizeof values);
    for (size_t i = 0; i < 5; i++) {
        put_size(locations[i]);
    }
    return number;
}

static uint32_t try_nearest(void) {
    size_t count = 7777;
    bech32_memory memory = {lent, below(5) ? sizeof lent : below(30000)};
    below(8) ? address() : text_of_bytes(20, 60);
    memset(near, 0x5a, sizeof near);
    size_t given = below(2) ? 0 : make_erasures(), size = memory.size;
    uint32_t by = checksum();
    size_t errors = below(4) ? 2 : below(4), room_1 = below(3) ? sizeof near : below(200);
    uint32_t number = bech32_nearest(by, text, text_length, erasures, given, errors, &memory, near, room_1, &count);
    put_size(count);
    put_size(memory.start == lent && memory.size == size);
    put_size(memory.size == 0);
    put(near, number == BECH32_OK ? count * text_length + 8 : number == BECH32_NO_ROOM ? room_1 + 8 : 8);
    return number;
}

static uint32_t try_near_edits(void) {
    size_t count = 7777, locations[24];
    uint8_t kinds[24];
    bech32_memory memory = {lent, below(5) ? BECH32_NEAR_EDITS_MEMORY(1023) : below(8000)};
    below(4) ? address() : text_of_bytes(20, 620);
    if (text_length > 2 && below(2)) {
        size_t at = 1 + below((uint32_t)text_length - 1);
        uint8_t byte = text[at];
        text[at] = text[at - 1];
        text[at - 1] = byte;
    } else if (text_length > 2) {
        size_t at = 1 + below((uint32_t)text_length - 1);
        memmove(text + at, text + at + 1, --text_length - at);
    }
    memset(near, 0x5a, sizeof near);
    memset(kinds, 0x5a, sizeof kinds);
    for (size_t i = 0; i < 24; i++) {
        locations[i] = 7777;
    }
    uint32_t by = checksum();
    size_t size = memory.size, room_1 = below(3) ? 24 : below(3), room_2 = below(3) ? 24 : below(3);
    size_t room_3 = below(3) ? sizeof near : below(200);
    uint32_t number = bech32_near_edits(by, text, text_length, &memory, kinds, room_1, locations, room_2, near, room_3, &count);
    put_size(count);
    put_size(memory.start == lent && memory.size == size);
    put_size(memory.size == 0);
    put(kinds, sizeof kinds);
    for (size_t i = 0; i < 24; i++) {
        put_size(locations[i]);
    }
    put(near, 8192);
    return number;
}

/* Strings of codex32 of several lengths, and one in upper case. */
static const char *const strings[] = {
    "ms10testsxxxxxxxxxxxxxxxxxxxxxxxxxx4nzvca9cmczlw",
    "MS12NAMEA320ZYXWVUTSRQPNMLKJHGFEDCAXRPP870HKKQRM",
    "ms13cashsllhdmn9m42vcsamx24zrxgs3qqjzqud4m0d6nln",
    "ms12j350uu248rlap6c2wvdelnfr9v8x879ltzprwp088h69922amrdxu",
    "ms100awys65kacdxusr0cqvf6c8l2m5lljkqqchs8z83dlsunmh823xu20vy0s026dmdgz2jn8",
    "ms12hszpa9gtxv03ul2knm4a7ng8vpe6l3eha0j3a6ulf7mfdhhwfz5w53qd3kezd9gnukd2uyllw4pu",
    "ms100c8vsm32zxfguhpchtlupzry9x8gf2tvdw0s3jn54khce6mua7lqpzygsfjd6an074rxvcemlh8wu3tk925acdefg",
};
#define STRINGS (sizeof strings / sizeof *strings)

static void string(int damaged) {
    const char *one = strings[below(STRINGS)];
    text_length = strlen(one);
    memcpy(text, one, text_length);
    uint32_t changes = below(3) ? below(6) : 0;
    for (uint32_t i = 0; i < changes; i++) {
        size_t at = below(10) ? 3 + below((uint32_t)text_length - 3) : below((uint32_t)text_length);
        int letter = alphabet[below(32)], lower_by = one[0] == 'M' && !below(2) ? 32 : 0;
        text[at] = (uint8_t)(damaged && below(2) ? '?' : letter - lower_by);
    }
    text_length -= below(30) ? 0 : below(20);
}

static uint32_t try_parse(void) {
    uint32_t threshold = 7777, index = 8888;
    size_t length = 9999;
    string(0);
    uint32_t number = codex32_parse(text, text_length, &threshold, &index, &length);
    put_size(threshold);
    put_size(index);
    put_size(length);
    return number;
}

static uint32_t try_propose(void) {
    size_t length = 7777;
    codex32_memory memory = {lent, below(5) ? CODEX32_MEMORY(93) : below(20000)};
    size_t size = memory.size;
    string(1);
    uint32_t number = codex32_propose(text, text_length, &memory, out, room(93, text_length), &length);
    put_size(length);
    put_size(memory.start == lent && memory.size == size);
    put_size(memory.size == 0);
    return number;
}

/* ---- strings of either length, and sets of them: made by the library, so one that answers otherwise makes others */

static uint8_t name[CODEX32_IDENTIFIER_LENGTH];

static void make_name(void) {
    for (size_t i = 0; i < sizeof name; i++) {
        name[i] = (uint8_t)(alphabet[below(32)]);
    }
    if (!below(20)) {
        name[below(sizeof name)] = (uint8_t)next();
    }
}

static void make_secret(void) {
    data_length = below(20) ? below(4) ? 16 + below(29) : 63 + below(2) : below(80);
    for (size_t i = 0; i < data_length; i++) {
        data[i] = (uint8_t)next();
    }
}

static uint32_t an_index(uint32_t threshold) {
    uint32_t letter = (uint32_t)(uint8_t)alphabet[below(32)];
    if (threshold == 0 && below(6)) {
        return CODEX32_SECRET_INDEX;
    }
    return below(30) ? letter >= 'a' && !below(4) ? letter - 32 : letter : next();
}

static void damage(int is_unread) {
    uint32_t changes = below(3) ? below(7) : 0;
    for (uint32_t i = 0; i < changes && text_length > 3; i++) {
        text[3 + below((uint32_t)text_length - 3)] = (uint8_t)(is_unread && below(2) ? '?' : alphabet[below(32)]);
    }
}

/* A string of either length, or one with six bits left over. */
static void long_or_short(void) {
    static const char left_over[] = "ms12xh04fm5amh7k7ay0jj7mgh3ndf4zdx0dmxgdrhz38hawaewk";
    uint32_t threshold = below(4) ? 2 + below(8) : 0;
    make_name();
    make_secret();
    text_length = sizeof left_over - 1;
    memcpy(text, left_over, text_length);
    if (below(20)) {
        codex32_encode(threshold, name, sizeof name, an_index(threshold), data, data_length, text, sizeof text, &text_length);
    }
}

static uint32_t try_share(void) {
    uint32_t threshold = 7777, index = 8888;
    size_t length = 9999;
    uint8_t identifier[CODEX32_IDENTIFIER_LENGTH] = {1, 2, 3, 4};
    if (below(4)) {
        long_or_short();
        below(2) ? damage(0) : (void)0;
    } else {
        string(0);
    }
    uint32_t number = codex32_share(text, text_length, &threshold, identifier, &index, out, room(64, 16), &length);
    put_size(threshold);
    put(identifier, sizeof identifier);
    put_size(index);
    put_size(length);
    return number;
}

static uint32_t try_codex32_encode(void) {
    size_t length = 7777;
    uint32_t threshold = below(20) ? below(11) : next();
    make_name();
    make_secret();
    size_t name_length = below(20) ? sizeof name : below(sizeof name);
    uint32_t index = an_index(threshold);
    size_t room_1 = room(127, CODEX32_ENCODED_SIZE(data_length));
    uint32_t number = codex32_encode(threshold, name, name_length, index, data, data_length, out, room_1, &length);
    put_size(length);
    return number;
}

/* As many characters as bytes have, mostly, in either case, and sometimes others. */
static void make_payload(void) {
    make_secret();
    data_length = below(20) ? (8 * data_length + 4) / 5 : below(110);
    int lower_by = below(4) ? 0 : 32;
    for (size_t i = 0; i < data_length; i++) {
        int letter = alphabet[below(32)];
        data[i] = (uint8_t)(letter >= 'a' ? letter - lower_by : letter);
    }
    if (!below(8) && data_length > 0) {
        data[below((uint32_t)data_length)] = (uint8_t)(below(2) ? alphabet[below(32)] : (int)(next() & 255));
    }
}

static uint32_t try_encode_payload(void) {
    size_t length = 7777;
    uint32_t threshold = below(20) ? below(11) : next();
    make_name();
    make_payload();
    size_t name_length = below(20) ? sizeof name : below(sizeof name);
    uint32_t index = an_index(threshold);
    size_t room_1 = room(127, CODEX32_PAYLOAD_AT + data_length + (data_length <= 71 ? 13 : 15));
    uint32_t number =
        codex32_encode_payload(threshold, name, name_length, index, data, data_length, out, room_1, &length);
    put_size(length);
    return number;
}

static size_t lengths[40], count_of_texts, set_length;
static uint8_t set[40 * CODEX32_TEXT_SIZE];

static void append(const uint8_t *one, size_t length) {
    if (count_of_texts < sizeof lengths / sizeof *lengths && length <= CODEX32_TEXT_SIZE) {
        memmove(set + set_length, one, length);
        lengths[count_of_texts++] = length;
        set_length += length;
    }
}

/* As many random strings as their threshold, and some that are derived of them. */
static void make_set(void) {
    uint32_t threshold = below(8) ? 2 + below(8) : 0, at = below(32), more = below(2) ? below(4) : 0;
    make_name();
    make_secret();
    count_of_texts = set_length = 0;
    for (uint32_t i = 0; i < (threshold ? threshold : 1); i++) {
        uint32_t index = threshold ? (uint32_t)(uint8_t)alphabet[(at + i) % 32] : CODEX32_SECRET_INDEX;
        size_t length = 0;
        for (size_t j = 0; j < data_length; j++) {
            data[j] = (uint8_t)next();
        }
        if (codex32_encode(threshold, name, sizeof name, index, data, data_length, text, sizeof text, &length) == CODEX32_OK) {
            append(text, length);
        }
    }
    for (uint32_t i = 0; i < more && threshold > 0; i++) {
        size_t length = 0;
        uint32_t index = (uint32_t)(uint8_t)alphabet[(at + threshold + i) % 32];
        if (codex32_derive(index, set, set_length, lengths, count_of_texts, text, sizeof text, &length) == CODEX32_OK) {
            append(text, length);
        }
    }
}

static void change_set(void) {
    size_t one = count_of_texts ? below((uint32_t)count_of_texts) : 0;
    switch (below(9)) {
    case 0: lengths[one] += below(3); break;
    case 1: lengths[one] = (size_t)next() << 4; break;
    case 2: count_of_texts -= count_of_texts ? 1 : 0; break;
    case 3: set_length -= count_of_texts ? lengths[--count_of_texts] : 0; break;
    case 4: set[set_length ? below((uint32_t)set_length) : 0] = (uint8_t)next(); break;
    case 5: append(set, lengths[0]); break;
    case 6:
        for (int i = 0; i < 40; i++) {
            append(set, lengths[0]);
        }
        break;
    case 7:
        long_or_short();
        append(text, text_length);
        break;
    default:
        /* A string of the same set that is none of theirs. */
        for (size_t i = 0; i < data_length; i++) {
            data[i] = (uint8_t)next();
        }
        if (set_length > CODEX32_THRESHOLD_AT &&
            codex32_encode((uint32_t)set[CODEX32_THRESHOLD_AT] - '0', name, sizeof name, an_index(2), data, data_length, text,
                           sizeof text, &text_length) == CODEX32_OK) {
            append(text, text_length);
        }
    }
}

static uint32_t try_derive(void) {
    size_t length = 7777;
    make_set();
    below(2) ? change_set() : (void)0;
    uint32_t index = below(3) ? an_index(2) : CODEX32_SECRET_INDEX;
    uint32_t number =
        codex32_derive(index, set, set_length, lengths, count_of_texts, out, room(127, lengths[0] % 128), &length);
    put_size(length);
    return number;
}

static uint32_t try_recover(void) {
    size_t length = 7777;
    make_set();
    below(2) ? change_set() : (void)0;
    uint32_t number = codex32_recover(set, set_length, lengths, count_of_texts, out, room(64, data_length), &length);
    put_size(length);
    return number;
}

static uint32_t try_split(void) {
    static uint8_t random[8 * 103], shares[CODEX32_MAX_SPLIT * CODEX32_TEXT_SIZE + 1];
    size_t length = 7777;
    uint32_t threshold = below(12) ? 2 + below(8) : below(3) ? below(12) : next();
    make_name();
    make_secret();
    size_t name_length = below(20) ? sizeof name : below(sizeof name);
    size_t count = below(6) ? threshold + below(4) : below(6) ? below(40) : next();
    int is_any = threshold < 2 || threshold > 9 || data_length > 64 || !below(12);
    size_t drawn = is_any ? below(sizeof random) : CODEX32_RANDOM_SIZE(threshold, data_length);
    size_t wanted = count <= CODEX32_MAX_SPLIT && data_length <= 64 ? count * CODEX32_ENCODED_SIZE(data_length) : 100;
    size_t room_1 = room(sizeof shares - 1, wanted);
    for (size_t i = 0; i < sizeof random; i++) {
        random[i] = (uint8_t)next();
    }
    memset(shares, 0xa5, sizeof shares);
    uint32_t number =
        codex32_split(threshold, name, name_length, data, data_length, random, drawn, count, shares, room_1, &length);
    put_size(length);
    put(shares, sizeof shares);
    return number;
}

static uint32_t try_propose_long(void) {
    size_t length = 7777;
    codex32_memory memory = {lent, below(5) ? CODEX32_MEMORY(127) : below(20000)};
    size_t size = memory.size;
    long_or_short();
    if (below(8)) {
        data_length = 63 + below(2);
        codex32_encode(2, (const uint8_t *)"l0ng", 4, 'a', data, data_length, text, sizeof text, &text_length);
    }
    damage(1);
    uint32_t number = codex32_propose_long(text, text_length, &memory, out, room(127, text_length), &length);
    put_size(length);
    put_size(memory.start == lent && memory.size == size);
    put_size(memory.size == 0);
    return number;
}

static const struct {
    const char *name;
    uint32_t (*call)(void);
} tries[] = {
    {"encode", try_encode},
    {"decode", try_decode},
    {"check", try_check},
    {"fault", try_fault},
    {"segwit_encode", try_segwit_encode},
    {"segwit_decode", try_segwit_decode},
    {"residue", try_residue},
    {"correct", try_correct},
    {"nearest", try_nearest},
    {"near_edits", try_near_edits},
    {"message", try_message},
    {"codex32_message", try_codex32_message},
    {"parse", try_parse},
    {"propose", try_propose},
    {"share", try_share},
    {"codex32_encode", try_codex32_encode},
    {"encode_payload", try_encode_payload},
    {"derive", try_derive},
    {"split", try_split},
    {"recover", try_recover},
    {"propose_long", try_propose_long},
};

static void print_hash(void) {
    printf(" %08lx%08lx", (unsigned long)(hash >> 32), (unsigned long)(hash & 0xffffffffu));
}

int main(int words, char **word) {
    long calls = words > 1 ? strtol(word[1], NULL, 10) : 1000;
    for (size_t i = 0; i < sizeof tries / sizeof *tries; i++) {
        long numbers[100] = {0};
        if (words > 3 && strcmp(word[3], tries[i].name) != 0) {
            continue;
        }
        state = (words > 2 ? strtoul(word[2], NULL, 10) : 1) + i;
        hash = UINT64_C(0xcbf29ce484222325);
        for (long call = 0; call < calls; call++) {
            memset(out, 0xa5, sizeof out);
            memset(other, 0x5a, sizeof other);
            uint32_t number = tries[i].call();
            numbers[number % 100]++;
            put_size(number);
            put(out, sizeof out);
            put(other, sizeof other);
            if (words > 3) {
                printf("%s %ld: %u", tries[i].name, call, (unsigned)number);
                print_hash();
                printf("\n");
            }
        }
        printf("%s", tries[i].name);
        print_hash();
        for (int number = 0; number < 100; number++) {
            if (numbers[number]) {
                printf(" %d:%ld", number, numbers[number]);
            }
        }
        printf("\n");
    }
    return 0;
}
