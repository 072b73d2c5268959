/*
 * How the functions of bech32.h run those of the library: this file has what bech32_calls.c, which is made of the header,
 * calls, and the functions that it does not have. Texts, bytes and buffers are handed to the library where they lie.
 * Lengths, locations and other numbers are put in the library's form, eight bytes each, and what it answers is given to
 * the caller where the header says so.
 *
 * With MACHINE_IS_TESTED a text, a human-readable part, elements, numbers or a column of 2^32 bytes or more are refused with
 * BECH32_NO_MEMORY, and of longer buffers, bytes to encode and programs SOME bytes are handed over: no answer depends
 * on more.
 */

/* A function of the library that calls itself does so once for each erasure, of which there are six at most. */
#define DEPTH 7

/* The different ones of erasures, in their order, four at most: where there are more than three, the answer depends on
 * that alone. */
#define MOST_ERASURES 4u
#define MOST_LIQUID_ERASURES 7u

OWN size_t put_erasures(u8 *numbers, size_t most, const size_t *erasures, size_t length) {
    size_t count = 0;
    for (size_t i = 0; i < length && count < most; i++) {
        size_t j = 0;
        while (j < count && get_64(numbers + 8 * j) != erasures[i]) {
            j++;
        }
        if (j == count) {
            put_64(numbers + 8 * count++, erasures[i]);
        }
    }
    return count;
}

/* At most this many locations are put in the library's form beside the other numbers. More, which few texts have, are put
 * at the end of the lent memory. */
#define FEW_EDITS (2u * BECH32_NEAR_EDITS)

/* A location that no edit has: what stands where the library put none. */
#define NO_LOCATION (~(u64)0)

uint32_t bech32_correct(uint32_t checksum, const uint8_t *text, size_t text_length, const size_t *erasures,
                        size_t erasures_length, size_t *locations, size_t locations_room, uint8_t *values,
                        size_t values_room, size_t *count, uint8_t *mended, size_t mended_room, size_t *mended_length) {
    GIVEN(MOST_ERASURES);
    NUMBERS(2 + BECH32_MAX_LISTED);
    if (IS_TOO_LONG(text_length)) {
        return BECH32_NO_MEMORY;
    }
    MACHINE(bech32_correct);
    u64 given_count = put_erasures(given, MOST_ERASURES, erasures, erasures_length);
    u64 most = locations_room < BECH32_MAX_LISTED ? locations_room : BECH32_MAX_LISTED;
    u64 values_size = SOME(values_room), mended_size = SOME(mended_room);
    u64 text_at = lend(&m, text, text_length), given_at = lend(&m, given, sizeof given_words);
    u64 values_at = lend_room(&m, values, values_size), mended_at = lend_room(&m, mended, mended_size);
    u64 at = lend_room(&m, numbers, sizeof number_words);
    uint32_t number = of_bech32_correct(&m, checksum, text_at, text_length, given_at, given_count, at + 16, most,
                                        values_at, values_size, at, mended_at, mended_size, at + 8);
    if (number == BECH32_OK) {
        *count = (size_t)get_64(numbers);
        *mended_length = (size_t)get_64(numbers + 8);
        for (size_t i = 0; i < *count; i++) {
            locations[i] = (size_t)get_64(numbers + 16 + 8 * i);
        }
    }
    return number;
}

/*
 * Columns. ROWS rows are handed over at a time, with their offsets in the library's form: no row depends on another, and
 * each buffer is handed over from the first row on that is not yet put.
 */
#define ROWS 64u
#define MOST_OFFSETS (ROWS + 9u)
#define COLUMN_SIZE 72u

OWN u8 *behind(u8 *at, size_t size) {
    return at == NULL ? NULL : at + size;
}

/* Puts offsets from one on in the library's form, as many as there are and are asked for, and gives their length. */
OWN size_t put_column_offsets(u8 *form, const bech32_column *column, size_t first, size_t count) {
    size_t width = column->layout == BECH32_OFFSETS_32 ? 4 : 8, items = column->offsets_length / width, i;
    const u8 *from = (const u8 *)column->offsets;
    for (i = 0; i < count && first + i < items; i++) {
        int32_t narrow;
        int64_t wide;
        if (width == 4) {
            memcpy(&narrow, from + (first + i) * 4, sizeof narrow);
            put_32(form + 4 * i, (u32)narrow);
        } else {
            memcpy(&wide, from + (first + i) * 8, sizeof wide);
            put_64(form + 8 * i, (u64)wide);
        }
    }
    return i * width;
}

/* Puts a column of the library in front of its offsets: `count` rows from row first % 8 on, which are those from `first`
 * on. At least the first of these has to be in the column. */
OWN void put_column(Machine *m, u8 *form, u64 at, const bech32_column *column, size_t first, size_t count) {
    size_t skip = first % 8, base = first - skip, bits = base / 8, offsets_length = 0, bytes_length = column->bytes_length;
    const u8 *bytes = column->bytes;
    u32 layout = column->layout;
    if (layout == BECH32_OFFSETS_32 || layout == BECH32_OFFSETS_64) {
        offsets_length = put_column_offsets(form + COLUMN_SIZE, column, base, skip + count + 1);
    } else if (column->width > 0 && base > bytes_length / column->width) {
        bytes_length = 0;
    } else if (base > 0 && column->width > 0) {
        bytes += base * column->width;
        bytes_length -= base * column->width;
    }
    size_t validity_length = column->validity_length > bits ? column->validity_length - bits : 0;
    if (validity_length < column->validity_length && validity_length == 0 && layout - 1u < 4u) {
        /* No bit of these rows is there, as none is in a column without offsets. */
        layout = BECH32_OFFSETS_32;
        offsets_length = 0;
    }
    put_64(form, lend(m, bytes, bytes_length));
    put_64(form + 8, bytes_length);
    put_64(form + 16, at + COLUMN_SIZE);
    put_64(form + 24, offsets_length);
    put_64(form + 32, lend(m, validity_length > 0 ? column->validity + bits : NULL, validity_length));
    put_64(form + 40, validity_length);
    put_64(form + 48, skip + count);
    put_64(form + 56, column->width);
    put_64(form + 64, layout);
}

OWN int has_rows(const bech32_column *column, size_t first, size_t count) {
    return first <= column->rows && count <= column->rows - first;
}

OWN size_t lesser(size_t a, size_t b) {
    return a < b ? a : b;
}

uint32_t bech32_check_many(uint32_t checksum, const bech32_column *texts, size_t first,
                           uint8_t *numbers, size_t count) {
    size_t put = 0;
    if (IS_TOO_LONG(texts->bytes_length)) {
        return BECH32_NO_MEMORY;
    }
    if (!has_rows(texts, first, count)) {
        return BECH32_BAD_NUMBER;
    }
    do {
        GIVEN(COLUMN_SIZE / 8 + MOST_OFFSETS);
        MACHINE(bech32_check_many);
        size_t rows = lesser(count - put, ROWS);
        u64 at = lend_room(&m, given, sizeof given_words), numbers_at = lend_room(&m, behind(numbers, put), rows);
        put_column(&m, given, at, texts, first + put, rows);
        uint32_t number = of_bech32_check_many(&m, checksum, at, (first + put) % 8, numbers_at, rows);
        if (number != BECH32_OK) {
            return number;
        }
        put += rows;
    } while (put < count);
    return BECH32_OK;
}

/* Gives the offsets of the rows that were put, and where the last one ends. */
OWN size_t take_offsets(int32_t *offsets, const u8 *form, size_t rows, size_t end) {
    for (size_t i = 0; i <= rows; i++) {
        offsets[i] = (int32_t)(end + get_32(form + 4 * i));
    }
    return end + get_32(form + 4 * rows);
}

uint32_t bech32_segwit_decode_many(const bech32_column *texts, size_t first, const uint8_t *hrp,
                                   size_t hrp_length, uint8_t *numbers, size_t count, uint8_t *versions,
                                   size_t versions_room, uint8_t *hrp_lengths, size_t hrp_lengths_room,
                                   int32_t *program_offsets, size_t program_offsets_room,
                                   uint8_t *programs, size_t programs_room, size_t *done) {
    size_t put = 0, end = 0, room = lesser(programs_room, INT32_MAX);
    uint32_t number;
    if (IS_TOO_LONG(texts->bytes_length) || IS_TOO_LONG(hrp_length)) {
        return BECH32_NO_MEMORY;
    }
    if (!has_rows(texts, first, count)) {
        return BECH32_BAD_NUMBER;
    }
    do {
        GIVEN(COLUMN_SIZE / 8 + MOST_OFFSETS + 1 + ROWS);
        MACHINE(bech32_segwit_decode_many);
        u8 *told = given + COLUMN_SIZE + 8 * MOST_OFFSETS, *places = told + 8;
        size_t rows = lesser(count - put, ROWS), items = lesser(program_offsets_room - put, rows + 1);
        size_t most_versions = lesser(versions_room - put, rows), most_lengths = lesser(hrp_lengths_room - put, rows);
        size_t left = lesser(room - end, ROWS * BECH32_MAX_SEGWIT_PROGRAM);
        if (put > 0 && (versions_room == put || hrp_lengths_room == put)) {
            number = BECH32_NO_ROOM;
            break;
        }
        items = program_offsets_room > 0 ? items : 0;
        most_versions = versions_room > 0 ? most_versions : 0;
        most_lengths = hrp_lengths_room > 0 ? most_lengths : 0;
        u64 at = lend_room(&m, given, sizeof given_words), hrp_at = lend(&m, hrp, hrp_length);
        u64 numbers_at = lend_room(&m, behind(numbers, put), rows);
        u64 versions_at = lend_room(&m, most_versions > 0 ? versions + put : NULL, most_versions);
        u64 lengths_at = lend_room(&m, most_lengths > 0 ? hrp_lengths + put : NULL, most_lengths);
        u64 programs_at = lend_room(&m, left > 0 ? programs + end : NULL, left);
        u64 told_at = at + COLUMN_SIZE + 8 * MOST_OFFSETS;
        put_column(&m, given, at, texts, first + put, rows);
        number = of_bech32_segwit_decode_many(&m, at, (first + put) % 8, hrp_at, hrp_length, numbers_at, rows, versions_at,
                                              most_versions, lengths_at, most_lengths, told_at + 8, items, programs_at, left,
                                              told_at);
        /* There are no such rows, or the part is none: nothing is put. */
        if (number != BECH32_OK && number != BECH32_NO_ROOM) {
            return number;
        }
        rows = (size_t)get_64(told);
        end = items > 0 ? take_offsets(program_offsets + put, places, rows, end) : end;
        put += rows;
    } while (number == BECH32_OK && put < count);
    *done = put;
    return number;
}

uint32_t bech32_segwit_encode_many(const uint8_t *hrp, size_t hrp_length, const uint8_t *versions,
                                   size_t versions_length, const bech32_column *programs, size_t first,
                                   uint8_t *numbers, size_t count, int32_t *text_offsets,
                                   size_t text_offsets_room, uint8_t *texts, size_t texts_room,
                                   size_t *done) {
    size_t put = 0, end = 0, room = lesser(texts_room, INT32_MAX);
    uint32_t number;
    if (IS_TOO_LONG(programs->bytes_length) || IS_TOO_LONG(hrp_length)) {
        return BECH32_NO_MEMORY;
    }
    if (!has_rows(programs, first, count) || versions_length < count) {
        return BECH32_BAD_NUMBER;
    }
    do {
        GIVEN(COLUMN_SIZE / 8 + MOST_OFFSETS + 1 + ROWS);
        MACHINE(bech32_segwit_encode_many);
        u8 *told = given + COLUMN_SIZE + 8 * MOST_OFFSETS, *places = told + 8;
        size_t rows = lesser(count - put, ROWS), left = lesser(room - end, ROWS * BECH32_MAX_SEGWIT_TEXT);
        size_t items = text_offsets_room > 0 ? lesser(text_offsets_room - put, rows + 1) : 0;
        u64 at = lend_room(&m, given, sizeof given_words), hrp_at = lend(&m, hrp, hrp_length);
        u64 versions_at = lend(&m, rows > 0 ? versions + put : NULL, rows);
        u64 numbers_at = lend_room(&m, behind(numbers, put), rows);
        u64 texts_at = lend_room(&m, left > 0 ? texts + end : NULL, left);
        u64 told_at = at + COLUMN_SIZE + 8 * MOST_OFFSETS;
        put_column(&m, given, at, programs, first + put, rows);
        number = of_bech32_segwit_encode_many(&m, hrp_at, hrp_length, versions_at, rows, at, (first + put) % 8, numbers_at,
                                              rows, told_at + 8, items, texts_at, left, told_at);
        if (number == BECH32_BAD_NUMBER) {
            return number;
        }
        rows = (size_t)get_64(told);
        end = items > 0 ? take_offsets(text_offsets + put, places, rows, end) : end;
        put += rows;
    } while (number == BECH32_OK && put < count);
    *done = put;
    return number;
}

uint32_t bech32_validity_of(const uint8_t *numbers, size_t count, uint8_t *validity,
                            size_t validity_room, size_t *accepted) {
    GIVEN(1);
    if (IS_TOO_LONG(count)) {
        return BECH32_NO_MEMORY;
    }
    MACHINE(bech32_validity_of);
    u64 validity_size = lesser(validity_room, count / 8 + 1), numbers_at = lend(&m, numbers, count);
    u64 validity_at = lend_room(&m, validity, validity_size), at = lend_room(&m, given, sizeof given_words);
    uint32_t number = of_bech32_validity_of(&m, numbers_at, count, validity_at, validity_size, at);
    if (number == BECH32_OK) {
        *accepted = (size_t)get_64(given);
    }
    return number;
}
