/*
 * Bech32 for SQLite: a loadable extension over the calls of bech32.h.
 *
 *     SELECT load_extension('./bech32');
 *
 * bech32_check(text [, checksum])         1 or 0
 * bech32_number(text)                     0, or the number of the refusal
 * bech32_fault(text)                      null, or what is wrong, and where
 * bech32_correct(text [, checksum])       the mended text, or null
 * segwit_check(text [, hrp])              1 or 0
 * segwit_number(text), segwit_fault(text) as above
 * segwit_hrp(text), segwit_version(text), segwit_program(text)
 *                                         its parts, or null where it is no address
 * segwit_lower(text)                      the address in lower case, or null: what to compare and to index by
 * segwit_encode(hrp, version, program)    the address, or null where none has these parts
 *
 * Null gives null, and so does a number; a blob is taken as a text. All are deterministic, so they may stand in
 * indexes, in generated columns and in checks, and innocuous, so that views and triggers may call them.
 */
#include <stdio.h>
#include <string.h>

#include "sqlite3ext.h"
SQLITE_EXTENSION_INIT1

#include "bech32.h"

typedef struct {
    const uint8_t *at;
    size_t length;
} Given;

typedef struct {
    uint8_t hrp[BECH32_MAX_HRP], program[BECH32_MAX_SEGWIT_PROGRAM];
    size_t hrp_length, program_length;
    uint32_t version;
} Parts;

/* Whether a value is a text or a blob, and its bytes. */
static int given(sqlite3_value *value, Given *it) {
    int type = sqlite3_value_type(value);
    if (type != SQLITE_TEXT && type != SQLITE_BLOB) {
        return 0;
    }
    /* The bytes before their number, as SQLite wants it. */
    it->at = type == SQLITE_TEXT ? sqlite3_value_text(value) : sqlite3_value_blob(value);
    it->length = (size_t)sqlite3_value_bytes(value);
    return it->at != NULL || it->length == 0;
}

static uint32_t check_either(Given it) {
    size_t hrp_length, data_length;
    uint32_t number = bech32_check(BECH32_BECH32M, it.at, it.length, &hrp_length, &data_length);
    if (number == BECH32_WRONG_CHECKSUM) {
        number = bech32_check(BECH32_BECH32, it.at, it.length, &hrp_length, &data_length);
    }
    return number;
}

static uint32_t decode(Given it, Parts *parts) {
    return bech32_segwit_decode(it.at, it.length, parts->hrp, sizeof parts->hrp, &parts->hrp_length,
                                &parts->version, parts->program, sizeof parts->program,
                                &parts->program_length);
}

/* The checksum of a name, or 0: then an error is set. */
static uint32_t checksum_of(sqlite3_context *context, sqlite3_value *value) {
    Given it;
    if (given(value, &it)) {
        if (it.length == 6 && memcmp(it.at, "bech32", 6) == 0) {
            return BECH32_BECH32;
        }
        if (it.length == 7 && memcmp(it.at, "bech32m", 7) == 0) {
            return BECH32_BECH32M;
        }
    }
    sqlite3_result_error(context, "a checksum is 'bech32' or 'bech32m'", -1);
    return 0;
}

/* The place of a fault is counted from 1, in characters. */
static void put_sentence(sqlite3_context *context, uint32_t number, Given it) {
    char message[BECH32_MAX_MESSAGE + 40];
    size_t length = 0, place;
    (void)bech32_message(number, (uint8_t *)message, BECH32_MAX_MESSAGE, &length);
    if ((number == BECH32_HRP_NOT_ASCII || number == BECH32_HRP_INVALID || number == BECH32_INVALID_CHARACTER ||
         number == BECH32_MIXED_CASE) &&
        bech32_fault(BECH32_BECH32M, it.at, it.length, &place) == number) {
        size_t characters = 1;
        for (size_t i = 0; i < place; i++) {
            characters += (it.at[i] & 0xc0) != 0x80;
        }
        length += (size_t)snprintf(message + length, 40, " (character %zu)", characters);
    }
    sqlite3_result_text(context, message, (int)length, SQLITE_TRANSIENT);
}

static void check(sqlite3_context *context, int count, sqlite3_value **values) {
    Given it;
    if (!given(values[0], &it)) {
        return;
    }
    if (count == 1) {
        sqlite3_result_int(context, check_either(it) == BECH32_OK);
        return;
    }
    if (sqlite3_value_type(values[1]) == SQLITE_NULL) {
        return;
    }
    uint32_t checksum = checksum_of(context, values[1]);
    size_t hrp_length, data_length;
    if (checksum != 0) {
        sqlite3_result_int(context, bech32_check(checksum, it.at, it.length, &hrp_length, &data_length) == BECH32_OK);
    }
}

static void number(sqlite3_context *context, int count, sqlite3_value **values) {
    Given it;
    (void)count;
    if (given(values[0], &it)) {
        sqlite3_result_int(context, (int)check_either(it));
    }
}

static void fault(sqlite3_context *context, int count, sqlite3_value **values) {
    Given it;
    (void)count;
    if (given(values[0], &it)) {
        uint32_t found = check_either(it);
        if (found != BECH32_OK) {
            put_sentence(context, found, it);
        }
    }
}

/* Mends by a checksum, and returns whether it could. */
static int mend(uint32_t checksum, Given it, uint8_t *mended, size_t *length) {
    uint8_t values[BECH32_MAX_LISTED];
    size_t locations[BECH32_MAX_LISTED], count;
    return bech32_correct(checksum, it.at, it.length, NULL, 0, locations, BECH32_MAX_LISTED, values,
                          BECH32_MAX_LISTED, &count, mended, BECH32_MAX_TEXT, length) == BECH32_OK;
}

static void correct(sqlite3_context *context, int count, sqlite3_value **values) {
    Given it;
    uint8_t one[BECH32_MAX_TEXT], other[BECH32_MAX_TEXT];
    size_t one_length, other_length;
    if (!given(values[0], &it) || (count == 2 && sqlite3_value_type(values[1]) == SQLITE_NULL)) {
        return;
    }
    if (count == 2) {
        uint32_t checksum = checksum_of(context, values[1]);
        if (checksum != 0 && mend(checksum, it, one, &one_length)) {
            sqlite3_result_text(context, (char *)one, (int)one_length, SQLITE_TRANSIENT);
        }
        return;
    }
    size_t hrp_length, data_length;
    int by_m = mend(BECH32_BECH32M, it, one, &one_length), by_1 = mend(BECH32_BECH32, it, other, &other_length);
    /* What a checksum accepts needs no mending by the other. */
    if (by_m && by_1) {
        by_1 = bech32_check(BECH32_BECH32M, it.at, it.length, &hrp_length, &data_length) != BECH32_OK;
        by_m = bech32_check(BECH32_BECH32, it.at, it.length, &hrp_length, &data_length) != BECH32_OK;
    }
    if (by_m != by_1) {
        sqlite3_result_text(context, (char *)(by_m ? one : other), (int)(by_m ? one_length : other_length),
                            SQLITE_TRANSIENT);
    }
}

enum { CHECK, NUMBER, FAULT, HRP, VERSION, PROGRAM, LOWER };

static void part(sqlite3_context *context, int count, sqlite3_value **values, int wanted) {
    Given it, hrp = {NULL, 0};
    Parts parts;
    if (!given(values[0], &it) || (count == 2 && !given(values[1], &hrp))) {
        return;
    }
    uint32_t found = decode(it, &parts);
    for (size_t i = 0; found == BECH32_OK && i < parts.hrp_length; i++) {
        parts.hrp[i] |= (uint8_t)((parts.hrp[i] >= 'A' && parts.hrp[i] <= 'Z') << 5);
    }
    switch (wanted) {
    case CHECK:
        if (found == BECH32_OK && count == 2) {
            found = parts.hrp_length != hrp.length ||
                    sqlite3_strnicmp((char *)parts.hrp, (const char *)hrp.at, (int)hrp.length) != 0;
        }
        sqlite3_result_int(context, found == BECH32_OK);
        return;
    case NUMBER:
        sqlite3_result_int(context, (int)found);
        return;
    case FAULT:
        if (found != BECH32_OK) {
            put_sentence(context, found, it);
        }
        return;
    default:
        break;
    }
    if (found != BECH32_OK) {
        return;
    }
    if (wanted == HRP) {
        sqlite3_result_text(context, (char *)parts.hrp, (int)parts.hrp_length, SQLITE_TRANSIENT);
    } else if (wanted == VERSION) {
        sqlite3_result_int(context, (int)parts.version);
    } else if (wanted == PROGRAM) {
        sqlite3_result_blob(context, parts.program, (int)parts.program_length, SQLITE_TRANSIENT);
    } else {
        char lower[BECH32_MAX_SEGWIT_TEXT];
        for (size_t i = 0; i < it.length; i++) {
            lower[i] = (char)(it.at[i] | (it.at[i] >= 'A' && it.at[i] <= 'Z') << 5);
        }
        sqlite3_result_text(context, lower, (int)it.length, SQLITE_TRANSIENT);
    }
}

#define PART(name, wanted)                                                                  \
    static void name(sqlite3_context *context, int count, sqlite3_value **values) {         \
        part(context, count, values, wanted);                                               \
    }
PART(segwit_check, CHECK)
PART(segwit_number, NUMBER)
PART(segwit_fault, FAULT)
PART(segwit_hrp, HRP)
PART(segwit_version, VERSION)
PART(segwit_program, PROGRAM)
PART(segwit_lower, LOWER)

static void segwit_encode(sqlite3_context *context, int count, sqlite3_value **values) {
    Given hrp, program;
    uint8_t text[BECH32_MAX_SEGWIT_TEXT];
    size_t length = 0;
    (void)count;
    if (!given(values[0], &hrp) || sqlite3_value_type(values[1]) != SQLITE_INTEGER || !given(values[2], &program)) {
        return;
    }
    sqlite3_int64 version = sqlite3_value_int64(values[1]);
    if (version >= 0 && version <= 16 &&
        bech32_segwit_encode(hrp.at, hrp.length, (uint32_t)version, program.at, program.length, text, sizeof text,
                             &length) == BECH32_OK) {
        sqlite3_result_text(context, (char *)text, (int)length, SQLITE_TRANSIENT);
    }
}

#ifdef _WIN32
__declspec(dllexport)
#else
__attribute__((visibility("default")))
#endif
int sqlite3_bech_init(sqlite3 *db, char **message, const sqlite3_api_routines *api) {
    static const struct {
        const char *name;
        int count;
        void (*function)(sqlite3_context *, int, sqlite3_value **);
    } functions[] = {
        {"bech32_check", 1, check},           {"bech32_check", 2, check},
        {"bech32_number", 1, number},         {"bech32_fault", 1, fault},
        {"bech32_correct", 1, correct},       {"bech32_correct", 2, correct},
        {"segwit_check", 1, segwit_check},    {"segwit_check", 2, segwit_check},
        {"segwit_number", 1, segwit_number},  {"segwit_fault", 1, segwit_fault},
        {"segwit_hrp", 1, segwit_hrp},        {"segwit_version", 1, segwit_version},
        {"segwit_program", 1, segwit_program}, {"segwit_lower", 1, segwit_lower},
        {"segwit_encode", 3, segwit_encode},
    };
    (void)message;
    SQLITE_EXTENSION_INIT2(api);
    for (size_t i = 0; i < sizeof functions / sizeof *functions; i++) {
        int status = sqlite3_create_function_v2(db, functions[i].name, functions[i].count,
                                                SQLITE_UTF8 | SQLITE_DETERMINISTIC | SQLITE_INNOCUOUS, NULL,
                                                functions[i].function, NULL, NULL, NULL);
        if (status != SQLITE_OK) {
            return status;
        }
    }
    return SQLITE_OK;
}
