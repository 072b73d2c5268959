/*
 * An address is typed into a small device: it shows where a wrong character stands, and what the address should be.
 * Nothing lies in memory but the stack. examples/firmware/run builds it for a Cortex-M3 and runs it in qemu.
 */
#include <string.h>

#include "bech32.h"
#include "board.h"

/* Shows a text, of which one character may be marked by a line below it. */
static void show_typed(const uint8_t *text, size_t length, size_t marked) {
    show("typed:  ");
    show_bytes(text, length);
    show("\n");
    if (marked < length) {
        show("        ");
        for (size_t i = 0; i < marked; i++) {
            show(" ");
        }
        show("^\n");
    }
}

static void show_refusal(uint32_t number) {
    uint8_t sentence[BECH32_MAX_MESSAGE];
    size_t length = 0;
    bech32_message(number, sentence, sizeof sentence, &length);
    show("refused: ");
    show_bytes(sentence, length);
    show("\n");
}

/* What an address pays to. */
static void show_program(const uint8_t *text, size_t length) {
    uint8_t hrp[BECH32_MAX_HRP], program[BECH32_MAX_SEGWIT_PROGRAM];
    size_t hrp_length, program_length;
    uint32_t version;
    uint32_t number = bech32_segwit_decode(text, length, hrp, sizeof hrp, &hrp_length, &version, program,
                                           sizeof program, &program_length);
    if (number != BECH32_OK) {
        show_refusal(number);
        return;
    }
    show("network ");
    show_bytes(hrp, hrp_length);
    show(", version ");
    show_number(version);
    show(", program ");
    show_hex(program, program_length);
    show("\n");
}

/* Mends a text of which at most one character is known to be wrong, by its location, and shows what is changed. */
static void mend(uint32_t checksum, const uint8_t *text, size_t length, const size_t *wrong, size_t wrong_length) {
    uint8_t mended[BECH32_MAX_SEGWIT_TEXT], values[BECH32_MAX_LISTED];
    size_t locations[BECH32_MAX_LISTED], count, mended_length;
    uint32_t number = bech32_correct(checksum, text, length, wrong, wrong_length, locations, BECH32_MAX_LISTED, values,
                                     BECH32_MAX_LISTED, &count, mended, sizeof mended, &mended_length);
    if (number != BECH32_OK) {
        show_refusal(number);
        return;
    }
    for (size_t i = 0; i < count; i++) {
        size_t place = length - 1 - locations[i];
        show("character ");
        show_number((uint32_t)place + 1);
        show(" should be ");
        show_bytes(mended + place, 1);
        show("\n");
    }
    show("mended: ");
    show_bytes(mended, mended_length);
    show("\n");
    show_program(mended, mended_length);
}

/* Shows an address as it was typed, and mends it. */
static void enter(uint32_t checksum, const char *typed) {
    uint8_t text[BECH32_MAX_SEGWIT_TEXT];
    size_t length = strlen(typed), place = 0, wrong;
    memcpy(text, typed, length);
    uint32_t number = bech32_fault(checksum, text, length, &place);
    show_typed(text, length, number == BECH32_OK ? length : place);
    if (number == BECH32_OK) {
        show_program(text, length);
        return;
    }
    show_refusal(number);
    if (number == BECH32_INVALID_CHARACTER) {
        /* No element stands there: any will do, of a character that is known to be wrong. */
        text[place] = 'q';
        wrong = length - 1 - place;
        mend(checksum, text, length, &wrong, 1);
    } else if (number == BECH32_WRONG_CHECKSUM) {
        mend(checksum, text, length, &wrong, 0);
    }
}

int main(void) {
    enter(BECH32_BECH32, "bc1qw508d6qejxtdg4y5r3zarvary0c5xw7kv8f3t4");
    /* A letter for a digit. */
    enter(BECH32_BECH32, "bc1qw508d6qejxtdg4y5r3zarvaryOc5xw7kv8f3t4");
    enter(BECH32_BECH32, "bc1qw508d6qejxtdg4y5r3zarvaryoc5xw7kv8f3t4");
    /* Another character of the alphabet. */
    enter(BECH32_BECH32M, "bc1p0xlxvlhemja6c4dqv22uapctqupfhlxm9h8z3k2e72q4k9hcz7vqzk5jf0");
    return 0;
}
