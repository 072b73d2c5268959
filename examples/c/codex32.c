/* Reads the parts of a codex32 string, refuses a damaged one, and proposes the nearest text to it. It also tests
 * a Bech32 text: the two libraries go into one program. */
#include <stdio.h>
#include <string.h>

#include "bech32.h"
#include "codex32.h"

int main(void) {
    const char *string = "ms10testsxxxxxxxxxxxxxxxxxxxxxxxxxx4nzvca9cmczlw";
    const char *damaged = "ms1qtestsqxxxxxxxxxxxxxxxxxxxxxxxxq4nzvca9cmczlq";
    uint32_t threshold, share_index, number;
    size_t payload_length, hrp_length, data_length;

    number = codex32_parse((const uint8_t *)string, strlen(string), &threshold, &share_index,
                           &payload_length);
    if (number != CODEX32_OK) {
        return 1;
    }
    printf("threshold %u, identifier %.*s, share %c, payload %.*s\n", (unsigned)threshold,
           (int)CODEX32_IDENTIFIER_LENGTH, string + CODEX32_IDENTIFIER_AT, (int)share_index,
           (int)payload_length, string + CODEX32_PAYLOAD_AT);

    number = codex32_parse((const uint8_t *)damaged, strlen(damaged), &threshold, &share_index,
                           &payload_length);
    uint8_t message[CODEX32_MAX_MESSAGE];
    size_t message_length;
    if (codex32_message(number, message, sizeof message, &message_length) != CODEX32_OK) {
        return 1;
    }
    printf("%s: refusal %u, %.*s\n", damaged, (unsigned)number, (int)message_length, (char *)message);

    /* The memory begins at a multiple of 16. */
    static uint8_t bytes[CODEX32_MEMORY(CODEX32_MAX_TEXT) + 15u];
    codex32_memory memory = {bytes + (0u - (uintptr_t)bytes) % 16u, sizeof bytes - 15u};
    uint8_t proposed[CODEX32_MAX_TEXT];
    size_t proposed_length;
    number = codex32_propose((const uint8_t *)damaged, strlen(damaged), &memory, proposed,
                             sizeof proposed, &proposed_length);
    if (number != CODEX32_OK) {
        return 1;
    }
    printf("proposed: %.*s\n", (int)proposed_length, (char *)proposed);

    number = bech32_check(BECH32_BECH32, (const uint8_t *)"a12uel5l", 8, &hrp_length, &data_length);
    return number == BECH32_OK ? 0 : 1;
}
