/*
 * How the functions of codex32.h run those of the library, as translator/bech32_own.c says it for bech32.h; a text, a
 * payload or the texts of a set are refused with CODEX32_NO_MEMORY there. A string is a secret: the library's stack is
 * filled with zeros before a call ends.
 */

/* A function of the library that calls itself does so once for each character that cannot be read, eight at most. */
#define DEPTH 9

OWN void wipe(volatile u8 *stack, size_t size) {
    for (size_t i = 0; i < size; i++) {
        stack[i] = 0;
    }
}

/* The lengths of texts, in their order. Of more than there can be one more is handed over: the answer depends on that
 * alone. */
OWN size_t put_lengths(u8 *given, const size_t *lengths, size_t count) {
    size_t most = count < CODEX32_MAX_SHARES + 1u ? count : CODEX32_MAX_SHARES + 1u;
    for (size_t i = 0; i < most; i++) {
        put_64(given + 8 * i, lengths[i]);
    }
    return most;
}
