/* Splits a new secret of 16 bytes into three shares, any two of which recover it, and recovers it from two (BIP-93).
 * The random bytes are those of the operating system; where it gives none, no share is made. What is secret is
 * wiped. It prints the shares only if it is called with a word: shares show. */
#ifdef _WIN32
#define _CRT_RAND_S
#endif
#include <stdio.h>
#include <stdlib.h>
#include <string.h>
#if defined(__linux__)
#include <errno.h>
#include <sys/random.h>
#elif defined(__APPLE__)
#include <sys/random.h>
#elif !defined(_WIN32)
#include <unistd.h>
#endif

#include "codex32.h"

#define THRESHOLD 2u
#define COUNT 3u
#define SIZE 16u
#define LENGTH CODEX32_ENCODED_SIZE(SIZE)

typedef struct {
    uint8_t secret[SIZE], texts[COUNT * LENGTH];
} Shared;

/* Fills bytes with random ones of the operating system, or returns 0. */
static int fill_random(uint8_t *bytes, size_t count) {
    size_t done = 0;
#if defined(__linux__)
    while (done < count) {
        ssize_t got = getrandom(bytes + done, count - done, 0);
        if (got > 0) {
            done += (size_t)got;
        } else if (got == 0 || errno != EINTR) {
            return 0;
        }
    }
#elif defined(_WIN32)
    for (; done < count; done++) {
        unsigned number;
        if (rand_s(&number) != 0) {
            return 0;
        }
        bytes[done] = (uint8_t)(number & 255u);
    }
#else
    /* At most 256 bytes in one call. */
    while (done < count) {
        size_t some = count - done < 256u ? count - done : 256u;
        if (getentropy(bytes + done, some) != 0) {
            return 0;
        }
        done += some;
    }
#endif
    return done == count;
}

static int fail(const char *what, uint32_t number) {
    uint8_t message[CODEX32_MAX_MESSAGE];
    size_t length = 0;
    codex32_message(number, message, sizeof message, &length);
    fprintf(stderr, "%s: refusal %u, %.*s\n", what, (unsigned)number, (int)length, (const char *)message);
    return 0;
}

/* Makes a secret and its shares. If you have a secret, put it there in place of random bytes. The identifier is drawn
 * too: each split needs a new one. */
static int share(Shared *shared) {
    static const char alphabet[] = "qpzry9x8gf2tvdw0s3jn54khce6mua7l";
    uint8_t identifier[CODEX32_IDENTIFIER_LENGTH], random[CODEX32_RANDOM_SIZE(THRESHOLD, SIZE)];
    size_t length;
    if (!fill_random(shared->secret, sizeof shared->secret) || !fill_random(identifier, sizeof identifier) ||
        !fill_random(random, sizeof random)) {
        fprintf(stderr, "the operating system gives no random bytes: no shares are made\n");
        return 0;
    }
    for (size_t i = 0; i < sizeof identifier; i++) {
        identifier[i] = (uint8_t)alphabet[identifier[i] & 31];
    }
    uint32_t number = codex32_split(THRESHOLD, identifier, sizeof identifier, shared->secret,
                                    sizeof shared->secret, random, sizeof random, COUNT, shared->texts,
                                    sizeof shared->texts, &length);
    codex32_wipe(random, sizeof random);
    return number == CODEX32_OK || fail("codex32_split", number);
}

/* Whether some of the shares recover the secret: all bytes are compared, wherever they differ. */
static int recovers(const Shared *shared, const size_t *which, size_t count) {
    uint8_t texts[COUNT * LENGTH], bytes[CODEX32_BYTES_SIZE], difference = 0;
    size_t lengths[COUNT], length = 0;
    for (size_t i = 0; i < count; i++) {
        memcpy(texts + i * LENGTH, shared->texts + which[i] * LENGTH, LENGTH);
        lengths[i] = LENGTH;
    }
    uint32_t number = codex32_recover(texts, count * LENGTH, lengths, count, bytes, sizeof bytes, &length);
    for (size_t i = 0; number == CODEX32_OK && i < SIZE; i++) {
        difference |= (uint8_t)(bytes[i] ^ shared->secret[i]);
    }
    codex32_wipe(texts, sizeof texts);
    codex32_wipe(bytes, sizeof bytes);
    if (number != CODEX32_OK) {
        return fail("codex32_recover", number);
    }
    return length == SIZE && difference == 0;
}

/* Any two recover the secret, and all three do, which are tested then. */
static int all_recover(const Shared *shared) {
    static const size_t which[] = {0, 1, 2, 0, 2};
    return recovers(shared, which, 2) && recovers(shared, which + 1, 2) && recovers(shared, which + 3, 2) &&
           recovers(shared, which, 3);
}

/* One share alone is refused. */
static int one_is_refused(const Shared *shared) {
    static const size_t lengths[] = {LENGTH};
    uint8_t bytes[CODEX32_BYTES_SIZE];
    size_t length;
    uint32_t number = codex32_recover(shared->texts, LENGTH, lengths, 1, bytes, sizeof bytes, &length);
    printf("one share alone: refusal %u\n", (unsigned)number);
    return number == CODEX32_TOO_FEW_SHARES;
}

static void show(const Shared *shared) {
    for (size_t i = 0; i < COUNT; i++) {
        printf("%.*s\n", (int)LENGTH, (const char *)shared->texts + i * LENGTH);
    }
}

int main(int words, char **word) {
    Shared shared;
    int is_done = share(&shared);
    if (is_done) {
        printf("%u shares of %u characters: any %u recover the secret\n", COUNT, LENGTH, THRESHOLD);
        if (words > 1 && strcmp(word[1], "show") == 0) {
            show(&shared);
        }
        is_done = all_recover(&shared) && one_is_refused(&shared);
    }
    codex32_wipe(&shared, sizeof shared);
    codex32_wipe_stack();
    return is_done ? 0 : 1;
}
