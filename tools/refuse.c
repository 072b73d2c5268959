// Loaded into a program before the C library, this counts the program's requests for memory, refuses
// the one with the number REFUSED, and at the end writes their count into the file REQUESTS. Both are
// environment variables.

#include <fcntl.h>
#include <stddef.h>
#include <stdio.h>
#include <stdlib.h>
#include <unistd.h>

void *__libc_malloc(size_t size);
void *__libc_realloc(void *block, size_t size);

static unsigned long refused;
static unsigned long requests;

// Whether the request that comes now is the one to be refused.
static int is_refused(void) {
    requests += 1;
    return requests == refused;
}

void *malloc(size_t size) {
    return is_refused() ? NULL : __libc_malloc(size);
}

void *realloc(void *block, size_t size) {
    return is_refused() ? NULL : __libc_realloc(block, size);
}

__attribute__((constructor)) static void begin(void) {
    const char *number = getenv("REFUSED");
    refused = number == NULL ? 0 : strtoul(number, NULL, 10);
    requests = 0;
}

__attribute__((destructor)) static void end(void) {
    const unsigned long came = requests;
    const char *name = getenv("REQUESTS");
    const int file = name == NULL ? -1 : open(name, O_WRONLY | O_CREAT | O_TRUNC, 0600);
    if (file >= 0) {
        dprintf(file, "%lu\n", came);
        close(file);
    }
}
