/* What a Cortex-M3 starts with: the top of its stack, and the first function. */
#include <stddef.h>

extern void _start(void);
__attribute__((section(".vectors"), used)) static void *const vectors[2] = {(void *)0x20400000, (void *)_start};

/* The board has no random bytes: what the example takes them for is tested with these. */
int getentropy(void *bytes, size_t count);

int getentropy(void *bytes, size_t count) {
    static unsigned char next = 1;
    for (size_t i = 0; i < count; i++) {
        next = (unsigned char)(5 * next + 17);
        ((unsigned char *)bytes)[i] = next;
    }
    return 0;
}
