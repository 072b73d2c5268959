/* The start of the board mps2-an385 of qemu, its serial line, and how much of the stack was taken. */
#include "board.h"

#include <string.h>

#define PATTERN 0xa5a5a5a5u

/* The serial line (CMSDK UART 0). */
#define DATA (*(volatile uint32_t *)0x40004000)
#define STATE (*(volatile uint32_t *)0x40004004)
#define CONTROL (*(volatile uint32_t *)0x40004008)
#define DIVIDER (*(volatile uint32_t *)0x40004010)

extern uint32_t stack_end, stack_start;
int main(void);
void start(void);

__attribute__((section(".vectors"), used)) static const void *const vectors[2] = {&stack_start, (const void *)start};

void show_bytes(const uint8_t *bytes, size_t length) {
    for (size_t i = 0; i < length; i++) {
        while (STATE & 1) {
        }
        DATA = bytes[i];
    }
}

void show(const char *text) {
    show_bytes((const uint8_t *)text, strlen(text));
}

void show_hex(const uint8_t *bytes, size_t length) {
    for (size_t i = 0; i < length; i++) {
        show_bytes((const uint8_t *)"0123456789abcdef" + (bytes[i] >> 4), 1);
        show_bytes((const uint8_t *)"0123456789abcdef" + (bytes[i] & 15), 1);
    }
}

void show_number(uint32_t number) {
    uint8_t digit = (uint8_t)('0' + number % 10);
    if (number > 9) {
        show_number(number / 10);
    }
    show_bytes(&digit, 1);
}

/* Ends qemu, by its semihosting: what a device does not do. */
static void end(void) {
    register uint32_t call __asm__("r0") = 0x18, reason __asm__("r1") = 0x20026;
    __asm__ volatile("bkpt 0xab" : : "r"(call), "r"(reason) : "memory");
}

/* The whole stack below this function is filled with a pattern, of which main leaves what it does not take. */
void start(void) {
    uint32_t *const top = (uint32_t *)__builtin_frame_address(0) - 16;
    for (uint32_t *at = &stack_end; at < top; at++) {
        *(volatile uint32_t *)at = PATTERN;
    }
    DIVIDER = 16;
    CONTROL = 1;
    main();
    uint32_t *at = &stack_end;
    while (*at == PATTERN) {
        at++;
    }
    show("stack taken: ");
    show_number((uint32_t)((uint8_t *)&stack_start - (uint8_t *)at));
    show(" bytes\n");
    end();
    for (;;) {
    }
}
