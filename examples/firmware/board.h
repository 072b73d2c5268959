/* What the example has of its board: a line to a terminal. */
#ifndef BOARD_H
#define BOARD_H

#include <stddef.h>
#include <stdint.h>

void show(const char *text);
void show_bytes(const uint8_t *bytes, size_t length);
void show_hex(const uint8_t *bytes, size_t length);
void show_number(uint32_t number);

#endif
