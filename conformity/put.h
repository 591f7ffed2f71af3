/* The report of the kit, written byte by byte. */
#ifndef PUT_H
#define PUT_H

#include "names.h"
#include <stdint.h>

/* Offered by the host or the board: where a byte of the report goes. */
void put_byte(int byte);

void put_text(const char *text);

/* A number in decimal. */
void put_number(uint64_t number);

/* Bytes as a vector file has them: in hexadecimal, four or more equal ones as BYTE*COUNT, and - for none. */
void put_bytes(const uint8_t *bytes, uint64_t length);

#endif
