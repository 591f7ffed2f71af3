/* The report of the kit, written byte by byte. */
#include "put.h"

void put_text(const char *text)
{
    while (*text != '\0') {
        put_byte((unsigned char)*text++);
    }
}

void put_number(uint64_t number)
{
    char digits[20];
    int count = 0;
    do {
        digits[count++] = (char)('0' + (int)(number % 10));
        number /= 10;
    } while (number > 0);
    while (count > 0) {
        put_byte((unsigned char)digits[--count]);
    }
}

void put_bytes(const uint8_t *bytes, uint64_t length)
{
    static const char digits[] = "0123456789ABCDEF";
    uint64_t i = 0;
    if (length == 0) {
        put_text("-");
    }
    while (i < length) {
        uint64_t same = 1, k;
        while (i + same < length && bytes[i + same] == bytes[i]) {
            same++;
        }
        for (k = 0; k < (same < 4 ? same : 1); k++) {
            put_text(i + k == 0 ? "" : " ");
            put_byte(digits[bytes[i] / 16]);
            put_byte(digits[bytes[i] % 16]);
        }
        if (same >= 4) {
            put_byte('*');
            put_number(same);
        }
        i += same;
    }
}
