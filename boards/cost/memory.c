/* What the library and the compiler want for blocks of memory: a word at a time where the place is aligned to a word, so that the count does not hang on a C
 * library. */
#include <stddef.h>
#include <stdint.h>

typedef uintptr_t __attribute__((may_alias)) word;

void *memset(void *place, int byte, size_t count)
{
    uint8_t *to = place, *end = to + count;
    const word all = (word)-1 / 255 * (uint8_t)byte;
    while (to < end && (uintptr_t)to % sizeof(word) != 0) {
        *to++ = (uint8_t)byte;
    }
    for (; (size_t)(end - to) >= sizeof(word); to += sizeof(word)) {
        *(word *)to = all;
    }
    while (to < end) {
        *to++ = (uint8_t)byte;
    }
    return place;
}

void *memcpy(void *place, const void *source, size_t count)
{
    uint8_t *to = place, *end = to + count;
    const uint8_t *from = source;
    if (((uintptr_t)to | (uintptr_t)from) % sizeof(word) == 0) {
        for (; (size_t)(end - to) >= sizeof(word); to += sizeof(word), from += sizeof(word)) {
            *(word *)to = *(const word *)from;
        }
    }
    while (to < end) {
        *to++ = *from++;
    }
    return place;
}

#if defined(__arm__)

/* The names and the order of parameters that Arm's interface for bare processors has. A name with 4 or 8 is of a place that is aligned so. */
void __aeabi_memset(void *place, size_t count, int byte);
void __aeabi_memset4(void *place, size_t count, int byte) __attribute__((alias("__aeabi_memset")));
void __aeabi_memset8(void *place, size_t count, int byte) __attribute__((alias("__aeabi_memset")));
void __aeabi_memclr(void *place, size_t count);
void __aeabi_memclr4(void *place, size_t count) __attribute__((alias("__aeabi_memclr")));
void __aeabi_memclr8(void *place, size_t count) __attribute__((alias("__aeabi_memclr")));
void __aeabi_memcpy(void *place, const void *source, size_t count);
void __aeabi_memcpy4(void *place, const void *source, size_t count) __attribute__((alias("__aeabi_memcpy")));
void __aeabi_memcpy8(void *place, const void *source, size_t count) __attribute__((alias("__aeabi_memcpy")));

void __aeabi_memset(void *place, size_t count, int byte)
{
    memset(place, byte, count);
}

void __aeabi_memclr(void *place, size_t count)
{
    memset(place, 0, count);
}

void __aeabi_memcpy(void *place, const void *source, size_t count)
{
    memcpy(place, source, count);
}

#endif
