/*
 * Wrong libraries: each wraps one call of ours (ld's --wrap) and damages one thing that the call left, or hands on other inputs. WRONG names the version;
 * tests/conformity.sh tries each.
 */
#include "braid.h"

#define IMAGES1 const uint8_t *t, uint64_t tn
#define IMAGES2 IMAGES1, const uint8_t *p, uint64_t pn
#define IMAGES3 IMAGES2, const uint8_t *q, uint64_t qn
#define WORK uint8_t *w, uint64_t wn
#define AREA uint8_t *a, uint64_t an
#define GIVEN1 t, tn
#define GIVEN2 t, tn, p, pn
#define GIVEN3 t, tn, p, pn, q, qn

/* WRAP NAME (PARAMETERS) BODY: the call as BODY answers it; `ours` is the right one, r its result and v its values */
#define WRAP(name, parameters, body) \
    uint8_t __real_##name parameters; \
    uint8_t __wrap_##name parameters; \
    uint8_t __wrap_##name parameters \
    { \
        uint64_t before = v[3]; \
        uint8_t r; \
        (void)before; \
        body; \
        return r; \
    }

static inline void exchange(uint8_t *a, uint8_t *b)
{
    uint8_t kept = *a;
    *a = *b;
    *b = kept;
}

static inline void exchange_values(uint64_t *v, int i, int k)
{
    uint64_t kept = v[i];
    v[i] = v[k];
    v[k] = kept;
}

static inline void no_values(uint64_t *v)
{
    v[0] = v[1] = v[2] = v[3] = 0;
}

/* The moves of a program image by its count. */
static inline uint64_t moves_of(const uint8_t *program)
{
    return (uint64_t)program[0] * 16 + program[1] / 16;
}

/* A table with the two completions of each pair exchanged, packed again; what is refused stays as it is. */
static inline uint64_t exchanged(const uint8_t *t, uint64_t tn, uint8_t *image, uint64_t most)
{
    static uint8_t plain[4096], other[4096];
    uint64_t v[4], at, to, i;
    if (braid_unpack_table(t, tn, plain, sizeof plain, v) != 0) {
        for (i = 0; i < tn && i < most; i++) {
            image[i] = t[i];
        }
        return i;
    }
    for (at = 0; at <= plain[0]; at++) {
        other[at] = plain[at];
    }
    to = at;
    while (at < v[0]) {
        uint64_t first = at, second, end;
        if (plain[at] == 255) {
            other[to++] = plain[at++];
            continue;
        }
        second = first + 1 + plain[first];
        end = second + 1 + plain[second];
        for (i = second; i < end; i++) {
            other[to++] = plain[i];
        }
        for (i = first; i < second; i++) {
            other[to++] = plain[i];
        }
        at = end;
    }
    return braid_pack_table(other, to, image, most, v) == 0 ? v[0] : 0;
}

/* Whether the reversing of a program of two moves is an open pair. */
static inline int open_pair(const uint8_t *t, uint64_t tn, uint64_t a, uint64_t b)
{
    static uint8_t plain[2], program[4], work[64], area[64];
    uint64_t v[4];
    plain[0] = (uint8_t)(128 + a);
    plain[1] = (uint8_t)b;
    return braid_pack_program(t, tn, plain, 2, program, sizeof program, v) == 0 &&
           braid_reverse(t, tn, program, v[0], 9, work, sizeof work, area, sizeof area, v) == BRAID_OPEN_PAIR;
}

#define REVERSE(name, body) WRAP(name, (IMAGES2, uint16_t k, WORK, AREA, uint64_t *v), body)
#define COMPARE(name, body) WRAP(name, (IMAGES3, uint16_t k, WORK, uint64_t *v), body)
#define CHAIN(name, body) WRAP(name, (IMAGES3, uint16_t k, WORK, AREA, uint64_t *v), body)
#define PACK1(name, body) WRAP(name, (IMAGES1, AREA, uint64_t *v), body)
#define PACK2(name, body) WRAP(name, (IMAGES2, AREA, uint64_t *v), body)
#define CLEAR(name, body) WRAP(name, (IMAGES1, uint16_t k, WORK, uint64_t *v), body)
#define CHECK(body) WRAP(braid_check, (IMAGES3, const uint8_t *c, uint64_t cn, WORK, uint64_t *v), body)
#define COMMIT(body) WRAP(braid_commit, (IMAGES2, uint16_t k, uint64_t x, uint64_t y, uint64_t z, WORK, AREA, uint64_t *v), body)
#define BED(body) WRAP(braid_bed, (IMAGES2, uint64_t m, AREA, uint64_t *v), body)

#define REVERSED(name) r = __real_##name(GIVEN2, k, w, wn, a, an, v)
#define ENQUIRED r = __real_braid_enquire(GIVEN2, k, w, wn, v)
#define CLEARED(name) r = __real_##name(GIVEN1, k, w, wn, v)
#define COMPARED(name) r = __real_##name(GIVEN3, k, w, wn, v)
#define CHAINED(name) r = __real_##name(GIVEN3, k, w, wn, a, an, v)
#define CHECKED r = __real_braid_check(GIVEN3, c, cn, w, wn, v)
#define COMMITTED r = __real_braid_commit(GIVEN2, k, x, y, z, w, wn, a, an, v)
#define PACKED1(name) r = __real_##name(GIVEN1, a, an, v)
#define PACKED2(name) r = __real_##name(GIVEN2, a, an, v)

#if WRONG == 1 /* the workspace is left dirty */
REVERSE(braid_reverse, REVERSED(braid_reverse); if (wn > 0) w[wn - 1] = 1)
#elif WRONG == 2 /* a byte past the answer area */
REVERSE(braid_reverse, REVERSED(braid_reverse); a[an] ^= 1)
#elif WRONG == 3 /* the steps are one more */
REVERSE(braid_reverse, REVERSED(braid_reverse); v[2] += r == 0)
#elif WRONG == 4 /* a value is not set */
REVERSE(braid_reverse, REVERSED(braid_reverse); v[3] = before)
#elif WRONG == 5 /* D as its undoing stands */
REVERSE(braid_reverse, REVERSED(braid_reverse); if (r == 0 && v[1] > 1) exchange(a + v[0], a + v[0] + v[1] - 1))
#elif WRONG == 6 /* the area is cleared behind the answer */
REVERSE(braid_reverse, REVERSED(braid_reverse); if (r == 0 && v[0] + v[1] < an) a[an - 1] = 0)
#elif WRONG == 7 /* N from its end */
REVERSE(braid_left_reverse, REVERSED(braid_left_reverse); if (r == 0 && v[0] > 1) exchange(a, a + v[0] - 1))
#elif WRONG == 8 /* 13 before 18 */
COMMIT(COMMITTED; if (r == 18 && an == 0) r = 13)
#elif WRONG == 9 /* 9 with the place of a pair */
CLEAR(braid_clear, CLEARED(braid_clear); if (r == 9) v[0] = 1)
#elif WRONG == 10 /* 9 for 17 */
CLEAR(braid_mirror_clear, CLEARED(braid_mirror_clear); if (r == 17) r = 9)
#elif WRONG == 11 /* the workspace is wiped before the checks */
COMPARE(braid_compare, COMPARED(braid_compare); if (r == 8 && wn > 0) w[0] = 0)
#elif WRONG == 12 /* the set is told as the programs */
COMPARE(braid_compare_signed, COMPARED(braid_compare_signed); if (r == 12 && v[0] == 4) v[0] = 0)
#elif WRONG == 13 /* an entry at another offset */
CHAIN(braid_chain, CHAINED(braid_chain); if (r == 0 && v[2] > 0) a[2] ^= 1)
#elif WRONG == 14 /* a bit of the filling */
CHAIN(braid_chain, CHAINED(braid_chain); if (r == 0 && v[3] > 4) a[v[3] - 1] |= 1)
#elif WRONG == 15 /* moves from their end */
CHAIN(braid_remainder, CHAINED(braid_remainder); if (r == 0 && v[0] == 0 && v[1] > 1) exchange(a, a + v[1] - 1))
#elif WRONG == 16 /* every chain joins */
CHECK(CHECKED; if (r == 0) no_values(v))
#elif WRONG == 17 /* a weight as in its field */
PACK1(braid_unpack_table, PACKED1(braid_unpack_table); if (r == 0) a[1]--)
#elif WRONG == 18 /* 5 before 4 */
PACK2(braid_pack_program, PACKED2(braid_pack_program); if (r == 4) r = 5)
#elif WRONG == 19 /* totals low byte first */
BED(r = __real_braid_bed(GIVEN2, m, a, an, v); if (r == 0) exchange(a + an - 2, a + an - 1))
#elif WRONG == 20 /* the area is kept after 13 */
PACK2(braid_ways, PACKED2(braid_ways); if (r == 13 && an > 0) a[0] = 91)
#elif WRONG == 21 /* the text is written */
PACK2(braid_import, PACKED2(braid_import); if (pn > 0) ((uint8_t *)(uintptr_t)p)[0] ^= 1)
#elif WRONG == 22 /* steps low byte first */
CHAIN(braid_tray, CHAINED(braid_tray); if (r == 0 && v[0] > 0) exchange(a + 1, a + 2))
#elif WRONG == 23 /* 24 for 23 */
CHAIN(braid_tray, CHAINED(braid_tray); if (r == 23) r = 24)
#elif WRONG == 24 /* the forward move first */
REVERSE(braid_reverse, REVERSED(braid_reverse); if (r == 10) exchange_values(v, 1, 2))
#elif WRONG == 25 /* a fifth value */
REVERSE(braid_reverse, REVERSED(braid_reverse); v[4] = 0)
#elif WRONG == 26 /* vanishing pairs are not counted */
CHAIN(braid_chain, CHAINED(braid_chain); if (r == 0 && v[0] == 0) v[1] = v[2])
#elif WRONG == 27 /* C(a,b) and C(b,a) exchanged */
REVERSE(braid_reverse, static uint8_t image[2048]; uint64_t length = exchanged(t, tn, image, sizeof image);
        r = __real_braid_reverse(image, length, p, pn, k, w, wn, a, an, v))
#elif WRONG == 28 /* an open pair is refused */
COMPARE(braid_compare, COMPARED(braid_compare); if (r == 0 && v[0] == 1 && v[1] == 0 && moves_of(p) == moves_of(q)) r = 10)
#elif WRONG == 29 /* one undefined side of the cube passes */
CLEAR(braid_clear, CLEARED(braid_clear); if (r == 9 && open_pair(t, tn, v[1], v[3]) != open_pair(t, tn, v[2], v[3])) { r = 0; no_values(v); })
#elif WRONG == 30 /* the back move before the tail */
COMPARE(braid_compare, uint64_t other[4]; COMPARED(braid_compare);
        if (r == 6 && __real_braid_compare(t, tn, p, pn - 1, q, qn, k, w, wn, other) == 7) r = 7)
#elif WRONG == 31 /* the length of D first */
WRAP(braid_enquire, (IMAGES2, uint16_t k, WORK, uint64_t *v), ENQUIRED; if (r == 0) exchange_values(v, 0, 1))
#elif WRONG == 32 /* lengths are compared */
COMPARE(braid_compare, COMPARED(braid_compare); if (r == 0 && moves_of(p) != moves_of(q)) { v[0] = 1; v[1] = 0; })
#elif WRONG == 33 /* a stop is told as same */
COMPARE(braid_compare, COMPARED(braid_compare); if (r == 11 && v[0] == 0) r = 0)
#elif WRONG == 34 /* the steps of both reversings added */
COMPARE(braid_compare_signed, COMPARED(braid_compare_signed); if (r == 0) { v[1] += v[2]; v[2] = 0; })
#elif WRONG == 35 /* one step more than the allowance */
REVERSE(braid_reverse, r = __real_braid_reverse(GIVEN2, (uint16_t)(k < 65535 ? k + 1 : k), w, wn, a, an, v))
#elif WRONG == 36 /* one byte of the workspace is not used */
REVERSE(braid_reverse, uint64_t less = wn > 0 ? wn - 1 : 0; r = __real_braid_reverse(GIVEN2, k, w, less, a, an, v);
        if (wn > 0 && (r == 0 || r > 8)) w[wn - 1] = 0)
#elif WRONG == 37 /* an area of just the bytes is refused */
CHAIN(braid_chain, r = __real_braid_chain(GIVEN3, k, w, wn, a, an > 0 ? an - 1 : 0, v))
#elif WRONG == 38 /* 4,095 moves are too many */
PACK2(braid_import, PACKED2(braid_import); if (r == 0 && v[0] == 4095) { r = 20; no_values(v); })
#elif WRONG == 39 /* none is told as no move left */
CHAIN(braid_remainder, CHAINED(braid_remainder); if (r == 0) v[0] = 0)
#elif WRONG == 40 /* a log's refusal ends the tray */
CHAIN(braid_tray, CHAINED(braid_tray); if (r == 0 && v[0] > 0 && a[0] >= 4) { r = a[0]; no_values(v); })
#elif WRONG == 41 /* the number of moves in 16 bits */
BED(r = __real_braid_bed(GIVEN2, m & 65535, a, an, v))
#elif WRONG == 42 /* 12 by the second program's length */
CHECK(CHECKED; if (r == 0 && moves_of(q) > wn) { r = 12; no_values(v); })
#elif WRONG == 43 /* bytes behind a plain table are accepted */
PACK1(braid_pack_table, PACKED1(braid_pack_table); if (r == 3) r = __real_braid_pack_table(t, tn - 1, a, an, v))
#elif WRONG == 44 /* the first two words exchanged */
PACK2(braid_ways, uint64_t i; PACKED2(braid_ways); for (i = 0; r == 0 && v[0] == 2 && i < v[1] / 2; i++) exchange(a + i, a + v[1] / 2 + i))
#elif WRONG == 45 /* signs are dropped */
PACK2(braid_unpack_program, uint64_t i; PACKED2(braid_unpack_program); for (i = 0; r == 0 && i < v[0]; i++) a[i] &= 127)
#elif WRONG == 46 /* unequal weights before the mirror */
CLEAR(braid_mirror_clear, static const uint8_t none[2] = {0}; uint8_t area[1] = {0}; uint64_t other[4]; CLEARED(braid_mirror_clear);
      if (r == 16 && braid_ways(t, tn, none, 2, area, 1, other) == 8) r = 8)
#elif WRONG == 47 /* the mirror before the program */
REVERSE(braid_left_reverse, static const uint8_t none[2] = {0}; REVERSED(braid_left_reverse);
        if (r >= 4 && r <= 6 && __real_braid_left_reverse(t, tn, none, 2, k, w, wn, a, an, v) == 16) r = 16)
#elif WRONG == 48 /* numbers in 32 bits */
COMMIT(r = __real_braid_commit(GIVEN2, k, x & 0xFFFFFFFFu, y & 0xFFFFFFFFu, z & 0xFFFFFFFFu, w, wn, a, an, v))
#endif
