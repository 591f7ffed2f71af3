/* A call while it is drawn: what its parts have in common. */
#ifndef DRAW_H
#define DRAW_H

#include "image.h"
#include "names.h"
#include "random_calls.h"

enum { SWAPS = 40 }; /* the most swaps of a random chain */

struct draw {
    struct random random;
    struct random *r; /* the same, as the other parts take it */
    const struct sizes *sizes;
    ask_library *ask;
    struct memory *memory;
    struct call *call;
    struct table *table;
    struct word first, second;
    uint8_t *image; /* the image that is being written, of at most sizes->image bytes */
    uint32_t image_length;
    unsigned damaged; /* an image is damaged once in so many */
    int dear;         /* the call takes long: nothing is asked */
    int is_long;      /* its programs are long: limits are wide */
    int full;         /* the memory did not suffice */
};

/* IMAGES (draw.c) */

/* Adds a byte to the image that is being written, where there is room. */
void add_image_byte(struct draw *d, unsigned byte);

/* Damages what stands in the image from a byte on: a bit is turned, a part is cut off, bytes follow, or it becomes a few random bytes. */
void damage_image(struct draw *d, uint32_t from);

/* Hands the image to the call as its next one. */
void hand_whole(struct draw *d);

/* The same, at times damaged. */
void hand_in(struct draw *d);

void hand_table(struct draw *d);
void hand_program(struct draw *d, const struct word *w);

/* A program that must be forward; once in a while a move is turned back. */
void hand_forward(struct draw *d, struct word *w);

/* PROGRAMS (draw_programs.c): in `first`, and in `second` where there are two */

/* Moves of a program: mostly few. Under the longest ones limits are wide, and nothing is asked. */
uint32_t draw_length(struct draw *d);

/* A second forward program: joined to the first, joined and then changed, as heavy, or any. */
void draw_other(struct draw *d);

/* Two forward programs. */
void draw_two(struct draw *d);

/* A part done, and a pattern that it begins up to swaps, or nearly so, or any. */
void draw_part_done(struct draw *d);

/* Two programs of any signs: joined as signed words, nearly so, or any. */
void draw_two_signed(struct draw *d);

/* A program of any signs. */
void draw_one(struct draw *d);

/* THE INPUTS OF A CALL */

/* Those of check (draw_chains.c) and of tray (draw_trays.c). */
void draw_check(struct draw *d);
void draw_tray(struct draw *d);

/* Numbers, and lengths of areas, of a call that has its images (draw_limits.c). */
void draw_limits(struct draw *d);

#endif
