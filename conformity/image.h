/* The images and plain forms of what was drawn (specification 5). Each is written from `at` on; its number of bytes comes back. */
#ifndef IMAGE_H
#define IMAGE_H

#include "names.h"
#include "random_words.h"

/* Fields of an image that is being written, one directly behind the other. */
struct fields {
    uint8_t *at;
    uint32_t bits;
};

void put_field(struct fields *fields, unsigned number, unsigned width);

/* The bytes that the fields take. */
uint32_t field_bytes(const struct fields *fields);

uint32_t table_image(const struct table *t, uint8_t *at);
uint32_t plain_table(const struct table *t, uint8_t *at);
uint32_t program_image(const struct table *t, const struct word *w, uint8_t *at);
uint32_t plain_program(const struct table *t, const struct word *w, uint8_t *at);

/* The fields of one entry of a chain image. */
void put_entry(struct fields *fields, const struct table *t, uint32_t offset, unsigned a, unsigned b);

uint32_t chain_image(const struct table *t, const struct entry *entries, unsigned count, uint8_t *at);

#endif
