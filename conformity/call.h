/* The calls of braid.h as the kit handles them: by number, with their inputs in the order of the C call. */
#ifndef CALL_H
#define CALL_H

#include "names.h"
#include "place.h"

enum {
    CALL_REVERSE,
    CALL_LEFT_REVERSE,
    CALL_ENQUIRE,
    CALL_COMMIT,
    CALL_CLEAR,
    CALL_MIRROR_CLEAR,
    CALL_COMPARE,
    CALL_COMPARE_SIGNED,
    CALL_CHAIN,
    CALL_REMAINDER,
    CALL_CHECK,
    CALL_PACK_TABLE,
    CALL_UNPACK_TABLE,
    CALL_PACK_PROGRAM,
    CALL_UNPACK_PROGRAM,
    CALL_BED,
    CALL_WAYS,
    CALL_IMPORT,
    CALL_TRAY,
    CALLS
};

/* Each key of a call's inputs, in the order of the C call, by a letter: images are small letters, numbers capitals. */
struct call_kind {
    const char *name;    /* without braid_ */
    const char *keys;
    const char *section; /* of the specification */
};

extern const struct call_kind call_kinds[CALLS];

/* The key as a vector file has it. */
const char *key_name(char key);

/* Whether a call has the input of a key. */
int takes(int kind, char key);

/* One call: what is handed in, and, once it is made, its result and what it told. */
struct call {
    int kind;
    struct place images[4];
    int image_count;
    uint64_t allowance, moves, numbers[3];
    struct place workspace, answer;
    uint64_t told[6]; /* a guard, the four values, a guard */
    uint8_t result;
};

/* The bytes of workspace and answer area before a call, by their index. */
uint8_t in_workspace(uint64_t i);
uint8_t in_answer(uint64_t i);

/* Fills the areas and the values as they are before a call, and notes the sum of each image. */
void prepare(struct call *call);

/* Makes the call on the library that this is linked with. It is in a file of its own, so that it can be linked with two libraries under two names. */
void make_call(struct call *call);

/* What a call that was prepared and made has written and may not write, or a null pointer. */
const char *written_beside(const struct call *call);

/* Whether the answer of a call is a chain in its answer area. */
int lists_chain(int kind, uint64_t result, const uint64_t *values);

#endif
