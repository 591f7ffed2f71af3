/* Places in the memory that the kit is lent, between guard bytes. */
#include "place.h"

struct place lend(struct memory *memory, uint64_t length)
{
    struct place place = {0, 0, 0};
    uint64_t i, room = (uint64_t)(memory->end - memory->free);
    if (room < 2 * GUARD || room - 2 * GUARD < length) {
        return place;
    }
    for (i = 0; i < GUARD; i++) {
        memory->free[i] = GUARD_BYTE;
        memory->free[GUARD + length + i] = GUARD_BYTE;
    }
    place.at = memory->free + GUARD;
    place.length = length;
    memory->free += 2 * GUARD + length;
    return place;
}

int guarded(const struct place *place)
{
    int i;
    for (i = 0; i < GUARD; i++) {
        if (place->at[(int64_t)i - GUARD] != GUARD_BYTE || place->at[place->length + (uint64_t)i] != GUARD_BYTE) {
            return 0;
        }
    }
    return 1;
}

uint32_t sum_of(const struct place *place)
{
    uint32_t sum = 2166136261u;
    uint64_t i;
    for (i = 0; i < place->length; i++) {
        sum = (sum ^ place->at[i]) * 16777619u;
    }
    return sum;
}
