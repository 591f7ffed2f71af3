/* Makes a call on the library that this is linked with. */
#include "call.h"
#include "braid.h"

#define IMAGE(i) c->images[i].at, c->images[i].length
#define WORK c->workspace.at, c->workspace.length
#define AREA c->answer.at, c->answer.length

static uint8_t called(struct call *c)
{
    uint16_t allowance = (uint16_t)c->allowance;
    uint64_t *values = c->told + 1;
    switch (c->kind) {
    case CALL_REVERSE: return braid_reverse(IMAGE(0), IMAGE(1), allowance, WORK, AREA, values);
    case CALL_LEFT_REVERSE: return braid_left_reverse(IMAGE(0), IMAGE(1), allowance, WORK, AREA, values);
    case CALL_ENQUIRE: return braid_enquire(IMAGE(0), IMAGE(1), allowance, WORK, values);
    case CALL_COMMIT: return braid_commit(IMAGE(0), IMAGE(1), allowance, c->numbers[0], c->numbers[1], c->numbers[2], WORK, AREA, values);
    case CALL_CLEAR: return braid_clear(IMAGE(0), allowance, WORK, values);
    case CALL_MIRROR_CLEAR: return braid_mirror_clear(IMAGE(0), allowance, WORK, values);
    case CALL_COMPARE: return braid_compare(IMAGE(0), IMAGE(1), IMAGE(2), allowance, WORK, values);
    case CALL_COMPARE_SIGNED: return braid_compare_signed(IMAGE(0), IMAGE(1), IMAGE(2), allowance, WORK, values);
    case CALL_CHAIN: return braid_chain(IMAGE(0), IMAGE(1), IMAGE(2), allowance, WORK, AREA, values);
    case CALL_REMAINDER: return braid_remainder(IMAGE(0), IMAGE(1), IMAGE(2), allowance, WORK, AREA, values);
    case CALL_CHECK: return braid_check(IMAGE(0), IMAGE(1), IMAGE(2), IMAGE(3), WORK, values);
    case CALL_PACK_TABLE: return braid_pack_table(IMAGE(0), AREA, values);
    case CALL_UNPACK_TABLE: return braid_unpack_table(IMAGE(0), AREA, values);
    case CALL_PACK_PROGRAM: return braid_pack_program(IMAGE(0), IMAGE(1), AREA, values);
    case CALL_UNPACK_PROGRAM: return braid_unpack_program(IMAGE(0), IMAGE(1), AREA, values);
    case CALL_BED: return braid_bed(IMAGE(0), IMAGE(1), c->moves, AREA, values);
    case CALL_WAYS: return braid_ways(IMAGE(0), IMAGE(1), AREA, values);
    case CALL_IMPORT: return braid_import(IMAGE(0), IMAGE(1), AREA, values);
    default: return braid_tray(IMAGE(0), IMAGE(1), IMAGE(2), allowance, WORK, AREA, values);
    }
}

void make_call(struct call *c)
{
    c->result = called(c);
}
