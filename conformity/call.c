/* The calls of braid.h as the kit handles them, and what is the same before and after each of them. */
#include "call.h"
#include "braid.h"

const struct call_kind call_kinds[CALLS] = {
    [CALL_REVERSE] = {"reverse", "tpAWR", "6.2"},
    [CALL_LEFT_REVERSE] = {"left_reverse", "tpAWR", "6.12"},
    [CALL_ENQUIRE] = {"enquire", "tpAW", "6.15"},
    [CALL_COMMIT] = {"commit", "tpANWR", "6.16"},
    [CALL_CLEAR] = {"clear", "tAW", "6.3"},
    [CALL_MIRROR_CLEAR] = {"mirror_clear", "tAW", "6.13"},
    [CALL_COMPARE] = {"compare", "tfsAW", "6.4"},
    [CALL_COMPARE_SIGNED] = {"compare_signed", "tfsAW", "6.18"},
    [CALL_CHAIN] = {"chain", "tfsAWR", "6.6"},
    [CALL_REMAINDER] = {"remainder", "tdqAWR", "6.10"},
    [CALL_CHECK] = {"check", "tfscW", "6.7"},
    [CALL_PACK_TABLE] = {"pack_table", "lR", "6.8"},
    [CALL_UNPACK_TABLE] = {"unpack_table", "tR", "6.8"},
    [CALL_PACK_PROGRAM] = {"pack_program", "tlR", "6.8"},
    [CALL_UNPACK_PROGRAM] = {"unpack_program", "tpR", "6.8"},
    [CALL_BED] = {"bed", "tpMR", "6.11"},
    [CALL_WAYS] = {"ways", "tpR", "6.14"},
    [CALL_IMPORT] = {"import", "txR", "6.17"},
    [CALL_TRAY] = {"tray", "tyqAWR", "6.19"},
};

const char *key_name(char key)
{
    switch (key) {
    case 't': return "table";
    case 'p': return "program";
    case 'f': return "first";
    case 's': return "second";
    case 'd': return "done";
    case 'q': return "pattern";
    case 'c': return "chain";
    case 'l': return "plain";
    case 'x': return "text";
    case 'y': return "tray";
    case 'A': return "allowance";
    case 'N': return "numbers";
    case 'M': return "moves";
    case 'W': return "workspace";
    default: return "answer";
    }
}

int takes(int kind, char key)
{
    const char *keys = call_kinds[kind].keys;
    while (*keys != '\0' && *keys != key) {
        keys++;
    }
    return *keys == key;
}

uint8_t in_workspace(uint64_t i)
{
    return (uint8_t)(31 * i + 7);
}

uint8_t in_answer(uint64_t i)
{
    return (uint8_t)(17 * i + 91);
}

/* The four values and the number on each side of them before a call. */
static uint64_t noise(uint64_t i)
{
    return 0xA5A5A5A5A5A5A500u + i;
}

void prepare(struct call *call)
{
    uint64_t i;
    int k;
    for (i = 0; i < call->workspace.length; i++) {
        call->workspace.at[i] = in_workspace(i);
    }
    for (i = 0; i < call->answer.length; i++) {
        call->answer.at[i] = in_answer(i);
    }
    for (k = 0; k < call->image_count; k++) {
        call->images[k].sum = sum_of(&call->images[k]);
    }
    for (i = 0; i < 6; i++) {
        call->told[i] = noise(i);
    }
}

const char *written_beside(const struct call *call)
{
    int k;
    if (call->told[0] != noise(0) || call->told[5] != noise(5)) {
        return "memory beside the values was written";
    }
    for (k = 0; k < call->image_count; k++) {
        if (!guarded(&call->images[k]) || sum_of(&call->images[k]) != call->images[k].sum) {
            return "an image, or memory beside it, was written";
        }
    }
    if (takes(call->kind, 'R') && !guarded(&call->answer)) {
        return "memory beside the answer area was written";
    }
    if (takes(call->kind, 'W') && !guarded(&call->workspace)) {
        return "memory beside the workspace was written";
    }
    return 0;
}

int lists_chain(int kind, uint64_t result, const uint64_t *values)
{
    return kind == CALL_CHAIN && result == BRAID_ANSWER && values[0] == BRAID_SAME;
}
