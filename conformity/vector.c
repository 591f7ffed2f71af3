/* A call that was made, as a block of a vector file. */
#include "vector.h"
#include "braid.h"
#include "chain.h"
#include "put.h"

/* The bytes with which the answer area begins after the call; behind them it is as it was (specification 6, 8.3). */
static uint64_t answer_bytes(const struct call *c)
{
    const uint64_t *values = c->told + 1;
    if (c->kind == CALL_WAYS && c->result == BRAID_ANSWER_SHORT) {
        return c->answer.length; /* the one refusal that changes it */
    }
    if (c->result != BRAID_ANSWER) {
        return 0;
    }
    switch (c->kind) {
    case CALL_REVERSE:
    case CALL_LEFT_REVERSE:
    case CALL_COMMIT: return values[0] + values[1];
    case CALL_REMAINDER:
    case CALL_WAYS: return values[1];
    case CALL_TRAY: return BRAID_LOG_BYTES * values[0];
    case CALL_CHAIN: return 0;
    default: return values[0];
    }
}

/* Whether a refusal leaves the workspace as found (specification 6.1). */
static int leaves_workspace(uint8_t result)
{
    return (result >= BRAID_TABLE_ENDS && result <= BRAID_UNEQUAL_WEIGHTS) || result == BRAID_NO_MIRROR || result == BRAID_TOO_MANY_LOGS ||
           result == BRAID_NOT_TRAY;
}

/* The bytes of memory that the runner takes for the case. */
static uint64_t memory_of(const struct call *c)
{
    uint64_t bytes = 0;
    int k;
    for (k = 0; k < c->image_count; k++) {
        bytes += c->images[k].length + 2 * GUARD;
    }
    if (takes(c->kind, 'W')) {
        bytes += c->workspace.length + 2 * GUARD;
    }
    if (takes(c->kind, 'R')) {
        bytes += c->answer.length + 2 * GUARD;
        bytes += lists_chain(c->kind, c->result, c->told + 1) ? (uint64_t)MOST_WORD : answer_bytes(c) + 2 * GUARD;
    }
    return bytes;
}

static void put_key(const char *key)
{
    put_text(key);
    put_byte(' ');
}

static void put_numbers(const uint64_t *numbers, int count)
{
    int k;
    for (k = 0; k < count; k++) {
        put_text(k == 0 ? "" : " ");
        put_number(numbers[k]);
    }
}

static void put_line(const char *key, uint64_t number)
{
    put_key(key);
    put_number(number);
    put_byte('\n');
}

static void put_inputs(const struct call *c)
{
    const char *key;
    int image = 0;
    for (key = call_kinds[c->kind].keys; *key != '\0'; key++) {
        put_key(key_name(*key));
        switch (*key) {
        case 'A': put_number(c->allowance); break;
        case 'M': put_number(c->moves); break;
        case 'W': put_number(c->workspace.length); break;
        case 'R': put_number(c->answer.length); break;
        case 'N': put_numbers(c->numbers, 3); break;
        default:
            put_bytes(c->images[image].at, c->images[image].length);
            image++;
        }
        put_byte('\n');
    }
}

static void put_expected(const struct call *c)
{
    put_line("result", c->result);
    put_key("values");
    put_numbers(c->told + 1, BRAID_VALUES);
    put_byte('\n');
    if (lists_chain(c->kind, c->result, c->told + 1)) {
        put_key("lists");
        put_numbers(c->told + 3, 2);
        put_byte('\n');
    } else if (takes(c->kind, 'R')) {
        put_key("leaves");
        put_bytes(c->answer.at, answer_bytes(c));
        put_byte('\n');
    }
    if (takes(c->kind, 'W')) {
        put_text(leaves_workspace(c->result) ? "ends found\n" : "ends zero\n");
    }
}

void put_vector(const struct call *c, uint64_t seed)
{
    put_key("case");
    put_text(call_kinds[c->kind].section);
    put_text(": ");
    put_text(call_kinds[c->kind].name);
    put_text(": a difference met by against.sh with seed ");
    put_number(seed);
    put_text("\ncall ");
    put_text(call_kinds[c->kind].name);
    put_byte('\n');
    put_line("memory", memory_of(c));
    put_inputs(c);
    put_expected(c);
    put_byte('\n');
}
