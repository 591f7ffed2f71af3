/*
 * A stream of random calls, by the conformity kit's generator, on the library that this is linked with: after each thousand calls a sum over all results,
 * values and areas so far. Two processors conform to each other where their streams are equal. It needs no heap and no library, for a bare board too.
 */
#include "put.h"
#include "random_calls.h"
#include "stream.h"

enum { EVERY = 1000 };

static const struct sizes sizes = {STREAM_MOVES, STREAM_IMAGE, STREAM_AREA};
static uint8_t lent[STREAM_MEMORY], asked_workspace[STREAM_AREA], asked_answer[STREAM_AREA];
static uint64_t sum = 14695981039346656037u;

static void add(const uint8_t *bytes, uint64_t length)
{
    uint64_t i;
    for (i = 0; i < length; i++) {
        sum = (sum ^ bytes[i]) * 1099511628211u;
    }
}

/* A number by its bytes, the lowest first, whatever the order of the processor is. */
static void add_number(uint64_t number)
{
    int i;
    for (i = 0; i < 8; i++) {
        uint8_t byte = (uint8_t)(number >> (8 * i));
        add(&byte, 1);
    }
}

static void ask(struct call *call)
{
    call->workspace.at = asked_workspace;
    call->answer.at = asked_answer;
    make_call(call);
}

/* Makes the call of a seed and adds what it left to the sum. 0 where it wrote what it may not write, or the memory does not suffice. */
static int made(uint64_t seed)
{
    struct memory memory;
    struct call call;
    int i;
    memory.free = lent;
    memory.end = lent + sizeof lent;
    if (!draw_call(seed, &sizes, ask, &memory, &call)) {
        return 0;
    }
    call.workspace = lend(&memory, takes(call.kind, 'W') ? call.workspace.length : 0);
    call.answer = lend(&memory, takes(call.kind, 'R') ? call.answer.length : 0);
    if (call.workspace.at == 0 || call.answer.at == 0) {
        return 0;
    }
    prepare(&call);
    make_call(&call);
    if (written_beside(&call)) {
        return 0;
    }
    add_number((uint64_t)call.kind);
    add_number(call.result);
    for (i = 1; i <= 4; i++) {
        add_number(call.told[i]);
    }
    add(call.workspace.at, call.workspace.length);
    add(call.answer.at, call.answer.length);
    return 1;
}

int run_stream(uint64_t seed, uint64_t calls)
{
    uint64_t k;
    for (k = 0; k < calls; k++) {
        if (!made(seed + k)) {
            put_text("seed ");
            put_number(seed + k);
            put_text(" wrote what it may not write, or found no memory\n");
            return 1;
        }
        if ((k + 1) % EVERY == 0 || k + 1 == calls) {
            put_number(k + 1);
            put_text(" calls, sum ");
            put_number(sum);
            put_byte('\n');
        }
    }
    return 0;
}
