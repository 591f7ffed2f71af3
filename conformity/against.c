/*
 * Random calls of two libraries beside each other: the one that is tried, under its own names, and ours, whose calls against.sh has renamed. The first
 * difference is reported by its seed, with the case as a vector. Usage: against SEED CALLS; against.sh builds it and sees to it that both are numbers.
 */
#include <signal.h>
#include <stdio.h>
#include <stdlib.h>
#include <string.h>
#include "braid.h"
#include "chain.h"
#include "outcome.h"
#include "put.h"
#include "random_calls.h"
#include "vector.h"

/* A run of so many calls has to meet every outcome. */
#ifndef LONG_RUN
#define LONG_RUN 1000000
#endif

enum {
    CAPACITY = 1 << 21,
    AREA = BRAID_MOST_CHAIN_BYTES /* the longest area that a call has */
};

/* make_call over our library. */
void ours_make_call(struct call *call);

static const struct sizes sizes = {BRAID_MOST_MOVES, 170000, AREA};
static uint8_t lent[CAPACITY], asked_workspace[AREA], asked_answer[AREA];
static struct memory memory;
static struct call ours, theirs;
static uint64_t seed, passed;
static uint64_t met[CALLS][OUTCOMES];
static volatile sig_atomic_t in_theirs;

void put_byte(int byte)
{
    putchar(byte);
}

/* TWO CALLS */

static void ask(struct call *call)
{
    call->workspace.at = asked_workspace;
    call->answer.at = asked_answer;
    ours_make_call(call);
}

static void need(int suffices)
{
    if (!suffices) {
        fprintf(stderr, "the memory does not suffice for the case of seed %llu: build against.c with a larger CAPACITY\n", (unsigned long long)seed);
        exit(2);
    }
}

static struct place lend_here(uint64_t length)
{
    struct place place = lend(&memory, length);
    need(place.at != 0);
    return place;
}

/* Lends the areas of a call, which has their lengths. */
static void lend_areas(struct call *call)
{
    if (takes(call->kind, 'W')) {
        call->workspace = lend_here(call->workspace.length);
    }
    if (takes(call->kind, 'R')) {
        call->answer = lend_here(call->answer.length);
    }
}

/* Draws the case of the seed, gives each library images and areas of its own, and makes both calls. Ours is first: where the other one does not return, it is
 * known what should have come. */
static void make_both(void)
{
    int k;
    memory.free = lent;
    memory.end = lent + CAPACITY;
    need(draw_call(seed, &sizes, ask, &memory, &ours));
    theirs = ours;
    for (k = 0; k < ours.image_count; k++) {
        theirs.images[k] = lend_here(ours.images[k].length);
        memcpy(theirs.images[k].at, ours.images[k].at, ours.images[k].length);
    }
    lend_areas(&ours);
    lend_areas(&theirs);
    prepare(&ours);
    ours_make_call(&ours);
    prepare(&theirs);
    in_theirs = 1;
    make_call(&theirs);
    in_theirs = 0;
}

/* DIFFERENCES */

/* What a call left that is wrong whatever the other one left, or a null pointer. */
static const char *fault_of(const struct call *call)
{
    const char *found = written_beside(call);
    struct place chain = call->answer;
    uint64_t i;
    if (found || !lists_chain(call->kind, call->result, call->told + 1)) {
        return found;
    }
    chain.length = call->told[4];
    if (chain.length > call->answer.length) {
        return "more bytes are told than the answer area has";
    }
    for (i = chain.length; i < call->answer.length; i++) {
        if (call->answer.at[i] != in_answer(i)) {
            return "bytes behind what is written have changed";
        }
    }
    if (!leads(&call->images[0], &call->images[1], &call->images[2], &chain, call->told[3], memory.free, (uint64_t)(memory.end - memory.free))) {
        return "the area holds no chain of so many entries that leads from the first program to the second";
    }
    return 0;
}

/* The first byte in which two areas of one length differ; the length where there is none. */
static uint64_t differing(const struct place *one, const struct place *two)
{
    uint64_t i = 0;
    if (one->length == 0 || memcmp(one->at, two->at, one->length) == 0) {
        return one->length;
    }
    while (one->at[i] == two->at[i]) {
        i++;
    }
    return i;
}

/* What differs, or a null pointer. */
static const char *difference(void)
{
    const char *found;
    if (ours.result != theirs.result) {
        return "another result";
    }
    if (memcmp(ours.told + 1, theirs.told + 1, BRAID_VALUES * sizeof *ours.told) != 0) {
        return "other values";
    }
    found = fault_of(&theirs);
    if (found) {
        return found;
    }
    if (fault_of(&ours)) {
        return "our own library left what it may not leave";
    }
    if (!lists_chain(ours.kind, ours.result, ours.told + 1) && differing(&ours.answer, &theirs.answer) < ours.answer.length) {
        return "the answer area holds other bytes";
    }
    if (differing(&ours.workspace, &theirs.workspace) < ours.workspace.length) {
        return "the workspace holds other bytes";
    }
    return 0;
}

/* THE REPORT */

static void put_left(const char *whose, const struct call *call)
{
    int i;
    put_text(whose);
    put_text(" result ");
    put_number(call->result);
    put_text(", values");
    for (i = 1; i <= BRAID_VALUES; i++) {
        put_byte(' ');
        put_number(call->told[i]);
    }
    put_byte('\n');
}

static void put_byte_of(const char *name, const struct place *one, const struct place *two)
{
    uint64_t at = differing(one, two);
    if (at < one->length) {
        put_text("  byte ");
        put_number(at);
        put_text(" of the ");
        put_text(name);
        put_text(", from 0: ours ");
        put_bytes(one->at + at, 1);
        put_text(", theirs ");
        put_bytes(two->at + at, 1);
        put_byte('\n');
    }
}

/* The difference that was found, and its case. Where their call did not return, nothing is said of what it left. */
static void report(const char *found, int returned)
{
    const char *own = fault_of(&ours);
    put_text("DIFFERENCE in seed ");
    put_number(seed);
    put_text(": ");
    put_text(call_kinds[ours.kind].name);
    put_text(": ");
    put_text(found);
    put_byte('\n');
    put_left("  ours  ", &ours);
    if (own) {
        put_text("  of ours: ");
        put_text(own);
        put_byte('\n');
    }
    if (returned) {
        put_left("  theirs", &theirs);
        put_byte_of("answer area", &ours.answer, &theirs.answer);
        put_byte_of("workspace", &ours.workspace, &theirs.workspace);
    }
    put_text("As a vector, with ours as what is expected:\n\n");
    put_vector(&ours, seed);
}

static void put_table(void)
{
    int kind;
    unsigned outcome;
    put_text("call, outcome: calls\n");
    for (kind = 0; kind < CALLS; kind++) {
        for (outcome = 0; outcome < OUTCOMES; outcome++) {
            if (met[kind][outcome] > 0) {
                put_outcome(kind, outcome);
                put_text(": ");
                put_number(met[kind][outcome]);
                put_byte('\n');
            }
        }
    }
}

/* How many outcomes that a call can have were not met; each is told if the run has to meet all. */
static uint64_t missed(int is_told)
{
    uint64_t count = 0, all = 0;
    int kind;
    unsigned outcome;
    for (kind = 0; kind < CALLS; kind++) {
        for (outcome = 0; outcome < OUTCOMES; outcome++) {
            if (!can_have(kind, outcome)) {
                continue;
            }
            all++;
            if (met[kind][outcome] == 0) {
                count++;
                if (is_told) {
                    put_text("not met: ");
                    put_outcome(kind, outcome);
                    put_byte('\n');
                }
            }
        }
    }
    put_number(count);
    put_text(" of ");
    put_number(all);
    put_text(" outcomes not met\n");
    return count;
}

static void put_closing(uint64_t failed)
{
    put_number(passed);
    put_text(" passed, ");
    put_number(failed);
    put_text(" failed\n");
}

/* A signal in the other library's call is a difference; elsewhere it stops the run. */
static void stopped(int number)
{
    if (in_theirs && number != SIGINT && number != SIGTERM) {
        report("their call did not return: a signal came", 0);
    } else {
        put_text("stopped by a signal at seed ");
        put_number(seed);
        put_text(": --seed with this number and --calls 1 shows whether a call does not return\n");
    }
    put_closing(1);
    fflush(stdout);
    _Exit(1);
}

int main(int count, char **arguments)
{
    static const int signals[] = {SIGSEGV, SIGILL, SIGFPE, SIGABRT, SIGINT, SIGTERM};
    uint64_t calls, failed = 0;
    size_t k;
    if (count != 3) {
        fprintf(stderr, "usage: against SEED CALLS\n");
        return 2;
    }
    seed = strtoull(arguments[1], 0, 10);
    calls = strtoull(arguments[2], 0, 10);
    for (k = 0; k < sizeof signals / sizeof *signals; k++) {
        signal(signals[k], stopped);
    }
    for (; passed < calls; passed++, seed++) {
        const char *found;
        make_both();
        found = difference();
        if (found) {
            report(found, 1);
            failed = 1;
            break;
        }
        met[ours.kind][outcome_of(ours.kind, ours.result, ours.told[1])]++;
    }
    put_table();
    if (failed == 0 && calls >= LONG_RUN) {
        failed = missed(1);
    } else {
        missed(0);
    }
    put_closing(failed);
    if (fflush(stdout) != 0) {
        fprintf(stderr, "the report was not written whole\n");
        return 1;
    }
    return failed > 0 || passed == 0;
}
