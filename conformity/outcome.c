/* The outcomes of each call by number, and their names. */
#include "outcome.h"
#include "braid.h"
#include "call.h"
#include "put.h"

/* What a call can have: its results, which of an answer's kinds, and which kinds of places 11 and 12 name. */
struct possible {
    uint32_t results;
    unsigned answers, stops;
};

#define R(result) ((uint32_t)1 << (result))
#define TABLE (R(0) | R(1) | R(2) | R(3)) /* every call is answered or refuses a table */
#define PROGRAM (TABLE | R(4) | R(5) | R(6))
#define FORWARD (PROGRAM | R(7))
#define STOPPED (R(11) | R(12))
#define CLEARED (R(8) | R(9) | STOPPED)

enum {
    ONE = 1, /* an answer of one kind */
    TWO = 3,
    THREE = 7,
    NEVER = 0,
    AT_PROGRAMS = 1,
    AT_TRIPLE = 2,
    AT_MIRROR_TRIPLE = 4,
    AT_SET = 8
};

static const struct possible possible[CALLS] = {
    [CALL_REVERSE] = {PROGRAM | R(10) | STOPPED | R(13), ONE, AT_PROGRAMS},
    [CALL_LEFT_REVERSE] = {PROGRAM | R(16) | R(10) | STOPPED | R(13), ONE, AT_PROGRAMS},
    [CALL_ENQUIRE] = {PROGRAM | R(10) | STOPPED, ONE, AT_PROGRAMS},
    [CALL_COMMIT] = {PROGRAM | R(10) | STOPPED | R(18) | R(13), ONE, AT_PROGRAMS},
    [CALL_CLEAR] = {TABLE | CLEARED, ONE, AT_TRIPLE},
    [CALL_MIRROR_CLEAR] = {TABLE | R(16) | R(8) | R(17) | STOPPED, ONE, AT_MIRROR_TRIPLE},
    [CALL_COMPARE] = {FORWARD | CLEARED, TWO, AT_PROGRAMS | AT_TRIPLE},
    [CALL_COMPARE_SIGNED] = {PROGRAM | R(16) | CLEARED | R(17) | R(21) | R(22), TWO, AT_PROGRAMS | AT_TRIPLE | AT_MIRROR_TRIPLE | AT_SET},
    [CALL_CHAIN] = {FORWARD | CLEARED | R(13), TWO, AT_PROGRAMS | AT_TRIPLE},
    [CALL_REMAINDER] = {FORWARD | CLEARED | R(13), TWO, AT_PROGRAMS | AT_TRIPLE},
    [CALL_CHECK] = {FORWARD | R(12), THREE, AT_PROGRAMS},
    [CALL_PACK_TABLE] = {TABLE | R(13), ONE, NEVER},
    [CALL_UNPACK_TABLE] = {TABLE | R(13), ONE, NEVER},
    [CALL_PACK_PROGRAM] = {TABLE | R(4) | R(5) | R(13), ONE, NEVER},
    [CALL_UNPACK_PROGRAM] = {PROGRAM | R(13), ONE, NEVER},
    [CALL_BED] = {PROGRAM | R(15) | R(13), ONE, NEVER},
    [CALL_WAYS] = {FORWARD | R(8) | R(13), ONE, NEVER},
    [CALL_IMPORT] = {TABLE | R(19) | R(5) | R(20) | R(13), ONE, NEVER},
    [CALL_TRAY] = {FORWARD | CLEARED | R(13) | R(23) | R(24), ONE, AT_TRIPLE},
};

/* How many outcomes of a result have numbers of their own. */
static unsigned kinds_of(unsigned result)
{
    return result == BRAID_ANSWER ? ANSWERS : result == BRAID_ALLOWANCE_USED || result == BRAID_WORKSPACE_SHORT ? STOPS : 1;
}

/* Which kinds of a result a call can have, a bit each. */
static unsigned kinds_had(int kind, unsigned result)
{
    return result == BRAID_ANSWER ? possible[kind].answers : kinds_of(result) == STOPS ? possible[kind].stops : 1;
}

/* The kind of an outcome from its first value; kinds_of(result) where no outcome has that value. */
static unsigned kind_of(int kind, unsigned result, uint64_t first)
{
    if (result == BRAID_ANSWER && possible[kind].answers == ONE) {
        return 0; /* the first value is a length or a count */
    }
    if (result == BRAID_ANSWER) {
        return first < ANSWERS && (possible[kind].answers >> first) % 2 == 1 ? (unsigned)first : ANSWERS;
    }
    if (kinds_of(result) == 1 || first == BRAID_NO_PLACE) {
        return 0;
    }
    return first >= BRAID_TRIPLE && first <= BRAID_SET ? (unsigned)first - 1 : STOPS;
}

unsigned outcome_of(int kind, uint64_t result, uint64_t first)
{
    unsigned outcome = kind_of(kind, (unsigned)result, first), before;
    if (outcome == kinds_of((unsigned)result)) {
        return OUTCOMES - 1;
    }
    for (before = 0; before < result; before++) {
        outcome += kinds_of(before);
    }
    return outcome;
}

/* The result of an outcome; its kind in `*which`. RESULTS for the last outcome. */
static unsigned result_of(unsigned outcome, unsigned *which)
{
    unsigned result = 0;
    while (result < RESULTS && outcome >= kinds_of(result)) {
        outcome -= kinds_of(result);
        result++;
    }
    *which = outcome;
    return result;
}

int can_have(int kind, unsigned outcome)
{
    unsigned which, result = result_of(outcome, &which);
    return result < RESULTS && (possible[kind].results & R(result)) != 0 && (kinds_had(kind, result) >> which) % 2 == 1;
}

static const char *answer_name(int kind, unsigned which)
{
    static const char *const verdicts[] = {"same", "different"};
    static const char *const remaining[] = {"moves", "none"};
    static const char *const passages[] = {"joins", "breaks", "ends elsewhere"};
    return kind == CALL_REMAINDER ? remaining[which] : kind == CALL_CHECK ? passages[which] : verdicts[which];
}

void put_outcome(int kind, unsigned outcome)
{
    static const char *const places[STOPS] = {"at the programs", "at a triple", "at a triple of the mirror", "at the set"};
    unsigned which, result = result_of(outcome, &which), had;
    put_text(call_kinds[kind].name);
    put_text(", ");
    if (result == RESULTS) {
        put_text("with a first value that no outcome has");
        return;
    }
    put_number(result);
    had = kinds_had(kind, result);
    if (had != (unsigned)1 << which) { /* it has several, or none of this kind */
        put_byte(' ');
        put_text(result == BRAID_ANSWER ? answer_name(kind, which) : places[which]);
    }
}
