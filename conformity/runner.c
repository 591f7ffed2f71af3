/* The judging part of the conformity kit; conformity/README.md has the format of vector files and says what is judged. */
#include "runner.h"
#include "braid.h"
#include "call.h"
#include "chain.h"
#include "outcome.h"
#include "put.h"

enum { TITLE = 160 }; /* of a case's title so much is kept for the report */

/* THE STATE OF A RUN */

static uint8_t *memory_start;
static struct memory memory;
static int byte_here;
static uint64_t line;
static int broken; /* the file is not one of vectors: nothing more is read */
static uint64_t passed, failed, not_run;
/* A board with little memory counts in fewer bits: as many as the cases of its file need. */
#ifndef RUNNER_COUNT
#define RUNNER_COUNT uint32_t
#endif
static RUNNER_COUNT tally[CALLS][OUTCOMES][3]; /* held, failed, not run */
static uint8_t reported[CALLS];
static char title[TITLE + 1];

/* READING */

static void advance(void)
{
    if (byte_here == '\n') {
        line++;
    }
    byte_here = next_byte();
}

static void fault(const char *text)
{
    if (!broken) {
        put_text("line ");
        put_number(line);
        put_text(": ");
        put_text(text);
        put_byte('\n');
        failed++;
        broken = 1;
    }
}

/* A word of small letters, digits and _; longer ones are no key. */
static void read_word(char *word, int most)
{
    int count = 0;
    while ((byte_here >= 'a' && byte_here <= 'z') || byte_here == '_' || (byte_here >= '0' && byte_here <= '9')) {
        if (count < most) {
            word[count++] = (char)byte_here;
        }
        advance();
    }
    word[count] = '\0';
}

static int same_text(const char *a, const char *b)
{
    while (*a != '\0' && *a == *b) {
        a++;
        b++;
    }
    return *a == *b;
}

/* The key that must stand here, and a space. */
static void read_key(const char *key)
{
    char word[24];
    if (broken) {
        return;
    }
    read_word(word, 23);
    if (!same_text(word, key)) {
        put_text("expected key: ");
        put_text(key);
        put_byte('\n');
        fault("another key stands here, or none");
    } else if (byte_here != ' ') {
        fault("no space follows the key");
    } else {
        advance();
    }
}

static void read_end_of_line(void)
{
    if (broken) {
        return;
    }
    if (byte_here != '\n') {
        fault("more stands on this line than its key takes");
        return;
    }
    advance();
}

/* A number in decimal of at most 64 bits. */
static uint64_t read_number(void)
{
    uint64_t number = 0;
    if (broken) {
        return 0;
    }
    if (byte_here < '0' || byte_here > '9') {
        fault("a decimal number is missing");
        return 0;
    }
    while (byte_here >= '0' && byte_here <= '9') {
        uint64_t digit = (uint64_t)(byte_here - '0');
        if (number > (UINT64_MAX - digit) / 10) {
            fault("a number has more than 64 bits");
            return 0;
        }
        number = number * 10 + digit;
        advance();
    }
    return number;
}

static void read_space(void)
{
    if (!broken && byte_here != ' ') {
        fault("a space is missing");
    } else if (!broken) {
        advance();
    }
}

static int read_digit(void)
{
    int digit;
    if (byte_here >= '0' && byte_here <= '9') {
        digit = byte_here - '0';
    } else if (byte_here >= 'A' && byte_here <= 'F') {
        digit = byte_here - 'A' + 10;
    } else {
        fault("a hexadecimal digit, 0 to 9 or A to F, is missing");
        return 0;
    }
    advance();
    return digit;
}

/* THE MEMORY OF A CASE */

/* Bytes in hexadecimal into a place of their own. They are read to their end also where there is no room for them; then the address is 0. */
static struct place read_bytes(void)
{
    struct place place = {0, 0, 0};
    uint64_t room = (uint64_t)(memory.end - memory.free), count = 0, i;
    uint8_t *start = memory.free + GUARD;
    int fits = room >= 2 * GUARD;
    room = fits ? room - 2 * GUARD : 0;
    if (broken) {
        return place;
    }
    if (byte_here == '-') {
        advance();
        return lend(&memory, 0);
    }
    for (;;) {
        int high = read_digit(), low = broken ? 0 : read_digit();
        uint64_t times = 1;
        if (!broken && byte_here == '*') {
            advance();
            times = read_number();
        }
        if (broken) {
            return place;
        }
        for (i = 0; i < times && fits; i++) {
            fits = count < room;
            if (fits) {
                start[count++] = (uint8_t)(high * 16 + low);
            }
        }
        if (byte_here != ' ') {
            break;
        }
        advance();
    }
    if (!fits) {
        return place;
    }
    return lend(&memory, count); /* the bytes stand where the place is lent */
}

/* A CASE */

struct one_case {
    struct call call;
    uint64_t stated; /* the bytes of memory that the case says it takes */
    uint64_t expected_result, expected_values[4];
    struct place expected_area;
    uint64_t listed_entries, listed_bytes;
    int has_listed, expects_zero, runs;
};

/* Three or four numbers with one space between. */
static void read_numbers(uint64_t *numbers, int count)
{
    int i;
    for (i = 0; i < count; i++) {
        if (i > 0) {
            read_space();
        }
        numbers[i] = read_number();
    }
}

static void read_inputs(struct one_case *c)
{
    struct call *call = &c->call;
    const char *key;
    for (key = call_kinds[call->kind].keys; *key != '\0' && !broken; key++) {
        read_key(key_name(*key));
        switch (*key) {
        case 'A': call->allowance = read_number(); break;
        case 'M': call->moves = read_number(); break;
        case 'W': call->workspace.length = read_number(); break;
        case 'R': call->answer.length = read_number(); break;
        case 'N': read_numbers(call->numbers, 3); break;
        default:
            call->images[call->image_count] = read_bytes();
            c->runs = c->runs && call->images[call->image_count].at != 0;
            call->image_count++;
        }
        read_end_of_line();
    }
    if (!broken && call->allowance > BRAID_MOST_ALLOWANCE) {
        fault("an allowance is at most 65535");
    }
}

static void read_expected(struct one_case *c)
{
    char word[24];
    read_key("result");
    c->expected_result = read_number();
    read_end_of_line();
    if (!broken && c->expected_result >= RESULTS) {
        fault("there is no such result");
    }
    read_key("values");
    read_numbers(c->expected_values, 4);
    read_end_of_line();
    if (takes(c->call.kind, 'R') && !broken) {
        read_word(word, 23);
        if (same_text(word, "lists") && c->call.kind == CALL_CHAIN && byte_here == ' ') {
            advance();
            c->has_listed = 1;
            c->listed_entries = read_number();
            read_space();
            c->listed_bytes = read_number();
        } else if (same_text(word, "leaves") && byte_here == ' ') {
            advance();
            c->expected_area = read_bytes();
            c->runs = c->runs && c->expected_area.at != 0;
        } else {
            fault("what the answer area holds is missing: leaves, or lists of a chain");
        }
        read_end_of_line();
    }
    if (takes(c->call.kind, 'W')) {
        read_key("ends");
        if (!broken) {
            read_word(word, 23);
            c->expects_zero = same_text(word, "zero");
            if (!c->expects_zero && !same_text(word, "found")) {
                fault("the workspace ends zero or found");
            }
        }
        read_end_of_line();
    }
}

/* What of the answer area is not as expected, or a null pointer: it begins with the expected bytes, or with a chain, and the rest is as it was. */
static const char *area_fault(const struct one_case *c)
{
    const struct call *call = &c->call;
    uint64_t i, from = c->has_listed ? c->listed_bytes : c->expected_area.length;
    if (from > call->answer.length) {
        return "more bytes are expected than the area has";
    }
    for (i = 0; i < call->answer.length; i++) {
        if (i < from && !c->has_listed && call->answer.at[i] != c->expected_area.at[i]) {
            return "the area holds other bytes";
        }
        if (i >= from && call->answer.at[i] != in_answer(i)) {
            return "bytes behind what is written have changed";
        }
    }
    if (c->has_listed) {
        struct place chain = call->answer;
        uint64_t room = (uint64_t)(memory.end - memory.free); /* the words on the way stand behind what was lent */
        chain.length = c->listed_bytes;
        if (!leads(&call->images[0], &call->images[1], &call->images[2], &chain, c->listed_entries, memory.free, room)) {
            return "the area holds no chain of so many entries that leads from the first program to the second";
        }
    }
    return 0;
}

static const char *workspace_fault(const struct one_case *c)
{
    const struct place *workspace = &c->call.workspace;
    uint64_t i;
    for (i = 0; i < workspace->length; i++) {
        if (workspace->at[i] != (c->expects_zero ? 0 : in_workspace(i))) {
            return c->expects_zero ? "the workspace is not all zero" : "the workspace is not as found";
        }
    }
    return 0;
}

static const char *case_fault(const struct one_case *c)
{
    const char *found;
    uint64_t i;
    if (c->call.result != c->expected_result) {
        return "another result";
    }
    for (i = 0; i < 4; i++) {
        if (c->call.told[1 + i] != c->expected_values[i]) {
            return "other values";
        }
    }
    found = written_beside(&c->call);
    if (!found && takes(c->call.kind, 'R')) {
        found = area_fault(c);
    }
    if (!found && takes(c->call.kind, 'W')) {
        found = workspace_fault(c);
    }
    return found;
}

static void put_numbers(const char *label, uint64_t result, const uint64_t *values)
{
    int i;
    put_text(label);
    put_number(result);
    put_text(", values");
    for (i = 0; i < 4; i++) {
        put_byte(' ');
        put_number(values[i]);
    }
    put_byte('\n');
}

static void report(const struct one_case *c, const char *found, uint64_t began)
{
    const struct call *call = &c->call;
    put_text("failed: ");
    put_text(call_kinds[call->kind].name);
    put_text(", line ");
    put_number(began);
    put_text(", ");
    put_text(title);
    put_text(": ");
    put_text(found);
    put_byte('\n');
    put_numbers("  expected result ", c->expected_result, c->expected_values);
    put_numbers("  came     result ", call->result, call->told + 1);
    if (takes(call->kind, 'R')) {
        if (!c->has_listed) {
            put_text("  expected area ");
            put_bytes(c->expected_area.at, c->expected_area.length);
            put_text(", then as it was\n");
        }
        put_text("  came     area ");
        put_bytes(call->answer.at, call->answer.length);
        put_byte('\n');
    }
    if (takes(call->kind, 'W')) {
        put_text("  workspace expected ");
        put_text(c->expects_zero ? "zero" : "as found");
        put_text(", came ");
        put_bytes(call->workspace.at, call->workspace.length);
        put_byte('\n');
    }
}

static void report_not_run(const struct one_case *c, uint64_t began)
{
    put_text("not run: line ");
    put_number(began);
    put_text(", ");
    put_text(title);
    put_text(": it takes ");
    put_number(c->stated);
    put_text(" bytes\n");
}

/* Lends the areas of a case. It is not run where there is no room for them, or for the words on the way of a chain. */
static void lend_areas(struct one_case *c)
{
    struct call *call = &c->call;
    if (takes(call->kind, 'W')) {
        call->workspace = lend(&memory, call->workspace.length);
        c->runs = c->runs && call->workspace.at != 0;
    }
    if (takes(call->kind, 'R')) {
        call->answer = lend(&memory, call->answer.length);
        c->runs = c->runs && call->answer.at != 0;
    }
    if (c->has_listed && (uint64_t)(memory.end - memory.free) < MOST_WORD) {
        c->runs = 0;
    }
}

static void judge(struct one_case *c, uint64_t began)
{
    int kind = c->call.kind;
    RUNNER_COUNT *row = tally[kind][outcome_of(kind, c->expected_result, c->expected_values[0])];
    const char *found;
    lend_areas(c);
    if (c->runs && c->stated != (uint64_t)(memory.free - memory_start) + (c->has_listed ? MOST_WORD : 0u)) {
        fault("the case before takes another number of bytes than it says");
        return;
    }
    if (!c->runs) {
        not_run++;
        row[2]++;
        report_not_run(c, began);
        return;
    }
    prepare(&c->call);
    make_call(&c->call);
    found = case_fault(c);
    if (!found) {
        passed++;
        row[0]++;
        return;
    }
    failed++;
    row[1]++;
    if (!reported[kind]) {
        reported[kind] = 1;
        report(c, found, began);
    }
}

/* A block behind its key `case`: it ends with an empty line. */
static void read_case(uint64_t began)
{
    static const struct one_case none;
    struct one_case c = none;
    char word[24];
    int count = 0;
    c.runs = 1;
    memory.free = memory_start;
    while (byte_here >= 0 && byte_here != '\n') {
        if (count < TITLE) {
            title[count++] = (char)byte_here;
        }
        advance();
    }
    title[count] = '\0';
    if (count == 0) {
        fault("a case without a title");
    }
    read_end_of_line();
    read_key("call");
    if (!broken) {
        read_word(word, 23);
        for (c.call.kind = 0; c.call.kind < CALLS && !same_text(word, call_kinds[c.call.kind].name); c.call.kind++) {
        }
        if (c.call.kind == CALLS) {
            fault("there is no such call");
            return;
        }
    }
    read_end_of_line();
    read_key("memory");
    c.stated = read_number();
    read_end_of_line();
    if (!broken) {
        read_inputs(&c);
    }
    if (!broken) {
        read_expected(&c);
    }
    read_end_of_line();
    if (!broken) {
        judge(&c, began);
    }
}

static void put_table(void)
{
    int kind, k;
    unsigned outcome;
    put_text("call, outcome: cases, held, failed, not run\n");
    for (kind = 0; kind < CALLS; kind++) {
        for (outcome = 0; outcome < OUTCOMES; outcome++) {
            const RUNNER_COUNT *row = tally[kind][outcome];
            if (row[0] + row[1] + row[2] > 0) {
                put_outcome(kind, outcome);
                put_text(": ");
                put_number(row[0] + row[1] + row[2]);
                for (k = 0; k < 3; k++) {
                    put_text(", ");
                    put_number(row[k]);
                }
                put_byte('\n');
            }
        }
    }
}

static void read_head(void)
{
    const char *head = "braid vectors 1\n";
    for (; *head != '\0' && !broken; head++) {
        if (byte_here != (unsigned char)*head) {
            fault("this is no file of vectors in format 1: its first line is not 'braid vectors 1'");
            return;
        }
        advance();
    }
    read_end_of_line();
}

int run_vectors(uint8_t *lent, uint64_t capacity)
{
    uint64_t cases = 0;
    int ended = 0;
    char word[24];
    memory_start = lent;
    memory.end = lent + capacity;
    line = 1;
    byte_here = next_byte();
    read_head();
    while (!broken && !ended) {
        uint64_t began = line;
        if (byte_here < 0) {
            fault("the file ends without its count of cases");
            break;
        }
        read_word(word, 23);
        if (byte_here != ' ') {
            fault("a block begins with case or end");
            break;
        }
        advance();
        if (same_text(word, "case")) {
            cases++;
            read_case(began);
        } else if (same_text(word, "end")) {
            ended = 1;
            if (read_number() != cases) {
                fault("the count of cases is not that of the file");
            }
            read_end_of_line();
            if (!broken && byte_here >= 0) {
                fault("something follows the count of cases");
            }
        } else {
            fault("a block begins with case or end");
        }
    }
    if (!broken && cases == 0) {
        fault("the file has no case");
    }
    put_table();
    if (not_run > 0) {
        put_number(not_run);
        put_text(" not run\n");
    }
    put_number(passed);
    put_text(" passed, ");
    put_number(failed);
    put_text(" failed\n");
    return failed > 0 || passed == 0;
}
