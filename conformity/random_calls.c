/* Random calls from a seed. Each is drawn in three parts: a table with programs over it, the images handed in, and the limits. */
#include "random_calls.h"
#include "draw.h"
#include "random_texts.h"

/* Which call it is: each as often as it stands here. */
static int draw_kind(struct random *r)
{
    static const uint8_t shares[] = {
        CALL_REVERSE,      CALL_REVERSE,        CALL_LEFT_REVERSE,   CALL_LEFT_REVERSE, CALL_ENQUIRE,        CALL_COMMIT,         CALL_COMMIT,
        CALL_CLEAR,        CALL_MIRROR_CLEAR,   CALL_MIRROR_CLEAR,   CALL_COMPARE,      CALL_COMPARE,        CALL_COMPARE_SIGNED, CALL_COMPARE_SIGNED,
        CALL_CHAIN,        CALL_CHAIN,          CALL_REMAINDER,      CALL_REMAINDER,    CALL_CHECK,          CALL_CHECK,          CALL_PACK_TABLE,
        CALL_UNPACK_TABLE, CALL_PACK_PROGRAM,   CALL_UNPACK_PROGRAM, CALL_BED,          CALL_WAYS,           CALL_IMPORT,         CALL_IMPORT,
        CALL_TRAY,         CALL_TRAY,
    };
    return PICK(r, shares);
}

static enum purpose purpose_of(struct random *r, int kind)
{
    switch (kind) {
    case CALL_LEFT_REVERSE:
    case CALL_MIRROR_CLEAR: return once_in(r, 8) ? ANY_TABLE : MIRROR_TABLE;
    case CALL_COMPARE_SIGNED: return SET_TABLE;
    case CALL_BED: return BED_TABLE;
    case CALL_CLEAR:
    case CALL_WAYS: return once_in(r, 2) ? ANY_TABLE : CLEARING_TABLE;
    case CALL_COMPARE:
    case CALL_CHAIN:
    case CALL_REMAINDER:
    case CALL_TRAY: return once_in(r, 6) ? ANY_TABLE : CLEARING_TABLE;
    default: return ANY_TABLE;
    }
}

/* A program in plain form: at times with more moves than a program has, or with bytes that are no moves. */
static void hand_plain_program(struct draw *d)
{
    static const uint16_t many[] = {4094, 4095, 4095, 4096, 4096, 4097};
    static const uint8_t none[] = {0, 128, 17, 255};
    uint32_t count;
    draw_one(d);
    d->image_length = plain_program(d->table, &d->first, d->image);
    if (once_in(d->r, 60)) {
        for (count = PICK(d->r, many); d->image_length < count;) {
            add_image_byte(d, between(d->r, 1, d->table->moves));
        }
    }
    if (d->image_length > 0 && once_in(d->r, 12)) {
        uint8_t byte = PICK(d->r, none);
        d->image[below(d->r, d->image_length)] = byte;
    }
    hand_in(d);
}

/* A short forward program for ways: its listing may double with each few moves. */
static void draw_short(struct draw *d)
{
    d->first.length = 0;
    add_forward(d->r, d->table, &d->first, below(d->r, 9));
}

/* What is handed in, but for numbers and limits. */
static void draw_images(struct draw *d)
{
    switch (d->call->kind) {
    case CALL_CLEAR:
    case CALL_MIRROR_CLEAR:
    case CALL_UNPACK_TABLE: hand_table(d); break;
    case CALL_COMPARE:
    case CALL_CHAIN:
        draw_two(d);
        hand_table(d);
        hand_forward(d, &d->first);
        hand_forward(d, &d->second);
        break;
    case CALL_REMAINDER:
        draw_part_done(d);
        hand_table(d);
        hand_forward(d, &d->first);
        hand_forward(d, &d->second);
        break;
    case CALL_COMPARE_SIGNED:
        draw_two_signed(d);
        hand_table(d);
        hand_program(d, &d->first);
        hand_program(d, &d->second);
        break;
    case CALL_CHECK: draw_check(d); break;
    case CALL_PACK_TABLE:
        d->image_length = plain_table(d->table, d->image);
        hand_in(d);
        break;
    case CALL_PACK_PROGRAM:
        hand_table(d);
        hand_plain_program(d);
        break;
    case CALL_WAYS:
        draw_short(d);
        hand_table(d);
        hand_forward(d, &d->first);
        break;
    case CALL_IMPORT:
        hand_table(d);
        d->image_length = draw_text(d->r, d->table->moves, d->image, d->sizes->image);
        hand_whole(d); /* texts are damaged as texts */
        break;
    case CALL_TRAY: draw_tray(d); break;
    default: /* one program of any signs */
        draw_one(d);
        hand_table(d);
        hand_program(d, &d->first);
    }
}

/* Memory to work in, from the end of what was lent; it is given back once the call is drawn. */
static uint8_t *take(struct draw *d, uint32_t length)
{
    if ((uint64_t)(d->memory->end - d->memory->free) < length) {
        d->full = 1;
        return d->memory->free;
    }
    d->memory->end -= length;
    return d->memory->end;
}

int draw_call(uint64_t seed, const struct sizes *sizes, ask_library *ask, struct memory *memory, struct call *call)
{
    static const struct call none;
    static const struct draw nothing;
    struct draw d = nothing;
    struct table *spare;
    uint8_t *end = memory->end;
    d.random.state = seed;
    d.r = &d.random;
    d.sizes = sizes;
    d.ask = ask;
    d.memory = memory;
    d.call = call;
    d.table = (struct table *)(void *)take(&d, sizeof *d.table);
    spare = (struct table *)(void *)take(&d, sizeof *spare);
    d.first.moves = take(&d, sizes->moves);
    d.second.moves = take(&d, sizes->moves);
    d.image = take(&d, sizes->image);
    d.first.room = d.second.room = sizes->moves;
    *call = none;
    if (sizes->image >= LEAST_IMAGE && sizes->moves <= BRAID_MOST_MOVES && !d.full) {
        call->kind = draw_kind(d.r);
        d.damaged = once_in(d.r, 4) ? 3 : 40;
        draw_table(d.r, purpose_of(d.r, call->kind), d.table, spare);
        d.dear = d.table->dear;
        draw_images(&d);
    }
    if (call->image_count > 0 && !d.full) {
        draw_limits(&d);
    }
    memory->end = end;
    call->workspace.at = call->answer.at = 0;
    return call->image_count > 0 && !d.full;
}
