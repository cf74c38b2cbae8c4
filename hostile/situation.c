/* The call that tells the context number of a coefficient. */
#include "walk.h"

#include "netbuff_structs.h"

enum { BLOCKS_EXPONENT_MOST = 10, PLACES_PER_BLOCK = 63 };

/* Blocks of a varblock mostly; else more, or the neighbour of a power of two, or any. */
static uint32_t take_blocks(struct input *in)
{
    if (!take_once_in(in, 4))
        return 1u << take_below(in, BLOCKS_EXPONENT_MOST + 1);
    switch (take_below(in, 3)) {
    case 0:
        return take_once_in(in, 2) ? 2048u << take_below(in, 21) : 2048;
    case 1:
        return (1u << take_below(in, 32)) + (take_once_in(in, 2) ? 1 : UINT32_MAX);
    default:
        return take_any(in);
    }
}

/* The first, the last or any number of one of 63 steps, mostly where an entry of a table changes. */
static uint32_t take_stepped(struct input *in, uint32_t blocks)
{
    static const uint32_t edges[16] = {0, 1, 2, 3, 4, 7, 8, 11, 12, 15, 19, 20, 30, 31, 32, 62};
    uint32_t step = take_once_in(in, 3) ? take_below(in, PLACES_PER_BLOCK) : edges[take_below(in, 16)];
    switch (take_below(in, 3)) {
    case 0:
        return step * blocks;
    case 1:
        return step * blocks + (blocks - 1);
    default:
        return step * blocks + take_below(in, blocks);
    }
}

/* Sums of count and place within the limit, at it, beside it and, where they wrap, near it. */
static struct netbuff_situation take_situation(struct input *in)
{
    uint32_t blocks = take_blocks(in), step = blocks == 0 ? 1 : blocks;
    uint32_t places = PLACES_PER_BLOCK * blocks;
    struct netbuff_situation situation = {blocks, 0, 0, 0};
    situation.count = take_once_in(in, 16) ? 0 : take_stepped(in, step) + 1;
    situation.place = take_stepped(in, step);
    situation.prev = take_once_in(in, 8) ? take_any(in) : take_below(in, 2);
    if (take_once_in(in, 4))
        *(take_once_in(in, 2) ? &situation.count : &situation.place) = take_any(in);
    bool above = (uint64_t)situation.count + situation.place > places;
    if (take_once_in(in, above ? 2 : 4))
        situation.place = places - situation.count + take_below(in, 4) - 2;
    else if (above && !take_once_in(in, 4))
        situation.place = places - situation.count;
    return situation;
}

/* Whether there is such a situation (refusal 11); the sum does not wrap. */
static bool is_situation(const struct netbuff_situation *of)
{
    bool power = false;
    for (uint32_t exponent = 0; exponent <= BLOCKS_EXPONENT_MOST; exponent++)
        power |= of->blocks == 1u << exponent;
    uint64_t sum = (uint64_t)of->count + of->place;
    return power && of->count >= 1 && sum <= (uint64_t)PLACES_PER_BLOCK * of->blocks && of->prev <= 1;
}

void host_coefficient_context(struct input *in)
{
    struct netbuff_situation of = take_situation(in);
    uint32_t *context = lend_word(in, "context");
    size_t *x = lend_size(in, "x"), *y = lend_size(in, "y");
    lend_note();
    uint32_t refused =
        netbuff_coefficient_context(of.blocks, of.count, of.place, of.prev, context, x, y);
    lend_check();
    bool accepted = is_situation(&of);
    answered((struct answer){refused, *x, *y}, (struct answer){accepted ? 0 : 11, 0, 0});
    if (!accepted) {
        stays(context, 0);
        return;
    }
    uint32_t due = coefficient_context(of.count, of.place, of.blocks, of.prev == 1);
    promise(*context == due, "number %u where %u is due", *context, due);
    promise(due < COEFFICIENT_ENTRIES, "number %u is below %d", due, COEFFICIENT_ENTRIES);
}
