/* The walk over a pass group: corners row by row, channels 1, 0, 2, a count and its coefficients. */
#include "walk.h"

#include <string.h>

static bool refuse(struct walk *walk, uint32_t number)
{
    walk->answer = (struct answer){number, walk->read, 0};
    return false;
}

/* One symbol; the cluster of its entry is logged. */
static bool read_symbol(const struct group_call *call, struct walk *walk, size_t entry, uint32_t *symbol)
{
    if (walk->read == call->symbols_length)
        return refuse(walk, 15);
    walk->log[walk->read] = walk->clusters[entry];
    *symbol = call->symbols[walk->read++];
    return true;
}

/* From the counts to the left and above. */
static uint32_t predict(const uint32_t *row, size_t x, size_t y)
{
    if (x == 0)
        return y == 0 ? 32 : row[0];
    return y == 0 ? row[x - 1] : (row[x] + row[x - 1] + 1) / 2;
}

/* The count of a channel; the row keeps what it is for each block, rounded up. */
static bool read_count(const struct group_call *call, struct walk *walk, const struct varblock *varblock,
                       uint32_t *row, uint32_t context, uint32_t *count)
{
    uint32_t blocks = varblock->blocks;
    size_t entry = count_entry(call, context, predict(row, varblock->x, varblock->y));
    if (!read_symbol(call, walk, entry, count))
        return false;
    if (*count > 63 * blocks)
        return refuse(walk, 16);
    for (size_t column = 0; column < varblock->sides.wide; column++)
        row[varblock->x + column] = (*count + blocks - 1) / blocks;
    return true;
}

/* Adds a coefficient at a stored place of the varblock, modulo 2^32. */
static void add(const struct group_call *call, struct walk *walk, const struct varblock *varblock,
                size_t channel, const uint16_t *place, uint32_t symbol)
{
    bool turns = transform_turns(varblock->transform);
    size_t x = 8 * varblock->x + place[turns ? 1 : 0];
    size_t y = 8 * varblock->y + place[turns ? 0 : 1];
    walk->grids[channel][y * 8 * call->sides.wide + x] += (uint32_t)signed_of(symbol) << call->shift;
}

/* The coefficients behind a count, until it is used up; the places may not end before. */
static bool read_places(const struct group_call *call, struct walk *walk,
                        const struct varblock *varblock, size_t channel, uint32_t context, uint32_t left)
{
    uint32_t blocks = varblock->blocks;
    size_t first = first_coefficient_entry(call, context);
    const uint16_t *list = call->store + list_start(varblock->order, channel);
    bool filled = left <= 4 * blocks;
    for (uint32_t place = 0; place < 63 * blocks && left > 0; place++) {
        uint32_t entry = coefficient_context(left, place, blocks, filled), symbol;
        if (entry >= COEFFICIENT_ENTRIES)
            return refuse(walk, 17);
        if (!read_symbol(call, walk, first + entry, &symbol))
            return false;
        filled = symbol != 0;
        if (!filled)
            continue;
        add(call, walk, varblock, channel, list + 2 * (size_t)(blocks + place), symbol);
        left--;
    }
    return left == 0 || refuse(walk, 24);
}

static bool read_varblock(const struct group_call *call, struct walk *walk,
                          const struct varblock *varblock)
{
    static const size_t channels[3] = {1, 0, 2};
    for (size_t turn = 0; turn < 3; turn++) {
        size_t channel = channels[turn];
        uint32_t context = block_context(call, varblock, turn), count;
        if (!read_count(call, walk, varblock, walk->rows[channel], context, &count) ||
            !read_places(call, walk, varblock, channel, context, count))
            return false;
    }
    return true;
}

static struct varblock varblock_at(size_t x, size_t y, uint32_t transform)
{
    struct sides sides = transform_sides[transform];
    return (struct varblock){
        x, y, transform, (uint32_t)(sides.wide * sides.high), sides, transform_order[transform]};
}

void walk_group(const struct group_call *call, uint32_t preset, struct walk *walk)
{
    struct sides sides = call->sides;
    walk->answer = (struct answer){0, 0, 0};
    walk->read = 0;
    walk->clusters = call->cluster_map + (size_t)ENTRIES_PER_CLUSTER * call->record->count * preset;
    memset(walk->rows, 0, sizeof walk->rows);
    for (int channel = 0; channel < 3; channel++)
        memcpy(walk->grids[channel], noted(call->grids[channel]), 4 * call->grid_length[channel]);
    for (size_t cell = 0; cell < sides.wide * sides.high; cell++) {
        if (call->kinds[cell] < 2)
            continue;
        struct varblock varblock =
            varblock_at(cell % sides.wide, cell / sides.wide, call->kinds[cell] - 2u);
        if (!read_varblock(call, walk, &varblock))
            return;
    }
}
