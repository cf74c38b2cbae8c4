/* The coefficient call: the answer that is due, and what then stands in what was lent. */
#include "walk.h"

#include "netbuff.h"

#include <string.h>

/* Whether the store is one that an order call wrote. */
static bool is_kept(const struct group_call *call)
{
    return call->store == natural_store || call->store == permuted_store;
}

static bool lengths_fit(const struct group_call *call, size_t blocks)
{
    bool fit = call->kinds_length == blocks && call->hf_mul_length == blocks;
    for (int channel = 0; channel < 3; channel++) {
        fit &= !call->lf_there || call->lf_length[channel] == blocks;
        fit &= call->grid_length[channel] == 64 * blocks;
    }
    size_t entries = (size_t)ENTRIES_PER_CLUSTER * call->record->count * call->presets;
    return fit && call->store_length == NETBUFF_STORE_LENGTH && call->cluster_map_length == entries &&
           call->log_length >= 192 * blocks;
}

/* The refusal that is due before symbols are read; the preset and its bits beside. */
static struct answer due_before(const struct group_call *call, uint32_t *preset)
{
    struct sides sides = call->sides;
    uint64_t place = 0;
    if (sides.wide > GROUP_SIDE || sides.high > GROUP_SIDE)
        return (struct answer){2, 0, 0};
    if (call->presets > PRESETS_MOST || call->shift > SHIFT_MOST)
        return (struct answer){11, 0, 0};
    if (!is_fit(call->record))
        return (struct answer){12, 0, 0};
    if (!lengths_fit(call, sides.wide * sides.high))
        return (struct answer){1, 0, 0};
    if (!is_layout(sides, call->kinds, call->hf_mul))
        return (struct answer){18, 0, 0};
    if (!is_kept(call) && !places_inside(call->store))
        return (struct answer){13, 0, 0};
    if (!bits_at(call->bytes, call->bytes_length, &place, exponent_of(call->presets), preset))
        return (struct answer){3, 0, 0};
    if (*preset >= call->presets)
        return (struct answer){14, place, 0};
    return (struct answer){0, 0, 0};
}

/* The low-frequency cells, which no order of an order call reads, are as they were. */
static void check_low_cells(const struct group_call *call)
{
    size_t row = 8 * call->sides.wide;
    for (size_t cell = 0; cell < call->sides.wide * call->sides.high; cell++) {
        if (call->kinds[cell] < 2)
            continue;
        struct sides of = transform_sides[call->kinds[cell] - 2];
        size_t corner = cell / call->sides.wide * 8 * row + cell % call->sides.wide * 8;
        for (int channel = 0; channel < 3; channel++) {
            const int32_t *before = noted(call->grids[channel]);
            for (size_t y = 0; y < of.high; y++)
                promise(memcmp(call->grids[channel] + corner + y * row, before + corner + y * row,
                               4 * of.wide) == 0,
                        "low-frequency cells of the varblock at cell %zu stay", cell);
        }
    }
}

/* The log's bytes are the clusters that are due, and behind them it stays. */
static void check_log(const struct group_call *call, const struct walk *walk)
{
    for (size_t symbol = 0; symbol < walk->read; symbol++)
        promise(call->log[symbol] == walk->log[symbol], "cluster %d of symbol %zu where %d is due",
                call->log[symbol], symbol, walk->log[symbol]);
    stays(call->log, walk->read);
}

static void check_grids(const struct group_call *call, const struct walk *walk)
{
    for (int channel = 0; channel < 3; channel++)
        for (size_t cell = 0; cell < call->grid_length[channel]; cell++)
            promise((uint32_t)call->grids[channel][cell] == walk->grids[channel][cell],
                    "cell %zu of grid %d", cell, channel);
}

static void check_read(const struct group_call *call, struct answer answer, uint32_t preset)
{
    static struct walk walk;
    walk_group(call, preset, &walk);
    answered(answer, walk.answer);
    promise(answer.number != 0 || *call->read == walk.read, "%zu symbols read where %zu are due",
            *call->read, walk.read);
    check_log(call, &walk);
    check_grids(call, &walk);
    if (is_kept(call))
        check_low_cells(call);
}

void check_coefficients(const struct group_call *call, uint32_t refused)
{
    uint32_t preset = 0;
    struct answer answer = {refused, *call->x, *call->y}, due = due_before(call, &preset);
    if (refused != 0)
        stays(call->read, 0);
    if (due.number == 0) {
        check_read(call, answer, preset);
        return;
    }
    answered(answer, due);
    stays(call->log, 0);
    for (int channel = 0; channel < 3; channel++)
        stays(call->grids[channel], 0);
}
