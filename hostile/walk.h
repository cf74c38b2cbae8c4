/* The reading of a pass group, as it is due. */
#ifndef WALK_H
#define WALK_H

#include "coefficients.h"

enum { BLOCKS_MOST = GROUP_SIDE * GROUP_SIDE, COUNT_ENTRIES = 37, COEFFICIENT_ENTRIES = 458 };

/* A varblock of the group: its corner, its transform, and its sides, area and order. */
struct varblock {
    size_t x, y;
    uint32_t transform, blocks;
    struct sides sides;
    size_t order;
};

/* The answer, the symbols read, the cluster of each, and the grids with all that was added. */
struct walk {
    struct answer answer;
    size_t read;
    uint8_t log[192 * BLOCKS_MOST];
    uint32_t grids[3][64 * BLOCKS_MOST];
    /* Counts of the varblocks that were read last in each column, by channel. */
    uint32_t rows[3][GROUP_SIDE];
    /* The preset's part of the cluster map. */
    const uint8_t *clusters;
};

/* Reads a group that nothing refuses before its symbols. */
void walk_group(const struct group_call *call, uint32_t preset, struct walk *walk);

/* The cluster of a varblock's block context; `turn` counts the channels in the turn 1, 0, 2. */
uint32_t block_context(const struct group_call *call, const struct varblock *varblock, size_t turn);

/* The entry, in the preset's part of the cluster map, of a count with this prediction. */
size_t count_entry(const struct group_call *call, uint32_t block_context, uint32_t predicted);

/* The first of the 458 entries of coefficients. */
size_t first_coefficient_entry(const struct group_call *call, uint32_t block_context);

/* Which of them, if it is below 458, a coefficient takes: by the count that is left, the place behind
 * the low-frequency cells, and whether the coefficient before it was other than 0. */
uint32_t coefficient_context(uint32_t left, uint32_t place, uint32_t blocks, bool filled_before);

#endif
