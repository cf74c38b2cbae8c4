/* The layout call: what is lent to it, and what is due. */
#ifndef LAYOUT_H
#define LAYOUT_H

#include "host.h"

/* Size and modes of an LF group. */
struct lf_group {
    uint32_t width, height, modes[3];
};

/* What is lent to a layout call. */
struct layout_call {
    struct lf_group group;
    struct sides sides;
    int32_t *types, *muls, *sharpness, *hf_mul;
    size_t types_length, muls_length, sharpness_length;
    bool filter_on;
    float multiplier, *lookup, *sigma;
    uint32_t scale;
    uint8_t *kinds;
    size_t kinds_length, hf_mul_length, sigma_length;
    size_t *used, *x, *y;
    /* Whether the columns and sharpness numbers are those of the grid. */
    bool undamaged;
};

/* The layout that is due: block by block, all zero beside a refusal, and the columns used for an
 * accepted one. */
struct layout_due {
    struct answer answer;
    size_t used;
    uint8_t kinds[LAYOUT_SIDE_MOST * LAYOUT_SIDE_MOST];
    int32_t hf_mul[LAYOUT_SIDE_MOST * LAYOUT_SIDE_MOST];
    float sigma[LAYOUT_SIDE_MOST * LAYOUT_SIDE_MOST];
};

/* Fills in what is due of a call that nothing refuses before work. */
void expect_layout(const struct layout_call *call, struct layout_due *due);

#endif
