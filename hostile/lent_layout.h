/* Layouts that are lent, to the cut and to the likeness test. */
#ifndef LENT_LAYOUT_H
#define LENT_LAYOUT_H

#include "host.h"

/* A layout that is lent: the sides that are said, and lists that mostly have their lengths. */
struct lent_layout {
    struct sides sides;
    uint8_t *kinds;
    int32_t *hf_mul;
    size_t kinds_length, hf_mul_length;
};

/* Sides of a layout, mostly small; once in 8 times it has no blocks. */
struct sides take_sides(struct input *in);

/* Makes one side 0; the other is as it was, or the largest, or one more, which 2 refuses still. */
void take_blocks_away(struct input *in, struct sides *sides);

/* Lends a grid as a layout; once in 16 times it is said to have another side, 0 or outside the
 * limits. */
struct lent_layout lend_layout(struct input *in, const struct grid *grid);

/* What 2 asks of the sides, and 1 of the lengths of kinds and hf_mul. */
bool sides_in_limits(struct sides sides);
bool lengths_fit(const struct lent_layout *layout);

#endif
