#include "lent_layout.h"

static size_t take_side(struct input *in)
{
    uint8_t class = take_byte(in);
    if (class >= 252)
        return take_between(in, GROUP_SIDE + 1, LAYOUT_SIDE_MOST);
    return class >= 224 ? take_between(in, 1, 70) : take_between(in, 1, 9);
}

void take_blocks_away(struct input *in, struct sides *sides)
{
    bool wide = take_below(in, 2) == 0;
    *(wide ? &sides->wide : &sides->high) = 0;
    if (take_once_in(in, 8))
        *(wide ? &sides->high : &sides->wide) = LAYOUT_SIDE_MOST + take_below(in, 2);
}

struct sides take_sides(struct input *in)
{
    size_t wide = take_side(in);
    struct sides sides = {wide, take_side(in)};
    if (take_once_in(in, 8))
        take_blocks_away(in, &sides);
    return sides;
}

static size_t other_side(struct input *in)
{
    static const size_t others[4] = {0, LAYOUT_SIDE_MOST + 1, SIZE_MAX, ((size_t)1 << 32) + 1};
    return others[take_below(in, 4)];
}

struct lent_layout lend_layout(struct input *in, const struct grid *grid)
{
    size_t cells = grid->sides.wide * grid->sides.high;
    struct lent_layout layout = {grid->sides, NULL, NULL, take_length(in, cells),
                                 take_length(in, cells)};
    layout.kinds = lend_copy(in, "kinds", grid->kinds, cells, layout.kinds_length, 1);
    layout.hf_mul = lend_copy(in, "hf_mul", grid->hf_mul, cells, layout.hf_mul_length, 4);
    if (take_once_in(in, 16))
        *(take_below(in, 2) == 0 ? &layout.sides.wide : &layout.sides.high) = other_side(in);
    return layout;
}

bool sides_in_limits(struct sides sides)
{
    return sides.wide <= LAYOUT_SIDE_MOST && sides.high <= LAYOUT_SIDE_MOST;
}

bool lengths_fit(const struct lent_layout *layout)
{
    size_t cells = layout->sides.wide * layout->sides.high;
    return layout->kinds_length == cells && layout->hf_mul_length == cells;
}
