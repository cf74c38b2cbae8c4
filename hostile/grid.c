/* Grids filled with varblocks. */
#include "host.h"

#include <string.h>

/* How many transforms of a grid stand in the input; the others are spread. */
enum { TAKEN_MOST = 16 };

static bool is_free(const struct grid *grid, size_t cell, struct sides of)
{
    size_t wide = grid->sides.wide, x = cell % wide, y = cell / wide;
    if (x % GROUP_SIDE + of.wide > GROUP_SIDE || y % GROUP_SIDE + of.high > GROUP_SIDE)
        return false;
    if (x + of.wide > wide || y + of.high > grid->sides.high)
        return false;
    for (size_t row = 0; row < of.high; row++)
        for (size_t column = 0; column < of.wide; column++)
            if (grid->kinds[cell + row * wide + column] != 0)
                return false;
    return true;
}

static int32_t spread_mul(struct input *in)
{
    uint32_t class = spread_below(in, 16);
    if (class == 0)
        return INT32_MAX - 1;
    return (int32_t)(class == 1 ? 16777215 + spread_below(in, 4) : spread_below(in, 400));
}

static void place(struct input *in, struct grid *grid, size_t cell, uint32_t transform)
{
    struct sides of = transform_sides[transform];
    int32_t mul = spread_mul(in);
    for (size_t row = 0; row < of.high; row++)
        memset(&grid->kinds[cell + row * grid->sides.wide], 1, of.wide);
    grid->kinds[cell] = (uint8_t)(2 + transform);
    grid->hf_mul[cell] = mul + 1;
    grid->types[grid->columns] = (int32_t)transform;
    grid->muls[grid->columns++] = mul;
}

static void empty(struct grid *grid, struct sides sides)
{
    size_t cells = sides.wide * sides.high;
    grid->sides = sides;
    grid->columns = 0;
    memset(grid->kinds, 0, cells);
    memset(grid->hf_mul, 0, cells * sizeof grid->hf_mul[0]);
}

void fill_single(struct input *in, struct grid *grid, uint32_t transform)
{
    empty(grid, transform_sides[transform]);
    place(in, grid, 0, transform);
}

void fill_grid(struct input *in, struct grid *grid, struct sides sides)
{
    size_t cells = sides.wide * sides.high;
    uint32_t favourite = take_below(in, 32), once_in = 1 + take_below(in, 8);
    empty(grid, sides);
    for (size_t cell = 0; cell < cells; cell++) {
        if (grid->kinds[cell] != 0)
            continue;
        uint32_t wished = spread_below(in, TRANSFORMS);
        if (grid->columns < TAKEN_MOST && in->left > 0)
            wished = take_below(in, TRANSFORMS);
        else if (favourite < TRANSFORMS && spread_below(in, 4) > 0)
            wished = favourite;
        else if (spread_below(in, once_in) > 0)
            wished = spread_below(in, 4);
        bool fits = is_free(grid, cell, transform_sides[wished]);
        place(in, grid, cell, fits ? wished : spread_below(in, 4));
    }
}

void damage_grid(struct input *in, struct grid *grid)
{
    static const uint8_t kinds[] = {0, 1, 2, 4, 6, 8, 9, 26, 28, 29, 255};
    static const int32_t muls[] = {0, 1, -1, INT32_MIN, INT32_MAX, 2};
    uint32_t cells = (uint32_t)(grid->sides.wide * grid->sides.high);
    if (cells == 0)
        return;
    for (uint32_t times = take_between(in, 1, 2); times > 0; times--) {
        uint32_t cell = take_below(in, cells);
        if (take_once_in(in, 3))
            grid->hf_mul[cell] = muls[take_below(in, sizeof muls / sizeof muls[0])];
        else
            grid->kinds[cell] = kinds[take_below(in, sizeof kinds)];
    }
}
