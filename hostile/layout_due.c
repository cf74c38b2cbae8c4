/* The layout call: columns placed block by block, and the filter's strength. */
#include "layout.h"

#include <float.h>
#include <string.h>

/* A product or quotient of floats is rounded to a float, once, and not kept in anything wider. */
_Static_assert(FLT_EVAL_METHOD == 0, "floats are computed as floats");

enum { SHARPNESS_NUMBERS = 8 };

/* Four steps, each rounded once. */
static float strength(const struct layout_call *call, int32_t hf_mul, int32_t sharpness)
{
    float step = call->multiplier * 65536.0f;
    step = step / (float)call->scale;
    step = step / (float)hf_mul;
    return step * call->lookup[sharpness];
}

/* The refusal of one cell of a rectangle, 0 where it is taken. */
static uint32_t take_cell(const struct layout_call *call, struct layout_due *due, size_t x, size_t y,
                          int32_t hf_mul)
{
    if (x >= call->sides.wide || y >= call->sides.high)
        return 9;
    size_t cell = y * call->sides.wide + x;
    if (due->kinds[cell] != 0)
        return 8;
    due->kinds[cell] = 1;
    if (!call->filter_on)
        return 0;
    int32_t sharpness = call->sharpness[cell];
    if (sharpness < 0 || sharpness >= SHARPNESS_NUMBERS)
        return 10;
    due->sigma[cell] = strength(call, hf_mul, sharpness);
    return 0;
}

/* The refusal of the next column at a free block, 0 where its varblock is placed. */
static uint32_t place_column(const struct layout_call *call, struct layout_due *due, size_t x, size_t y)
{
    if (due->used == call->types_length)
        return 4;
    int32_t type = call->types[due->used];
    if (type < 0 || type >= TRANSFORMS)
        return 5;
    int64_t hf_mul = (int64_t)call->muls[due->used] + 1;
    if (hf_mul < 1 || hf_mul > INT32_MAX)
        return 6;
    struct sides of = transform_sides[type];
    if (x % GROUP_SIDE + of.wide > GROUP_SIDE || y % GROUP_SIDE + of.high > GROUP_SIDE)
        return 7;
    for (size_t row = y; row < y + of.high; row++)
        for (size_t column = x; column < x + of.wide; column++) {
            uint32_t refused = take_cell(call, due, column, row, (int32_t)hf_mul);
            if (refused != 0)
                return refused;
        }
    due->kinds[y * call->sides.wide + x] = (uint8_t)(2 + type);
    due->hf_mul[y * call->sides.wide + x] = (int32_t)hf_mul;
    due->used++;
    return 0;
}

static void clear(struct layout_due *due, size_t blocks)
{
    due->used = 0;
    memset(due->kinds, 0, blocks * sizeof due->kinds[0]);
    memset(due->hf_mul, 0, blocks * sizeof due->hf_mul[0]);
    memset(due->sigma, 0, blocks * sizeof due->sigma[0]);
}

void expect_layout(const struct layout_call *call, struct layout_due *due)
{
    struct sides sides = call->sides;
    due->answer = (struct answer){0, 0, 0};
    clear(due, sides.wide * sides.high);
    for (size_t y = 0; y < sides.high; y++)
        for (size_t x = 0; x < sides.wide; x++) {
            if (due->kinds[y * sides.wide + x] != 0)
                continue;
            uint32_t refused = place_column(call, due, x, y);
            if (refused == 0)
                continue;
            due->answer = (struct answer){refused, x, y};
            clear(due, sides.wide * sides.high);
            return;
        }
}
