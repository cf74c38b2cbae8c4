#include "model.h"

#include <stdlib.h>
#include <string.h>

const struct sides transform_sides[TRANSFORMS] = {
    {1, 1}, {1, 1}, {1, 1}, {1, 1},   {2, 2},  {4, 4},  {1, 2},   {2, 1},   {1, 4},
    {4, 1}, {2, 4}, {4, 2}, {1, 1},   {1, 1},  {1, 1},  {1, 1},   {1, 1},   {1, 1},
    {8, 8}, {4, 8}, {8, 4}, {16, 16}, {8, 16}, {16, 8}, {32, 32}, {16, 32}, {32, 16},
};

const struct sides order_sides[ORDERS_COUNT] = {
    {8, 8},   {8, 8},   {16, 16},   {32, 32},  {16, 8},    {32, 8},    {32, 16},
    {64, 64}, {64, 32}, {128, 128}, {128, 64}, {256, 256}, {256, 128},
};

const size_t transform_order[TRANSFORMS] = {
    0, 1, 1, 1, 2, 3, 4, 4, 5, 5, 6, 6, 1, 1, 1, 1, 1, 1, 7, 8, 8, 9, 10, 10, 11, 12, 12,
};

bool transform_turns(uint32_t transform)
{
    if ((transform >= 1 && transform <= 3) || (transform >= 12 && transform <= 17))
        return false;
    return transform_sides[transform].high >= transform_sides[transform].wide;
}

bool pixels_fit(uint32_t width, uint32_t height)
{
    return width <= PIXELS_MOST && height <= PIXELS_MOST;
}

bool modes_fit(const uint32_t modes[3])
{
    return modes[0] <= 3 && modes[1] <= 3 && modes[2] <= 3;
}

struct sides lf_group_sides(uint32_t width, uint32_t height, const uint32_t modes[3])
{
    struct sides sides = {((size_t)width + 7) / 8, ((size_t)height + 7) / 8};
    bool even_wide = false, even_high = false;
    for (int channel = 0; channel < 3; channel++) {
        even_wide |= modes[channel] == 1 || modes[channel] == 2;
        even_high |= modes[channel] == 1 || modes[channel] == 3;
    }
    sides.wide += even_wide && sides.wide % 2 != 0;
    sides.high += even_high && sides.high % 2 != 0;
    return sides;
}

uint32_t exponent_of(uint32_t n)
{
    uint32_t exponent = 0;
    while ((UINT64_C(1) << exponent) < n)
        exponent++;
    return exponent;
}

bool bits_at(const uint8_t *bytes, size_t length, uint64_t *place, uint32_t n, uint32_t *value)
{
    if (*place + n > 8 * (uint64_t)length)
        return false;
    *value = 0;
    for (uint32_t bit = 0; bit < n; bit++, ++*place)
        *value |= (uint32_t)(bytes[*place / 8] >> *place % 8 & 1) << bit;
    return true;
}

bool u32_at(const uint8_t *bytes, size_t length, uint64_t *place, const uint32_t choices[8],
            uint32_t *value)
{
    uint32_t selector;
    if (!bits_at(bytes, length, place, 2, &selector))
        return false;
    uint32_t n = choices[2 * selector + 1];
    if (!bits_at(bytes, length, place, n < 32 ? n : 32, value))
        return false;
    *value += choices[2 * selector];
    return true;
}

int32_t signed_of(uint32_t u)
{
    int64_t number = u;
    return (int32_t)(number % 2 == 0 ? number / 2 : -(number + 1) / 2);
}

static bool is_corner(uint8_t kind)
{
    return kind >= 2 && kind < 2 + TRANSFORMS;
}

/* Marks the rectangle of a corner; false where it leaves the grid or its square, or meets a mark. */
static bool mark(uint8_t *marks, struct sides sides, size_t cell, uint8_t kind)
{
    size_t x = cell % sides.wide, y = cell / sides.wide;
    struct sides of = transform_sides[kind - 2];
    if (x % GROUP_SIDE + of.wide > GROUP_SIDE || y % GROUP_SIDE + of.high > GROUP_SIDE)
        return false;
    if (x + of.wide > sides.wide || y + of.high > sides.high)
        return false;
    for (size_t row = y; row < y + of.high; row++)
        for (size_t column = x; column < x + of.wide; column++)
            if (marks[row * sides.wide + column]++ != 0)
                return false;
    return true;
}

bool is_layout(struct sides sides, const uint8_t *kinds, const int32_t *hf_mul)
{
    static uint8_t marks[LAYOUT_SIDE_MOST * LAYOUT_SIDE_MOST];
    size_t cells = sides.wide * sides.high;
    memset(marks, 0, cells);
    for (size_t cell = 0; cell < cells; cell++) {
        bool corner = is_corner(kinds[cell]);
        if (corner ? hf_mul[cell] < 1 : kinds[cell] != 1 || hf_mul[cell] != 0)
            return false;
        if (corner && !mark(marks, sides, cell, kinds[cell]))
            return false;
    }
    for (size_t cell = 0; cell < cells; cell++)
        if (marks[cell] == 0)
            return false;
    return true;
}

bool same_varblocks(struct sides sides, const uint8_t *kinds, const int32_t *hf_mul,
                    const uint8_t *kinds2, const int32_t *hf_mul2)
{
    for (size_t cell = 0; cell < sides.wide * sides.high; cell++) {
        bool corner = is_corner(kinds[cell]);
        if (corner != is_corner(kinds2[cell]))
            return false;
        if (corner && (kinds[cell] != kinds2[cell] || hf_mul[cell] != hf_mul2[cell]))
            return false;
    }
    return true;
}

size_t list_length(size_t order)
{
    return 2 * order_sides[order].wide * order_sides[order].high;
}

size_t list_start(size_t order, size_t channel)
{
    size_t start = 0;
    for (size_t before = 0; before < order; before++)
        start += 3 * list_length(before);
    return order < ORDERS_COUNT ? start + channel * list_length(order) : start;
}

bool places_inside(const uint16_t *store)
{
    for (size_t order = 0; order < ORDERS_COUNT; order++)
        for (size_t at = list_start(order, 0); at < list_start(order + 1, 0); at += 2)
            if (store[at] >= order_sides[order].wide || store[at + 1] >= order_sides[order].high)
                return false;
    return true;
}

size_t bsize_of(const uint32_t lengths[4])
{
    return (size_t)(lengths[0] + 1) * (lengths[1] + 1) * (lengths[2] + 1) * (lengths[3] + 1);
}

bool is_fit(const struct record *record)
{
    for (int list = 0; list < 4; list++)
        if (record->lengths[list] > LIST_MOST)
            return false;
    size_t bsize = bsize_of(record->lengths);
    if (bsize > MAP_MOST / MAP_SETS || record->count < 1 || record->count > 16)
        return false;
    for (uint32_t k = 0; k < record->lengths[3]; k++)
        if (record->qf[k] < 1 || record->qf[k] > 300)
            return false;
    for (size_t k = 0; k < MAP_SETS * bsize; k++)
        if (record->map[k] >= record->count)
            return false;
    return true;
}
