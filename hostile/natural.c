/* The natural orders. */
#include "model.h"

/* x and y of each place, list behind list. */
static uint16_t lists[STORE_NUMBERS / 3];

static uint16_t *append(uint16_t *at, size_t x, size_t y)
{
    at[0] = (uint16_t)x;
    at[1] = (uint16_t)y;
    return at + 2;
}

/* The corner row by row, then the diagonals of a square as wide as the order, of which only the rows
 * count that the order has: upwards in x where x + y is even, downwards where it is odd. */
static void write_natural(struct sides sides, uint16_t *at)
{
    size_t low_wide = sides.wide / 8, low_high = sides.high / 8, rows = sides.wide / sides.high;
    for (size_t y = 0; y < low_high; y++)
        for (size_t x = 0; x < low_wide; x++)
            at = append(at, x, y);
    for (size_t sum = 0; sum <= 2 * (sides.wide - 1); sum++)
        for (size_t step = 0; step <= sum; step++) {
            size_t x = sum % 2 == 0 ? step : sum - step, y = sum - x;
            if (x >= sides.wide || y >= sides.wide || (x < low_wide && y < low_wide))
                continue;
            if (y % rows == 0)
                at = append(at, x, y / rows);
        }
}

static uint16_t *list_of(size_t order)
{
    return lists + list_start(order, 0) / 3;
}

void prepare_natural(void)
{
    for (size_t order = 0; order < ORDERS_COUNT; order++)
        write_natural(order_sides[order], list_of(order));
}

const uint16_t *natural_list(size_t order)
{
    return list_of(order);
}
