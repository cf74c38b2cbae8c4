/* The contexts of counts and coefficients, by the Rust's formulas and tables. */
#include "walk.h"

/* By place, in steps of a varblock's blocks. */
static const uint32_t frequency_context[63] = {
    0,  1,  2,  3,  4,  5,  6,  7,  8,  9,  10, 11, 12, 13, 14, 15, 15, 16, 16, 17, 17,
    18, 18, 19, 19, 20, 20, 21, 21, 22, 22, 23, 23, 23, 23, 24, 24, 24, 24, 25, 25, 25,
    25, 26, 26, 26, 26, 27, 27, 27, 27, 28, 28, 28, 28, 29, 29, 29, 29, 30, 30, 30, 30,
};

/* By the count that is left, less one, in the same steps. */
static const uint32_t count_context[63] = {
    0,   31,  62,  62,  93,  93,  93,  93,  123, 123, 123, 123, 152, 152, 152, 152,
    152, 152, 152, 152, 180, 180, 180, 180, 180, 180, 180, 180, 180, 180, 180, 180,
    206, 206, 206, 206, 206, 206, 206, 206, 206, 206, 206, 206, 206, 206, 206, 206,
    206, 206, 206, 206, 206, 206, 206, 206, 206, 206, 206, 206, 206, 206, 206,
};

/* How many thresholds of the LF list of a channel a number is above. */
static size_t lf_above(const struct group_call *call, int channel, int32_t number)
{
    size_t above = 0;
    for (uint32_t k = 0; k < call->lengths[channel]; k++)
        above += number > call->lf_thresholds[LIST_MOST * channel + k];
    return above;
}

/* The LF numbers of the corner, by channels 0, 2, 1; 0 where there are none. */
static size_t lf_index(const struct group_call *call, size_t cell)
{
    static const int channels[3] = {0, 2, 1};
    size_t index = 0;
    for (int k = 0; k < 3 && call->lf_there; k++) {
        int channel = channels[k];
        index *= call->lengths[channel] + 1;
        index += lf_above(call, channel, call->lf[channel][cell]);
    }
    return index;
}

/* How many qf thresholds hf_mul is above. */
static size_t qf_index(const struct group_call *call, size_t cell)
{
    size_t above = 0;
    for (uint32_t k = 0; k < call->lengths[3]; k++)
        above += call->hf_mul[cell] > (int32_t)call->qf[k];
    return above;
}

uint32_t block_context(const struct group_call *call, const struct varblock *varblock, size_t turn)
{
    const uint32_t *lengths = call->lengths;
    size_t cell = varblock->y * call->sides.wide + varblock->x;
    size_t lf_sets = (size_t)(lengths[0] + 1) * (lengths[1] + 1) * (lengths[2] + 1);
    size_t index = turn * ORDERS_COUNT + varblock->order;
    index = index * (lengths[3] + 1) + qf_index(call, cell);
    return call->map[index * lf_sets + lf_index(call, cell)];
}

size_t count_entry(const struct group_call *call, uint32_t block_context, uint32_t predicted)
{
    uint32_t step = predicted < 8 ? predicted : 4 + predicted / 2;
    return block_context + (size_t)step * call->record->count;
}

size_t first_coefficient_entry(const struct group_call *call, uint32_t block_context)
{
    return (size_t)block_context * COEFFICIENT_ENTRIES + (size_t)COUNT_ENTRIES * call->record->count;
}

uint32_t coefficient_context(uint32_t left, uint32_t place, uint32_t blocks, bool filled_before)
{
    uint32_t context = count_context[(left - 1) / blocks] + frequency_context[place / blocks];
    return 2 * context + filled_before;
}
