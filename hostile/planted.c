/*
 * Calls with a fault planted, to see that the host finds it. Linked in place of the archive's calls
 * (--wrap); HOSTILE_PLANT is the number of the fault, 0 for none. .ci/hostile tries each.
 */
#include "netbuff_structs.h"
#include "promise.h"

#include <math.h>
#include <stdlib.h>
#include <string.h>

enum plant {
    NONE,
    BYTE_BEHIND,
    BYTE_BEFORE,
    READ_BEHIND,
    WRITE_TO_LENT,
    WRITTEN_AFTER_1,
    NOT_CLEARED,
    NO_LAYOUT,
    NUMBER_OF_NONE,
    POSITION_LEFT,
    UNUSED_PLACE,
    STORE_KEPT,
    LOG_BEHIND,
    GRID_AFTER_14,
    ONE_SYMBOL_MORE,
    SIGMA_BIT,
    HF_MUL_MORE,
    TRANSFORM_ALIKE,
    OUTSIDE_AS_OVERLAP,
    BLOCK_BEFORE,
    LOW_EIGHT_BITS,
    HF_MUL_FIRST,
    TURNED_OTHERWISE,
    ORDER_OF_ITS_SIZE,
    CELL_LEFT,
    CELL_BESIDE,
    OTHER_CLUSTER,
    ACCEPTED_AS_17,
    PLACES_SWAPPED,
    CHANNEL_TWICE,
    DIGIT_NOT_COUNTED,
    OTHER_DEFAULT,
    /* Likeness: what is compared, and which numbers are looked at. */
    ZEROS_ALIKE,
    TRANSFORMS_NOT_SEEN,
    SECOND_NOT_SEEN,
    SURPLUS_NOT_SEEN,
    LARGE_AS_11,
    /* Refusal 24: whether it is told, when, where, for what, and what then stays. */
    REMAINING_ACCEPTED,
    REMAINING_TOO_SOON,
    REMAINING_NOT_ADDED,
    REMAINING_ONE_LESS,
    REMAINING_FOR_17,
    REMAINING_TAKEN_BACK,
    /* Situations: which are told a number, and what it goes by. */
    MORE_BLOCKS_TAKEN,
    COUNT_0_TAKEN,
    LOW_PLACES_TAKEN,
    SUM_WRAPPED,
    FLAG_ABOVE_1_TAKEN,
    FIRST_FLAG_JUDGED,
    FLAG_NOT_SEEN,
    COUNT_NOT_LESS_ONE,
    OTHER_ENTRY,
    /* Groups and layouts without blocks, call by call: refused, not judged, or something done. */
    EMPTY_COUNT_REFUSED,
    EMPTY_COUNT_BESIDE_2049,
    EMPTY_COUNT_READS_BITS,
    EMPTY_COUNT_NONE,
    EMPTY_LAYOUT_REFUSED,
    EMPTY_LAYOUT_BESIDE_2049,
    EMPTY_FLOATS_NOT_SEEN,
    EMPTY_LENGTHS_NOT_SEEN,
    EMPTY_COLUMN_USED,
    EMPTY_COLUMN_WANTED,
    EMPTY_INDEX_INSIDE,
    EMPTY_LENGTHS_FIRST,
    EMPTY_ALIKE_REFUSED,
    EMPTY_ALIKE_BESIDE_257,
    EMPTY_SIGMA_NOT_SEEN,
    EMPTY_SIDES_COMPARED,
    EMPTY_LIKE_ALL,
    EMPTY_GROUP_REFUSED,
    EMPTY_GROUP_BESIDE_33,
    EMPTY_RECORD_NOT_SEEN,
    EMPTY_GRIDS_NOT_SEEN,
    EMPTY_PLACES_NOT_SEEN,
    EMPTY_BITS_NOT_READ,
    EMPTY_PRESET_NOT_SEEN,
    EMPTY_SYMBOL_READ,
    EMPTY_SYMBOL_LOGGED,
    /* Beside a refusal a result is set to 0, call by call. */
    WIDTH_ZERO,
    VALUE_ZERO,
    PLACE_ZERO,
    COUNT_ZERO,
    USED_ZERO,
    SIDES_ZERO,
    NOT_ALIKE,
    RECORD_CLEARED,
    BITS_READ_ZERO,
    ORDERS_READ_ZERO,
    CONTEXT_ZERO,
    COEFFICIENTS_READ_ZERO
};

/* The wrappers pass on what they are given, by these names and types of the header. */
__typeof__(netbuff_transform) __real_netbuff_transform, __wrap_netbuff_transform;
__typeof__(netbuff_read_bits) __real_netbuff_read_bits, __wrap_netbuff_read_bits;
__typeof__(netbuff_read_u32) __real_netbuff_read_u32, __wrap_netbuff_read_u32;
__typeof__(netbuff_column_count) __real_netbuff_column_count, __wrap_netbuff_column_count;
__typeof__(netbuff_cut) __real_netbuff_cut, __wrap_netbuff_cut;
__typeof__(netbuff_alike) __real_netbuff_alike, __wrap_netbuff_alike;
__typeof__(netbuff_layout) __real_netbuff_layout, __wrap_netbuff_layout;
__typeof__(netbuff_block_context) __real_netbuff_block_context, __wrap_netbuff_block_context;
__typeof__(netbuff_orders) __real_netbuff_orders, __wrap_netbuff_orders;
__typeof__(netbuff_coefficient_context) __real_netbuff_coefficient_context,
    __wrap_netbuff_coefficient_context;
__typeof__(netbuff_coefficients) __real_netbuff_coefficients, __wrap_netbuff_coefficients;

static enum plant planted(void)
{
    static const char *word;
    static long number;
    if (word == NULL && (word = getenv("HOSTILE_PLANT")) != NULL) {
        char *end;
        number = strtol(word, &end, 10);
        if (*word == '\0' || *end != '\0' || number < NONE)
            give_up("HOSTILE_PLANT is no number");
    }
    return (enum plant)number;
}

/* Whether a group or layout has no blocks. */
static bool no_blocks(size_t wide, size_t high)
{
    return wide == 0 || high == 0;
}

/* A refusal before all others. */
static uint32_t refuse_size(size_t *x, size_t *y)
{
    *x = *y = 0;
    return 2;
}

uint32_t __wrap_netbuff_transform(uint32_t number, size_t *wide, size_t *high, size_t *order, bool *turn,
                                  size_t *x, size_t *y)
{
    size_t before = *x;
    uint32_t refused = __real_netbuff_transform(number, wide, high, order, turn, x, y);
    if (planted() == POSITION_LEFT && refused != 0)
        *x = before;
    if (planted() == TURNED_OTHERWISE && refused == 0)
        *turn = !*turn;
    if (planted() == ORDER_OF_ITS_SIZE && refused == 0 && *order == 1)
        *order = 0;
    if (planted() == WIDTH_ZERO && refused != 0)
        *wide = 0;
    return planted() == NUMBER_OF_NONE && refused != 0 ? NETBUFF_REFUSALS_END : refused;
}

uint32_t __wrap_netbuff_read_bits(const uint8_t *bytes, size_t length, size_t byte, uint32_t bit,
                                  uint32_t n, uint32_t *value, size_t *next_byte, uint32_t *next_bit,
                                  uint32_t *taken)
{
    if (planted() == READ_BEHIND)
        *value = ((const volatile uint8_t *)bytes)[length];
    uint32_t refused =
        __real_netbuff_read_bits(bytes, length, byte, bit, n, value, next_byte, next_bit, taken);
    if (planted() == VALUE_ZERO && refused != 0)
        *value = 0;
    return refused;
}

uint32_t __wrap_netbuff_read_u32(const uint8_t *bytes, size_t length, size_t byte, uint32_t bit,
                                 const uint32_t choices[8], uint32_t *value, size_t *next_byte,
                                 uint32_t *next_bit, uint32_t *taken)
{
    uint32_t refused =
        __real_netbuff_read_u32(bytes, length, byte, bit, choices, value, next_byte, next_bit, taken);
    if (planted() == PLACE_ZERO && refused != 0)
        *next_byte = 0;
    return refused;
}

uint32_t __wrap_netbuff_column_count(const uint8_t *bytes, size_t length, uint32_t width,
                                     uint32_t height, uint32_t mode0, uint32_t mode1, uint32_t mode2,
                                     uint32_t *count, size_t *bits, size_t *x, size_t *y)
{
    bool empty = no_blocks(width, height), fits = width <= 2048 && height <= 2048;
    if (planted() == EMPTY_COUNT_REFUSED && empty)
        return refuse_size(x, y);
    if (planted() == EMPTY_COUNT_BESIDE_2049 && empty)
        width = height = 0;
    if (planted() == EMPTY_COUNT_READS_BITS && empty && fits) { /* as of two blocks, or four */
        width = 16;
        height = 8;
    }
    uint32_t refused = __real_netbuff_column_count(bytes, length, width, height, mode0, mode1, mode2,
                                                   count, bits, x, y);
    if (planted() == EMPTY_COUNT_NONE && empty && refused == 0)
        *count = 0;
    if (planted() == COUNT_ZERO && refused != 0)
        *count = 0;
    return refused;
}

uint32_t __wrap_netbuff_cut(size_t bw, size_t bh, const uint8_t *kinds, size_t kinds_length,
                            const int32_t *hf_mul, size_t hf_mul_length, size_t index,
                            uint8_t *out_kinds, size_t out_kinds_length, int32_t *out_hf_mul,
                            size_t out_hf_mul_length, size_t *out_bw, size_t *out_bh, size_t *x, size_t *y)
{
    uint32_t refused =
        __real_netbuff_cut(bw, bh, kinds, kinds_length, hf_mul, hf_mul_length, index, out_kinds,
                           out_kinds_length, out_hf_mul, out_hf_mul_length, out_bw, out_bh, x, y);
    if (planted() == BYTE_BEHIND && refused == 0)
        out_kinds[out_kinds_length] = 1;
    if (planted() == BYTE_BEFORE && refused == 0)
        out_kinds[-1] = 1;
    if (planted() == WRITE_TO_LENT && refused == 0)
        ((uint8_t *)(uintptr_t)kinds)[kinds_length - 1] ^= 1;
    if (planted() == SIDES_ZERO && refused != 0)
        *out_bw = *out_bh = 0;
    bool empty = no_blocks(bw, bh) && bw <= 256 && bh <= 256;
    bool fit = kinds_length == 0 && hf_mul_length == 0 && out_kinds_length == 0 && out_hf_mul_length == 0;
    if (planted() == EMPTY_INDEX_INSIDE && empty && fit && index == 0) {
        *out_bw = bw < 32 ? bw : 32;
        *out_bh = bh < 32 ? bh : 32;
        return 0;
    }
    return planted() == EMPTY_LENGTHS_FIRST && empty && !fit ? 1 : refused;
}

enum { CELLS_MOST = 1 << 18 };

/* Kinds without their transforms of one block: Dct8 stands for all of these. */
static const uint8_t *one_for_all(const uint8_t *kinds, size_t length, uint8_t kept[CELLS_MOST])
{
    if (planted() != TRANSFORMS_NOT_SEEN || length > CELLS_MOST)
        return kinds;
    for (size_t k = 0; k < length; k++) {
        bool one_block = (kinds[k] >= 2 && kinds[k] <= 5) || (kinds[k] >= 14 && kinds[k] <= 19);
        kept[k] = one_block ? 2 : kinds[k];
    }
    return kept;
}

/* A sigma whose numbers from the first unseen one on pass for finite ones. */
static const float *seen(const float *sigma, size_t length, size_t unseen, float kept[CELLS_MOST])
{
    if (unseen >= length || length > CELLS_MOST)
        return sigma;
    for (size_t k = 0; k < length; k++)
        kept[k] = k < unseen || isfinite(sigma[k]) ? sigma[k] : 0;
    return kept;
}

/* Where likeness looks at no number any more: all of the second layout or of one without blocks, or
 * behind the blocks. */
static size_t first_unseen(size_t blocks, bool second)
{
    if (planted() == SECOND_NOT_SEEN && second)
        return 0;
    if (planted() == EMPTY_SIGMA_NOT_SEEN && blocks == 0)
        return 0;
    return planted() == SURPLUS_NOT_SEEN ? blocks : SIZE_MAX;
}

/* Whether two lists are equal as numbers, for which +0.0 is -0.0. */
static bool same_numbers(const float *sigma, const float *sigma2, size_t length)
{
    for (size_t k = 0; k < length; k++)
        if (sigma[k] != sigma2[k])
            return false;
    return true;
}

static bool has_large(const float *sigma, size_t length)
{
    for (size_t k = 0; k < length; k++)
        if (fabsf(sigma[k]) > 65504)
            return true;
    return false;
}

uint32_t __wrap_netbuff_alike(size_t bw, size_t bh, const uint8_t *kinds, size_t kinds_length,
                              const int32_t *hf_mul, size_t hf_mul_length, const float *sigma,
                              size_t sigma_length, size_t bw2, size_t bh2, const uint8_t *kinds2,
                              size_t kinds2_length, const int32_t *hf_mul2, size_t hf_mul2_length,
                              const float *sigma2, size_t sigma2_length, bool *alike, size_t *x,
                              size_t *y)
{
    static uint8_t kept_kinds[2][CELLS_MOST];
    static float kept_sigma[2][CELLS_MOST];
    bool empty = no_blocks(bw, bh), empty2 = no_blocks(bw2, bh2);
    if (planted() == EMPTY_ALIKE_REFUSED && (empty || empty2))
        return refuse_size(x, y);
    if (planted() == EMPTY_ALIKE_BESIDE_257 && empty)
        bw = bh = 0;
    if (planted() == EMPTY_ALIKE_BESIDE_257 && empty2)
        bw2 = bh2 = 0;
    uint32_t refused = __real_netbuff_alike(
        bw, bh, one_for_all(kinds, kinds_length, kept_kinds[0]), kinds_length, hf_mul, hf_mul_length,
        seen(sigma, sigma_length, first_unseen(bw * bh, false), kept_sigma[0]), sigma_length, bw2, bh2,
        one_for_all(kinds2, kinds2_length, kept_kinds[1]), kinds2_length, hf_mul2, hf_mul2_length,
        seen(sigma2, sigma2_length, first_unseen(bw2 * bh2, true), kept_sigma[1]), sigma2_length, alike,
        x, y);
    if (planted() == NOT_ALIKE && refused != 0)
        *alike = false;
    if (planted() == EMPTY_SIDES_COMPARED && refused == 0 && (bw != bw2 || bh != bh2))
        *alike = false;
    if (planted() == EMPTY_LIKE_ALL && refused == 0 && (empty || empty2))
        *alike = true;
    if (planted() == ZEROS_ALIKE && refused == 0 && bw == bw2 && bh == bh2)
        *alike = memcmp(kinds, kinds2, kinds_length) == 0 &&
                 memcmp(hf_mul, hf_mul2, hf_mul_length * sizeof *hf_mul) == 0 &&
                 same_numbers(sigma, sigma2, sigma_length);
    return planted() == LARGE_AS_11 && refused == 0 && has_large(sigma, sigma_length) ? 11 : refused;
}

/* An accepted layout that is another: in its strengths, multipliers or transforms. */
static void spoil_layout(uint8_t *kinds, int32_t *hf_mul, float *sigma, size_t blocks)
{
    uint32_t bits;
    if (blocks == 0)
        return;
    memcpy(&bits, &sigma[blocks - 1], sizeof bits);
    bits ^= planted() == SIGMA_BIT && bits != 0;
    memcpy(&sigma[blocks - 1], &bits, sizeof bits);
    hf_mul[0] += planted() == HF_MUL_MORE && hf_mul[0] < INT32_MAX;
    if (planted() == TRANSFORM_ALIKE && kinds[0] == 2)
        kinds[0] = 3;
}

/* The columns' types with their low eight bits alone. */
static const int32_t *low_eight(const int32_t *types, size_t length)
{
    static int32_t low[1 << 16];
    if (planted() != LOW_EIGHT_BITS || length > 1 << 16)
        return types;
    for (size_t column = 0; column < length; column++)
        low[column] = types[column] & 0xff;
    return low;
}

/* Whether the first column of an unknown type has a mul that 6 refuses. */
static bool refused_with_6(const int32_t *types, const int32_t *muls)
{
    size_t column = 0;
    while (types[column] >= 0 && types[column] <= NETBUFF_DCT128X256)
        column++;
    return muls[column] < 0 || muls[column] == INT32_MAX;
}

/* A layout without blocks: a refusal passes, or a column is used or wanted. */
static uint32_t answer_of_empty(uint32_t refused, size_t columns, size_t used_before, size_t *used)
{
    bool passes = (planted() == EMPTY_FLOATS_NOT_SEEN && refused == 11) ||
                  (planted() == EMPTY_LENGTHS_NOT_SEEN && refused == 1);
    if (passes) {
        *used = 0;
        return 0;
    }
    if (refused != 0)
        return refused;
    if (planted() == EMPTY_COLUMN_USED && columns > 0)
        *used = 1;
    if (planted() != EMPTY_COLUMN_WANTED || columns > 0)
        return 0;
    *used = used_before;
    return 4;
}

uint32_t __wrap_netbuff_layout(uint32_t width, uint32_t height, uint32_t mode0, uint32_t mode1,
                               uint32_t mode2, const int32_t *types, size_t types_length,
                               const int32_t *muls, size_t muls_length, const int32_t *sharpness,
                               size_t sharpness_length, bool filter_on, float multiplier,
                               const float lookup[8], uint32_t scale, uint8_t *kinds,
                               size_t kinds_length, int32_t *hf_mul, size_t hf_mul_length, float *sigma,
                               size_t sigma_length, size_t *used, size_t *x, size_t *y)
{
    bool empty = no_blocks(width, height);
    size_t used_before = *used;
    if (planted() == EMPTY_LAYOUT_REFUSED && empty)
        return refuse_size(x, y);
    if (planted() == EMPTY_LAYOUT_BESIDE_2049 && empty)
        width = height = 0;
    uint32_t refused =
        __real_netbuff_layout(width, height, mode0, mode1, mode2, low_eight(types, types_length),
                              types_length, muls, muls_length, sharpness, sharpness_length, filter_on,
                              multiplier, lookup, scale, kinds, kinds_length, hf_mul, hf_mul_length,
                              sigma, sigma_length, used, x, y);
    if (planted() == WRITTEN_AFTER_1 && refused == 1 && kinds_length > 0 && kinds_length < 1 << 20)
        kinds[kinds_length - 1] ^= 1;
    if (planted() == NOT_CLEARED && refused >= 4 && refused <= 10)
        hf_mul[hf_mul_length - 1] = 1;
    if (planted() == NO_LAYOUT && refused == 0 && kinds_length > 0)
        kinds[kinds_length - 1] = 0;
    if (refused == 0)
        spoil_layout(kinds, hf_mul, sigma, kinds_length);
    *x -= planted() == BLOCK_BEFORE && refused == 5 && *x > 0;
    if (planted() == USED_ZERO && refused != 0)
        *used = 0;
    if (planted() == HF_MUL_FIRST && refused == 5 && refused_with_6(types, muls))
        return 6;
    if (empty)
        return answer_of_empty(refused, types_length, used_before, used);
    return planted() == OUTSIDE_AS_OVERLAP && refused == 9 ? 8 : refused;
}

uint32_t __wrap_netbuff_block_context(const uint8_t *bytes, size_t bytes_length, uint32_t num_clusters,
                                      const uint8_t *map, size_t map_length,
                                      uint32_t *num_block_clusters, uint32_t lengths[4],
                                      int32_t lf_thresholds[45], uint32_t qf_thresholds[15],
                                      uint8_t block_ctx_map[2496], size_t *bits_read, size_t *x,
                                      size_t *y)
{
    uint32_t refused = __real_netbuff_block_context(bytes, bytes_length, num_clusters, map, map_length,
                                                    num_block_clusters, lengths, lf_thresholds,
                                                    qf_thresholds, block_ctx_map, bits_read, x, y);
    if (planted() == UNUSED_PLACE && refused == 0 && lengths[3] < 15)
        qf_thresholds[14] = 1;
    if (planted() == RECORD_CLEARED && refused == 12)
        memset(block_ctx_map, 0, 2496);
    if (planted() == BITS_READ_ZERO && refused != 0)
        *bits_read = 0;
    if (planted() == OTHER_DEFAULT && refused == 0 && (bytes[0] & 1) != 0)
        block_ctx_map[2] = 3;
    return refused;
}

/* Order 0, which is used, has two places swapped, or its list of channel 0 for channel 1 too. */
static void spoil_order_0(uint16_t *store)
{
    enum { LIST = 2 * 64 };
    uint16_t *last = store + LIST - 2, before[2] = {last[-2], last[-1]};
    if (planted() == PLACES_SWAPPED) {
        memcpy(last - 2, last, sizeof before);
        memcpy(last, before, sizeof before);
    }
    if (planted() == CHANNEL_TWICE)
        memcpy(store + LIST, store, LIST * sizeof *store);
}

uint32_t __wrap_netbuff_orders(const uint8_t *bytes, size_t bytes_length, const uint32_t *symbols,
                               size_t symbols_length, uint16_t *store, size_t store_length,
                               size_t *symbols_read, size_t *x, size_t *y)
{
    uint32_t refused = __real_netbuff_orders(bytes, bytes_length, symbols, symbols_length, store,
                                             store_length, symbols_read, x, y);
    if (planted() == STORE_KEPT && refused == 15)
        store[store_length - 1] = 1;
    *x -= planted() == DIGIT_NOT_COUNTED && refused == 13;
    if (planted() == ORDERS_READ_ZERO && refused != 0)
        *symbols_read = 0;
    if (refused == 0 && (bytes[0] & 3) < 2)
        spoil_order_0(store);
    return refused;
}

/* A situation in the place of what is none, where a fault takes that for one. */
static struct netbuff_situation taken(struct netbuff_situation of)
{
    uint64_t sum = (uint64_t)of.count + of.place, places = 63 * (uint64_t)of.blocks;
    bool low = planted() == LOW_PLACES_TAKEN && sum > places && sum <= places + of.blocks;
    bool wrapped = planted() == SUM_WRAPPED && sum > UINT32_MAX && (uint32_t)sum <= places;
    if (low || wrapped)
        return (struct netbuff_situation){of.blocks, of.count > 0, 0, of.prev};
    if (planted() == MORE_BLOCKS_TAKEN && of.blocks == 2048)
        return (struct netbuff_situation){1024, of.count / 2 + of.count % 2, of.place / 2, of.prev};
    of.count += planted() == COUNT_0_TAKEN && of.count == 0;
    if (planted() == FLAG_ABOVE_1_TAKEN && of.prev > 1)
        of.prev = 1;
    return of;
}

/* A situation in the place of another, whose number a fault tells; one with a flag of 2 is refused. */
static struct netbuff_situation mistaken(struct netbuff_situation of)
{
    bool walked = of.prev == (of.count <= 4 * (uint64_t)of.blocks);
    bool more = (uint64_t)of.count + of.place < 63 * (uint64_t)of.blocks;
    if (planted() == FIRST_FLAG_JUDGED && of.place == 0 && !walked)
        of.prev = 2;
    if (planted() == FLAG_NOT_SEEN && of.prev == 1)
        of.prev = 0;
    of.count += planted() == COUNT_NOT_LESS_ONE && of.count > 0 && more;
    return of;
}

uint32_t __wrap_netbuff_coefficient_context(uint32_t blocks, uint32_t count, uint32_t place,
                                            uint32_t prev, uint32_t *context, size_t *x, size_t *y)
{
    struct netbuff_situation of =
        mistaken(taken((struct netbuff_situation){blocks, count, place, prev}));
    uint32_t refused =
        __real_netbuff_coefficient_context(of.blocks, of.count, of.place, of.prev, context, x, y);
    if (planted() == OTHER_ENTRY && refused == 0 && place / blocks == 30)
        *context += 2;
    if (planted() == CONTEXT_ZERO && refused != 0)
        *context = 0;
    return refused;
}

enum { GRID_MOST = 64 * 32 * 32, LOG_MOST = 192 * 32 * 32 };

/* What the grids and the log held before the call, as far as a call that reads symbols writes. */
static struct {
    int32_t grids[3][GRID_MOST];
    uint8_t log[LOG_MOST];
} before;

/* What is lent to be written. */
struct written {
    int32_t *grids[3];
    size_t grid_lengths[3];
    uint8_t *log;
    size_t log_length;
};

static size_t at_most(size_t length, size_t most)
{
    return length < most ? length : most;
}

static void note(const struct written *of)
{
    for (int channel = 0; channel < 3; channel++)
        memcpy(before.grids[channel], of->grids[channel],
               at_most(of->grid_lengths[channel], GRID_MOST) * sizeof(int32_t));
    memcpy(before.log, of->log, at_most(of->log_length, LOG_MOST));
}

/* All that a call wrote that read symbols is as it was before. */
static void take_back(const struct written *of)
{
    for (int channel = 0; channel < 3; channel++)
        memcpy(of->grids[channel], before.grids[channel],
               of->grid_lengths[channel] * sizeof(int32_t));
    memcpy(of->log, before.log, at_most(of->log_length, LOG_MOST));
}

/* The last coefficient of the first grid is not added, or added to the cell behind its own. */
static void misplace(int32_t *grid, size_t length)
{
    for (size_t cell = length > 0 ? length - 1 : 0; cell > 0; cell--) {
        uint32_t gain = (uint32_t)grid[cell - 1] - (uint32_t)before.grids[0][cell - 1];
        if (gain == 0)
            continue;
        grid[cell - 1] = before.grids[0][cell - 1];
        if (planted() == CELL_BESIDE)
            grid[cell] = (int32_t)((uint32_t)grid[cell] + gain);
        return;
    }
}

/* The log's last byte is another one of the cluster map. */
static void log_other(uint8_t *last, const uint8_t *cluster_map, size_t length)
{
    size_t entry = 0;
    while (entry + 1 < length && cluster_map[entry] == *last)
        entry++;
    *last = cluster_map[entry];
}

/* The parameters of the coefficient call, and these handed on, with so many of the symbols. */
#define PARAMETERS                                                                                 \
    size_t bw, size_t bh, const uint8_t *kinds, size_t kinds_length, const int32_t *hf_mul,        \
        size_t hf_mul_length, uint32_t num_block_clusters, const uint32_t lengths[4],              \
        const int32_t lf_thresholds[45], const uint32_t qf_thresholds[15],                         \
        const uint8_t block_ctx_map[2496], bool lf_there, const int32_t *lf0, size_t lf0_length,   \
        const int32_t *lf1, size_t lf1_length, const int32_t *lf2, size_t lf2_length,              \
        const uint16_t *store, size_t store_length, uint32_t presets, const uint8_t *cluster_map,  \
        size_t cluster_map_length, uint32_t shift, const uint8_t *bytes, size_t bytes_length,      \
        const uint32_t *symbols, size_t symbols_length, uint8_t *log, size_t log_length,           \
        int32_t *grid0, size_t grid0_length, int32_t *grid1, size_t grid1_length, int32_t *grid2,  \
        size_t grid2_length, size_t *symbols_read, size_t *x, size_t *y
#define ARGUMENTS(so_many)                                                                         \
    bw, bh, kinds, kinds_length, hf_mul, hf_mul_length, num_block_clusters, lengths,               \
        lf_thresholds, qf_thresholds, block_ctx_map, lf_there, lf0, lf0_length, lf1, lf1_length,   \
        lf2, lf2_length, store, store_length, presets, cluster_map, cluster_map_length, shift,     \
        bytes, bytes_length, symbols, so_many, log, log_length, grid0, grid0_length, grid1,        \
        grid1_length, grid2, grid2_length, symbols_read, x, y

/* The call, and what is planted where it answers 24: the last place's symbol is not read, or logged
 * and not added, all is taken back, the position is one less, or it is accepted. */
static uint32_t read_group(PARAMETERS)
{
    const struct written written = {
        {grid0, grid1, grid2}, {grid0_length, grid1_length, grid2_length}, log, log_length};
    note(&written);
    uint32_t refused = __real_netbuff_coefficients(ARGUMENTS(symbols_length));
    if (refused != 24)
        return refused;
    size_t told = *x;
    uint8_t last = log[told - 1];
    bool again = planted() == REMAINING_TOO_SOON || planted() == REMAINING_NOT_ADDED;
    if (again || planted() == REMAINING_TAKEN_BACK)
        take_back(&written);
    if (again)
        __real_netbuff_coefficients(ARGUMENTS(told - 1));
    if (planted() == REMAINING_NOT_ADDED)
        log[told - 1] = last;
    *x = told - (planted() == REMAINING_ONE_LESS);
    if (planted() != REMAINING_ACCEPTED)
        return 24;
    *symbols_read = told;
    *x = 0;
    return 0;
}

/* Whether what is planted lets a refusal of a group without blocks pass. */
static bool passes(uint32_t refused)
{
    switch (planted()) {
    case EMPTY_RECORD_NOT_SEEN:
        return refused == 12;
    case EMPTY_GRIDS_NOT_SEEN:
        return refused == 1;
    case EMPTY_PLACES_NOT_SEEN:
        return refused == 13;
    case EMPTY_BITS_NOT_READ:
        return refused == 3;
    case EMPTY_PRESET_NOT_SEEN:
        return refused == 14;
    default:
        return false;
    }
}

/* A group without blocks: it is refused, a refusal passes, or a symbol is read or logged. */
static uint32_t read_empty(PARAMETERS)
{
    size_t read_before = *symbols_read;
    if (planted() == EMPTY_GROUP_REFUSED)
        return refuse_size(x, y);
    if (planted() == EMPTY_GROUP_BESIDE_33)
        bw = bh = 0;
    uint32_t refused = __real_netbuff_coefficients(ARGUMENTS(symbols_length));
    if (passes(refused)) {
        *symbols_read = *x = 0;
        return 0;
    }
    if (refused != 0)
        return refused;
    if (planted() == EMPTY_SYMBOL_LOGGED && log_length > 0)
        log[0] = cluster_map[0];
    if (planted() != EMPTY_SYMBOL_READ)
        return 0;
    *symbols_read = symbols_length > 0 ? 1 : read_before;
    return symbols_length > 0 ? 0 : 15;
}

uint32_t __wrap_netbuff_coefficients(PARAMETERS)
{
    size_t read_before = *symbols_read;
    uint32_t refused = no_blocks(bw, bh) ? read_empty(ARGUMENTS(symbols_length))
                                         : read_group(ARGUMENTS(symbols_length));
    if (planted() == LOG_BEHIND && refused == 0 && *symbols_read < log_length)
        log[*symbols_read] ^= 1;
    if (planted() == GRID_AFTER_14 && refused == 14 && grid1_length > 0)
        grid1[grid1_length - 1] ^= 1;
    if (planted() == ONE_SYMBOL_MORE && refused == 0)
        ++*symbols_read;
    if (planted() == COEFFICIENTS_READ_ZERO && refused != 0)
        *symbols_read = 0;
    if ((planted() == CELL_LEFT || planted() == CELL_BESIDE) && refused == 0)
        misplace(grid0, grid0_length);
    if (planted() == OTHER_CLUSTER && refused == 0 && presets == 1 && *symbols_read > 0)
        log_other(&log[*symbols_read - 1], cluster_map, cluster_map_length);
    if (planted() == ACCEPTED_AS_17 && refused == 0) {
        *x = *symbols_read;
        *symbols_read = read_before;
        return 17;
    }
    return planted() == REMAINING_FOR_17 && refused == 17 ? 24 : refused;
}

#undef PARAMETERS
#undef ARGUMENTS
