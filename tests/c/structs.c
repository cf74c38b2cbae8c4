/*
 * Holds netbuff_structs.h against netbuff.h: both make the same call, on copies of the same memory,
 * and have to answer, hand out and leave the same. Inputs are spread: fitting, refused, of odd
 * lengths, null. At the end each call has to have been accepted and refused in each way that is
 * listed for it, so that the comparison is not empty.
 */
#include "netbuff_structs.h"

#include <inttypes.h>
#include <math.h>
#include <stdio.h>
#include <stdlib.h>
#include <string.h>

enum { ROUNDS = 3000, BLOCKS_MOST = 64, CELLS_MOST = 64 * BLOCKS_MOST, LIST_MOST = 300 };

static uint64_t state = 1;

/* splitmix64 */
static uint64_t next(void)
{
    state += 0x9e3779b97f4a7c15;
    uint64_t z = state;
    z = (z ^ (z >> 30)) * 0xbf58476d1ce4e5b9;
    z = (z ^ (z >> 27)) * 0x94d049bb133111eb;
    return z ^ (z >> 31);
}

static uint32_t below(uint32_t n)
{
    return (uint32_t)(next() >> 32) % n;
}

static bool once_in(uint32_t n)
{
    return below(n) == 0;
}

/* A length for a list that wants so many elements: mostly that. */
static size_t length_near(size_t wanted)
{
    if (!once_in(12))
        return wanted;
    return once_in(2) || wanted == 0 ? wanted + 1 : once_in(2) ? wanted - 1 : 0;
}

/* ---- What is counted and held ---- */

enum call {
    FIND,
    TAKE_BITS,
    TAKE_U32,
    COUNT,
    LAYOUT,
    CUT,
    ALIKE,
    CONTEXTS,
    ORDERS,
    COEFFICIENTS,
    COEFFICIENT_CONTEXT,
    CALLS
};

static const char *const names[CALLS] = {
    "transform", "bits",   "u32",          "column count",       "layout", "cut", "likeness",
    "contexts",  "orders", "coefficients", "coefficient context"};
static unsigned answers[CALLS][NETBUFF_REFUSALS_END];
static unsigned nulls, threshold_records, likenesses[2]; /* no, yes */
static unsigned empty[CALLS][NETBUFF_REFUSALS_END]; /* where the group or layout has no blocks */

static void hold(enum call call, bool same, const char *what)
{
    if (same)
        return;
    fprintf(stderr, "structs: %s: %s differ\n", names[call], what);
    exit(1);
}

static void hold_answer(enum call call, struct netbuff_refusal layer, struct netbuff_refusal floor)
{
    hold(call, layer.number == floor.number && layer.x == floor.x && layer.y == floor.y, "answers");
    if (layer.number < NETBUFF_REFUSALS_END)
        answers[call][layer.number]++;
}

/* Counts an answer where a group or layout has no blocks. */
static void count_empty(enum call call, uint64_t bw, uint64_t bh, uint32_t number)
{
    if (bw == 0 || bh == 0)
        empty[call][number]++;
}

/* A list that does not fit is named for 1, and none where a later refusal or none is given. */
static void hold_misfit(enum call call, uint32_t number, const char *misfit)
{
    bool before = number == 2 || number == 11 || number == 12;
    hold(call, before || (number == 1) == (misfit != NULL), "refusal 1 and the misfit's name");
}

/* ---- Memory that is lent: the layer's copy, the floor's copy ---- */

struct lent {
    uint8_t kinds[BLOCKS_MOST + 1], out_kinds[BLOCKS_MOST + 1], log[192 * BLOCKS_MOST + 1];
    int32_t hf_mul[BLOCKS_MOST + 1], out_hf_mul[BLOCKS_MOST + 1], grids[3][CELLS_MOST + 1];
    float sigma[BLOCKS_MOST + 1];
    struct netbuff_contexts contexts;
    size_t first, second;
};

static struct lent layer, base;

static void fill_lent(void)
{
    for (size_t at = 0; at + sizeof(uint64_t) <= sizeof layer; at += sizeof(uint64_t)) {
        uint64_t word = next();
        memcpy((uint8_t *)&layer + at, &word, sizeof word);
    }
    memcpy(&base, &layer, sizeof layer);
}

static void hold_lent(enum call call)
{
    hold(call, memcmp(&layer, &base, sizeof layer) == 0, "contents");
}

static bool is_null(void)
{
    bool null = once_in(40);
    nulls += null;
    return null;
}

/* A list that is sometimes null; to the floor it is then the empty list at `base.first`. */
#define MAYBE(list) (is_null() ? NULL : (list))
#define LEND(type, list, length)                                                                   \
    ((list) != NULL ? (list) : (type *)(void *)&base.first), ((list) != NULL ? (length) : 0)

/* ---- The calls ---- */

static void try_transform(void)
{
    struct netbuff_transform_info a = {7, 7, 7, false}, b = a;
    uint32_t number = below(30);
    struct netbuff_refusal no = {0, 0, 0};
    no.number = netbuff_transform(number, &b.wide, &b.high, &b.order, &b.turn, &no.x, &no.y);
    hold_answer(FIND, netbuff_find_transform(number, &a), no);
    hold(FIND, a.wide == b.wide && a.high == b.high && a.order == b.order && a.turn == b.turn,
         "results");
}

static void try_bits(void)
{
    uint8_t data[6];
    for (size_t k = 0; k < sizeof data; k++)
        data[k] = (uint8_t)below(256);
    struct netbuff_bytes bytes = {MAYBE(data), below(7)};
    struct netbuff_bit_place place = {below(6), below(8)}, next = place;
    uint32_t n = below(36), a = 5, b = 5, taken = 0;
    struct netbuff_refusal no = {0, 0, 0};
    no.number = netbuff_read_bits(LEND(const uint8_t, bytes.data, bytes.length), place.byte,
                                  place.bit, n, &b, &next.byte, &next.bit, &taken);
    no.x = taken;
    struct netbuff_bit_place moved = place;
    hold_answer(TAKE_BITS, netbuff_take_bits(&bytes, &moved, n, &a), no);
    hold(TAKE_BITS, a == b && moved.byte == next.byte && moved.bit == next.bit, "results");

    const struct netbuff_u32_choice choices[4] = {
        {1, below(8)}, {below(9), 4}, {3, 33}, {9, below(40)}};
    const uint32_t flat[8] = {1, choices[0].bits, choices[1].offset, 4, 3, 33, 9, choices[3].bits};
    next = moved = place;
    no.number = netbuff_read_u32(LEND(const uint8_t, bytes.data, bytes.length), place.byte,
                                 place.bit, flat, &b, &next.byte, &next.bit, &taken);
    no.x = taken;
    hold_answer(TAKE_U32, netbuff_take_u32(&bytes, &moved, choices, &a), no);
    hold(TAKE_U32, a == b && moved.byte == next.byte && moved.bit == next.bit, "results");
}

static struct netbuff_lf_group any_group(void)
{
    struct netbuff_lf_group group = {1 + below(48), 1 + below(48), {0, 0, 0}};
    if (once_in(4))
        group.modes[below(3)] = below(once_in(4) ? 5 : 4);
    if (once_in(8))
        *(once_in(2) ? &group.width : &group.height) = 0;
    if (once_in(15))
        group.width = 2049;
    return group;
}

static void try_column_count(void)
{
    const uint8_t data[2] = {(uint8_t)below(256), (uint8_t)below(256)};
    struct netbuff_bytes bytes = {MAYBE(data), below(3)};
    struct netbuff_lf_group g = any_group();
    struct netbuff_column_total a = {3, 4}, b = a;
    struct netbuff_refusal no = {0, 0, 0};
    no.number = netbuff_column_count(LEND(const uint8_t, bytes.data, bytes.length), g.width,
                                     g.height, g.modes[0], g.modes[1], g.modes[2], &b.count,
                                     &b.bits_read, &no.x, &no.y);
    hold_answer(COUNT, netbuff_count_columns(&bytes, &g, &a), no);
    count_empty(COUNT, g.width, g.height, no.number);
    hold(COUNT, a.count == b.count && a.bits_read == b.bits_read, "results");
}

static void try_layout(void)
{
    static const int32_t mostly[8] = {0, 0, 1, 3, 12, 17, 6, 7};
    int32_t types[BLOCKS_MOST], muls[BLOCKS_MOST], sharpness[BLOCKS_MOST + 1];
    for (size_t k = 0; k < BLOCKS_MOST; k++) {
        types[k] = once_in(30) ? (int32_t)below(28) : mostly[below(once_in(5) ? 8 : 6)];
        muls[k] = once_in(200) ? -1 : (int32_t)below(300);
        sharpness[k] = (int32_t)below(once_in(100) ? 9 : 8);
    }
    sharpness[BLOCKS_MOST] = 0;
    struct netbuff_layout_input in = {any_group(),
                                      {MAYBE(types), MAYBE(muls), below(BLOCKS_MOST + 1)},
                                      {MAYBE(sharpness), 0},
                                      {once_in(2), 0.5f, {0, 1, 2, 3, 4, 5, 6, 7}, below(73729)}};
    const struct netbuff_lf_group *g = &in.group;
    if (once_in(2))
        in.columns.length = BLOCKS_MOST;
    size_t blocks = netbuff_blocks_of(g) > BLOCKS_MOST ? 1 : netbuff_blocks_of(g);
    in.sharpness.length = length_near(blocks);
    fill_lent();
    uint8_t *kinds = MAYBE(layer.kinds);
    int32_t *hf_mul = MAYBE(layer.hf_mul);
    float *sigma = MAYBE(layer.sigma);
    struct netbuff_layout_output out = {
        {9, 9, kinds, hf_mul, length_near(blocks)}, sigma, length_near(blocks), 77};
    size_t used = 77;
    struct netbuff_refusal no = {0, 0, 0};
    no.number =
        netbuff_layout(g->width, g->height, g->modes[0], g->modes[1], g->modes[2],
                       LEND(const int32_t, in.columns.types, in.columns.length),
                       LEND(const int32_t, in.columns.muls, in.columns.length),
                       LEND(const int32_t, in.sharpness.data, in.sharpness.length), in.filter.on,
                       in.filter.multiplier, in.filter.lookup, in.filter.scale, base.kinds,
                       kinds ? out.blocks.length : 0, base.hf_mul, hf_mul ? out.blocks.length : 0,
                       base.sigma, sigma ? out.sigma_length : 0, &used, &no.x, &no.y);
    hold_answer(LAYOUT, netbuff_read_layout(&in, &out), no);
    count_empty(LAYOUT, g->width, g->height, no.number);
    hold(LAYOUT, out.columns_used == used, "columns used");
    hold_misfit(LAYOUT, no.number, netbuff_layout_misfit(&in, &out));
    hold(LAYOUT, no.number == 0 ? out.blocks.bw * out.blocks.bh == blocks : out.blocks.bw == 9,
         "sides");
    hold(LAYOUT, no.number != 0 || (g->width == 0) == (out.blocks.bw == 0), "sides of 0");
    hold_lent(LAYOUT);
}

/* A grid of one-block varblocks, some with one that is wider, some damaged, some without blocks. */
static struct netbuff_blocks any_blocks(uint8_t *kinds, int32_t *hf_mul)
{
    struct netbuff_blocks blocks = {1 + below(8), 1 + below(8), kinds, hf_mul, 0};
    if (once_in(8)) {
        blocks.bw = 33 + below(20);
        blocks.bh = 1;
    }
    if (once_in(8))
        *(once_in(2) ? &blocks.bw : &blocks.bh) = 0;
    blocks.length = blocks.bw * blocks.bh;
    for (size_t k = 0; k < blocks.length; k++) {
        kinds[k] = (uint8_t)(2 + below(4));
        hf_mul[k] = 1 + (int32_t)below(20);
    }
    if (blocks.bw > 1 && once_in(2)) {
        kinds[0] = 2 + NETBUFF_DCT8X16;
        kinds[1] = NETBUFF_KIND_OCCUPIED;
        hf_mul[1] = 0;
    }
    if (blocks.length > 0 && once_in(15))
        kinds[below((uint32_t)blocks.length)] = (uint8_t)below(40);
    if (once_in(20))
        blocks.bw = once_in(2) ? 0 : 257;
    blocks.length = length_near(blocks.length);
    blocks.kinds = MAYBE(kinds);
    blocks.hf_mul = MAYBE(hf_mul);
    return blocks;
}

static void try_cut(void)
{
    uint8_t kinds[BLOCKS_MOST + 1];
    int32_t hf_mul[BLOCKS_MOST + 1];
    struct netbuff_blocks from = any_blocks(kinds, hf_mul);
    fill_lent();
    size_t index = below(once_in(4) ? 3 : 1);
    size_t wanted = netbuff_blocks_of_group(&from, index);
    struct netbuff_blocks group = {5, 6, MAYBE(layer.out_kinds), MAYBE(layer.out_hf_mul),
                                   length_near(wanted > BLOCKS_MOST ? 1 : wanted)};
    size_t out_bw = 5, out_bh = 6;
    struct netbuff_refusal no = {0, 0, 0};
    no.number = netbuff_cut(from.bw, from.bh, LEND(const uint8_t, from.kinds, from.length),
                            LEND(const int32_t, from.hf_mul, from.length), index, base.out_kinds,
                            group.kinds ? group.length : 0, base.out_hf_mul,
                            group.hf_mul ? group.length : 0, &out_bw, &out_bh, &no.x, &no.y);
    hold_misfit(CUT, no.number, netbuff_cut_misfit(&from, index, &group));
    hold_answer(CUT, netbuff_cut_group(&from, index, &group), no);
    count_empty(CUT, from.bw, from.bh, no.number);
    hold(CUT, group.bw == out_bw && group.bh == out_bh, "sides");
    hold(CUT, no.number != 0 || out_bw * out_bh == wanted, "netbuff_group_bw and netbuff_group_bh");
    hold_lent(CUT);
}

/* Blocks with finite filter strengths, some with one that is not finite. */
static struct netbuff_layout_output any_filtered(uint8_t *kinds, int32_t *hf_mul, float *sigma)
{
    static const float not_finite[3] = {INFINITY, -INFINITY, NAN};
    struct netbuff_layout_output layout = {any_blocks(kinds, hf_mul), NULL, 0, 77};
    for (size_t k = 0; k <= BLOCKS_MOST; k++)
        sigma[k] = (float)below(4) - 2;
    if (once_in(8))
        sigma[below(BLOCKS_MOST)] = not_finite[below(3)];
    layout.sigma = MAYBE(sigma);
    size_t length = layout.blocks.length;
    layout.sigma_length = length < BLOCKS_MOST ? length_near(length) : length;
    return layout;
}

static void try_alike(void)
{
    uint8_t kinds[2][BLOCKS_MOST + 1];
    int32_t hf_mul[2][BLOCKS_MOST + 1];
    float sigma[2][BLOCKS_MOST + 1];
    uint64_t kept = state;
    struct netbuff_layout_output one = any_filtered(kinds[0], hf_mul[0], sigma[0]);
    if (!once_in(3))
        state = kept;
    struct netbuff_layout_output two = any_filtered(kinds[1], hf_mul[1], sigma[1]);
    bool a = once_in(2), b = a;
    struct netbuff_refusal no = {0, 0, 0};
    no.number = netbuff_alike(
        one.blocks.bw, one.blocks.bh, LEND(const uint8_t, one.blocks.kinds, one.blocks.length),
        LEND(const int32_t, one.blocks.hf_mul, one.blocks.length),
        LEND(const float, one.sigma, one.sigma_length), two.blocks.bw, two.blocks.bh,
        LEND(const uint8_t, two.blocks.kinds, two.blocks.length),
        LEND(const int32_t, two.blocks.hf_mul, two.blocks.length),
        LEND(const float, two.sigma, two.sigma_length), &b, &no.x, &no.y);
    hold_answer(ALIKE, netbuff_layouts_alike(&one, &two, &a), no);
    count_empty(ALIKE, one.blocks.bw, one.blocks.bh, no.number);
    hold(ALIKE, a == b, "results");
    hold_misfit(ALIKE, no.number, netbuff_alike_misfit(&one, &two));
    likenesses[a] += no.number == 0;
}

/* Bits of the four lists of a context record, with some thresholds; the length of its map. */
static size_t write_thresholds(uint8_t *data, size_t bytes)
{
    static const uint32_t widths[2][4] = {{4, 8, 16, 32}, {2, 3, 5, 8}};
    size_t at = 1, map_length = 39;
    for (size_t k = 0; k < bytes; k++)
        data[k] = (uint8_t)below(256);
    data[0] &= 0xfe;
    for (int list = 0; list < 4; list++) {
        uint32_t length = below(3) * once_in(2);
        map_length *= length + 1;
        for (uint32_t bit = 0; bit < 4; bit++, at++)
            data[at / 8] =
                (uint8_t)((data[at / 8] & ~(1U << at % 8)) | (length >> bit & 1) << at % 8);
        for (; length > 0; length--) {
            uint32_t selector =
                (data[at / 8] >> at % 8 & 1U) | (data[(at + 1) / 8] >> (at + 1) % 8 & 1U) << 1;
            at += 2 + widths[list == 3][selector];
        }
    }
    return map_length;
}

static void try_contexts(void)
{
    uint8_t data[48], entries[LIST_MOST];
    size_t wanted = write_thresholds(data, sizeof data);
    data[0] |= once_in(5);
    for (size_t k = 0; k < LIST_MOST; k++)
        entries[k] = (uint8_t)below(once_in(900) ? 16 : 4);
    struct netbuff_bytes bytes = {MAYBE(data), once_in(3) ? below(sizeof data) : sizeof data};
    struct netbuff_context_map map = {below(18), MAYBE(entries), length_near(wanted)};
    if (map.length > LIST_MOST)
        map.length = LIST_MOST;
    fill_lent();
    struct netbuff_contexts *c = &base.contexts;
    struct netbuff_refusal no = {0, 0, 0};
    no.number = netbuff_block_context(
        LEND(const uint8_t, bytes.data, bytes.length), map.num_clusters,
        LEND(const uint8_t, map.data, map.length), &c->num_block_clusters, c->lengths,
        c->lf_thresholds, c->qf_thresholds, c->block_ctx_map, &base.first, &no.x, &no.y);
    hold_answer(CONTEXTS, netbuff_read_contexts(&bytes, &map, &layer.contexts, &layer.first), no);
    hold_lent(CONTEXTS);
    size_t map_length = 0, bits_read = 0;
    struct netbuff_refusal scanned = netbuff_scan_contexts(&bytes, &map_length, &bits_read);
    hold(CONTEXTS, (no.number == 3) == (scanned.number == 3), "ends of bits");
    hold(CONTEXTS, scanned.x == (no.number == 3 ? no.x : 0) && scanned.y == 0, "positions of 3");
    if (no.number == 0)
        hold(CONTEXTS, bits_read == layer.first && map_length <= LIST_MOST, "scanned bits");
    if (no.number == 0 && bits_read > 1)
        hold(CONTEXTS, map_length == map.length && ++threshold_records, "scanned lengths");
    if (no.number == 1)
        hold(CONTEXTS, map_length != (map.data ? map.length : 0), "scanned lengths of 1");
}

/* Two whole stores, so that they can be written and compared. */
static uint16_t stores[2][NETBUFF_STORE_LENGTH + 1];

static void try_orders(void)
{
    const uint8_t data[2] = {(uint8_t)(once_in(2) ? 2 : 3 + 4 * below(64)), (uint8_t)below(4)};
    uint32_t digits[40];
    for (size_t k = 0; k < 40; k++)
        digits[k] = below(once_in(20) ? 200 : 3);
    struct netbuff_bytes bytes = {MAYBE(data), once_in(9) ? below(2) : 2};
    struct netbuff_symbols symbols = {MAYBE(digits), once_in(3) ? below(41) : 40};
    struct netbuff_order_store store = {MAYBE(stores[0]), length_near(NETBUFF_STORE_LENGTH)};
    size_t a = 3, b = 3;
    struct netbuff_refusal no = {0, 0, 0};
    no.number = netbuff_orders(LEND(const uint8_t, bytes.data, bytes.length),
                               LEND(const uint32_t, symbols.data, symbols.length), stores[1],
                               store.data ? store.length : 0, &b, &no.x, &no.y);
    hold_answer(ORDERS, netbuff_read_orders(&bytes, &symbols, &store, &a), no);
    hold(ORDERS, a == b, "symbols read");
    hold(ORDERS, memcmp(stores[0], stores[1], sizeof stores[0]) == 0, "stores");
    size_t order = below(14), channel = below(4), first, count;
    netbuff_order(LEND(const uint16_t, store.data, store.length), order, channel, &first, &count);
    struct netbuff_order_list list = netbuff_find_order(&store, order, channel);
    hold(ORDERS, list.places * 2 == count && (count == 0 || list.data == stores[0] + first),
         "lists");
    hold(ORDERS,
         netbuff_store_fits(&store) ==
             netbuff_places_fit(LEND(const uint16_t, store.data, store.length)),
         "fits");
}

/*
 * The natural store, one with a place that is none, default contexts, and contexts with a threshold
 * in each list, for coefficients.
 */
static uint16_t natural[NETBUFF_STORE_LENGTH], spoilt[NETBUFF_STORE_LENGTH];
static struct netbuff_contexts usual, rich;

static void prepare(void)
{
    const uint8_t default_contexts = 1, no_order = 2;
    struct netbuff_bytes bytes = {&default_contexts, 1};
    struct netbuff_context_map no_map = {0, NULL, 0};
    struct netbuff_symbols none = {NULL, 0};
    struct netbuff_order_store store = {natural, NETBUFF_STORE_LENGTH};
    size_t read;
    hold(CONTEXTS, netbuff_read_contexts(&bytes, &no_map, &usual, &read).number == 0, "defaults");
    bytes.data = &no_order;
    hold(ORDERS, netbuff_read_orders(&bytes, &none, &store, &read).number == 0, "natural orders");
    memcpy(spoilt, natural, sizeof natural);
    spoilt[3] = 8;
    rich.num_block_clusters = 15;
    for (size_t list = 0; list < 4; list++)
        rich.lengths[list] = 1;
    rich.lf_thresholds[0] = rich.lf_thresholds[15] = rich.lf_thresholds[30] = 5;
    rich.qf_thresholds[0] = 9;
    for (size_t k = 0; k < 39 * 16; k++)
        rich.block_ctx_map[k] = (uint8_t)below(15);
}

static void try_coefficients(void)
{
    static uint8_t cluster_map[495 * 15 * 3 + 1];
    static struct netbuff_contexts unfit;
    uint8_t kinds[BLOCKS_MOST + 1];
    int32_t hf_mul[BLOCKS_MOST + 1], lf[3][BLOCKS_MOST + 1];
    uint32_t numbers[LIST_MOST];
    for (size_t k = 0; k < LIST_MOST; k++)
        numbers[k] = once_in(3) ? below(9) : 0;
    if (once_in(5))
        numbers[0] = below(once_in(2) ? 200 : 64); /* too large a count, or not used up, by times */
    for (size_t at = 0; at + 8 <= sizeof cluster_map; at += 8)
        memcpy(cluster_map + at, &(uint64_t){next()}, 8);
    for (size_t k = 0; k <= BLOCKS_MOST; k++)
        for (size_t channel = 0; channel < 3; channel++)
            lf[channel][k] = (int32_t)below(11);
    const uint8_t data[1] = {(uint8_t)below(4)};
    struct netbuff_coefficients_input in;
    memset(&in, 0, sizeof in);
    in.group = any_blocks(kinds, hf_mul);
    size_t blocks = in.group.bw * in.group.bh > BLOCKS_MOST ? 1 : in.group.bw * in.group.bh;
    in.contexts = once_in(20) ? (once_in(2) ? NULL : &unfit) : once_in(2) ? &usual : &rich;
    bool there = once_in(2);
    for (size_t c = 0; c < 3 && there; c++) {
        in.lf[c].data = MAYBE(lf[c]);
        in.lf[c].length = length_near(blocks);
    }
    in.orders.data = MAYBE(once_in(20) ? spoilt : natural);
    in.orders.length = once_in(30) ? 5 : NETBUFF_STORE_LENGTH;
    in.presets.count = once_in(30) ? 257 : below(4);
    in.presets.cluster_map = MAYBE(cluster_map);
    in.presets.cluster_map_length =
        length_near(netbuff_cluster_map_length(15, in.presets.count < 4 ? in.presets.count : 1));
    in.shift = below(once_in(5) ? 5 : 4);
    in.bytes.data = MAYBE(data);
    in.bytes.length = !once_in(9);
    in.symbols.data = MAYBE(numbers);
    in.symbols.length = below(LIST_MOST + 1);
    fill_lent();
    struct netbuff_coefficients_output out;
    memset(&out, 0, sizeof out);
    for (size_t c = 0; c < 3; c++) {
        out.grids[c].data = MAYBE(layer.grids[c]);
        out.grids[c].length = length_near(netbuff_grid_length(blocks));
    }
    out.log = MAYBE(layer.log);
    out.log_length = length_near(netbuff_log_length(blocks));
    out.symbols_read = 55;
    size_t read = 55;
    const struct netbuff_contexts *c = in.contexts ? in.contexts : &unfit;
    struct netbuff_refusal no = {0, 0, 0};
    no.number = netbuff_coefficients(
        in.group.bw, in.group.bh, LEND(const uint8_t, in.group.kinds, in.group.length),
        LEND(const int32_t, in.group.hf_mul, in.group.length), c->num_block_clusters, c->lengths,
        c->lf_thresholds, c->qf_thresholds, c->block_ctx_map, there,
        LEND(const int32_t, in.lf[0].data, in.lf[0].length),
        LEND(const int32_t, in.lf[1].data, in.lf[1].length),
        LEND(const int32_t, in.lf[2].data, in.lf[2].length),
        LEND(const uint16_t, in.orders.data, in.orders.length), in.presets.count,
        LEND(const uint8_t, in.presets.cluster_map, in.presets.cluster_map_length), in.shift,
        LEND(const uint8_t, in.bytes.data, in.bytes.length),
        LEND(const uint32_t, in.symbols.data, in.symbols.length), base.log,
        out.log ? out.log_length : 0, base.grids[0], out.grids[0].data ? out.grids[0].length : 0,
        base.grids[1], out.grids[1].data ? out.grids[1].length : 0, base.grids[2],
        out.grids[2].data ? out.grids[2].length : 0, &read, &no.x, &no.y);
    hold_answer(COEFFICIENTS, netbuff_read_coefficients(&in, &out), no);
    count_empty(COEFFICIENTS, in.group.bw, in.group.bh, no.number);
    hold(COEFFICIENTS, out.symbols_read == read, "symbols read");
    hold_misfit(COEFFICIENTS, no.number, netbuff_coefficients_misfit(&in, &out));
    hold_lent(COEFFICIENTS);
}

/* Mostly a situation, its sum often at the limit; else one of its numbers is another. */
static struct netbuff_situation any_situation(void)
{
    struct netbuff_situation situation = {1U << below(11), 0, 0, below(2)};
    uint32_t places = 63 * situation.blocks;
    situation.count = 1 + below(places);
    situation.place = places - situation.count;
    if (once_in(2))
        situation.place = below(situation.place + 1);
    uint32_t *const numbers[4] = {&situation.blocks, &situation.count, &situation.place,
                                  &situation.prev};
    if (once_in(4))
        *numbers[below(4)] = once_in(2) ? below(4) : (uint32_t)next();
    return situation;
}

static void try_coefficient_context(void)
{
    struct netbuff_situation situation = any_situation();
    uint32_t a = 999, b = a;
    struct netbuff_refusal no = {0, 0, 0};
    no.number = netbuff_coefficient_context(situation.blocks, situation.count, situation.place,
                                            situation.prev, &b, &no.x, &no.y);
    hold_answer(COEFFICIENT_CONTEXT, netbuff_situation_context(&situation, &a), no);
    hold(COEFFICIENT_CONTEXT, a == b, "results");
}

/* The numbers of one block's situations are those that the header says, and all occur. */
static void try_numbers(void)
{
    static const struct {
        uint32_t last, n;
    } by_count[] = {{0, 0}, {1, 31}, {3, 62}, {7, 93}, {11, 123}, {19, 152}, {31, 180}, {62, 206}};
    bool occurs[458] = {false};
    size_t row = 0, numbers = 0;
    for (uint32_t k = 0; k <= 62; k++) {
        row += k > by_count[row].last;
        for (uint32_t j = 0; k + j <= 62; j++)
            for (uint32_t prev = 0; prev < 2; prev++) {
                uint32_t f = j <= 14 ? j : j <= 30 ? (j + 15) / 2 : (j + 61) / 4;
                struct netbuff_situation situation = {1, k + 1, j, prev};
                uint32_t found = 999, due = 2 * (by_count[row].n + f) + prev;
                hold(COEFFICIENT_CONTEXT, netbuff_situation_context(&situation, &found).number == 0,
                     "situations");
                hold(COEFFICIENT_CONTEXT, found == due && due < 458, "numbers");
                numbers += !occurs[due];
                occurs[due] = true;
            }
    }
    hold(COEFFICIENT_CONTEXT, numbers == 458, "all numbers");
}

/* The names of transforms say their size, and the header the sizes of the orders. */
static void try_names(void)
{
    static const struct {
        uint32_t number;
        size_t high, wide;
    } sizes[NETBUFF_TRANSFORMS] = {
        {NETBUFF_DCT8, 8, 8},       {NETBUFF_HORNUSS, 8, 8},        {NETBUFF_DCT2, 8, 8},
        {NETBUFF_DCT4, 8, 8},       {NETBUFF_DCT16, 16, 16},        {NETBUFF_DCT32, 32, 32},
        {NETBUFF_DCT16X8, 16, 8},   {NETBUFF_DCT8X16, 8, 16},       {NETBUFF_DCT32X8, 32, 8},
        {NETBUFF_DCT8X32, 8, 32},   {NETBUFF_DCT32X16, 32, 16},     {NETBUFF_DCT16X32, 16, 32},
        {NETBUFF_DCT4X8, 8, 8},     {NETBUFF_DCT8X4, 8, 8},         {NETBUFF_AFV0, 8, 8},
        {NETBUFF_AFV1, 8, 8},       {NETBUFF_AFV2, 8, 8},           {NETBUFF_AFV3, 8, 8},
        {NETBUFF_DCT64, 64, 64},    {NETBUFF_DCT64X32, 64, 32},     {NETBUFF_DCT32X64, 32, 64},
        {NETBUFF_DCT128, 128, 128}, {NETBUFF_DCT128X64, 128, 64},   {NETBUFF_DCT64X128, 64, 128},
        {NETBUFF_DCT256, 256, 256}, {NETBUFF_DCT256X128, 256, 128}, {NETBUFF_DCT128X256, 128, 256}};
    static const size_t orders[NETBUFF_ORDERS][2] = {
        {8, 8},   {8, 8},   {16, 16},   {32, 32},  {16, 8},    {32, 8},   {32, 16},
        {64, 64}, {64, 32}, {128, 128}, {128, 64}, {256, 256}, {256, 128}};
    struct netbuff_order_store store = {natural, NETBUFF_STORE_LENGTH};
    for (uint32_t k = 0; k < NETBUFF_TRANSFORMS; k++) {
        struct netbuff_transform_info info;
        hold(FIND, sizes[k].number == k && netbuff_find_transform(k, &info).number == 0, "numbers");
        hold(FIND, 8 * info.wide == sizes[k].wide && 8 * info.high == sizes[k].high, "sizes");
    }
    for (size_t order = 0; order < NETBUFF_ORDERS; order++) {
        struct netbuff_order_list list = netbuff_find_order(&store, order, NETBUFF_CHANNEL_B);
        size_t wide = 0, high = 0;
        for (size_t k = 0; k < list.places; k++) {
            wide = list.data[2 * k] >= wide ? list.data[2 * k] + 1U : wide;
            high = list.data[2 * k + 1] >= high ? list.data[2 * k + 1] + 1U : high;
        }
        hold(ORDERS, list.places == orders[order][0] * orders[order][1], "places");
        hold(ORDERS, wide == orders[order][0] && high == orders[order][1], "sizes of orders");
    }
}

/* Each refusal has the text and the position of its row; numbers between rows have the texts of none. */
static void try_texts(void)
{
    static const struct {
        const char *text, *position;
    } rows[NETBUFF_REFUSALS_END] = {
#define ROW(name, number, text, position) [number] = {text, position},
        NETBUFF_REFUSALS(ROW)
#undef ROW
    };
    for (uint32_t number = 1; number < NETBUFF_REFUSALS_END; number++) {
        bool is_row = rows[number].text != NULL;
        const char *text = is_row ? rows[number].text : netbuff_refusal_text(UINT32_MAX);
        const char *position = is_row ? rows[number].position : netbuff_position_text(UINT32_MAX);
        hold(FIND, strcmp(netbuff_refusal_text(number), text) == 0, "texts");
        hold(FIND, strcmp(netbuff_position_text(number), position) == 0, "texts of positions");
    }
}

/* Structs of zeros alone: sides of 0 serve, all else that is missing is refused. */
static void try_zeros(void)
{
    static const struct netbuff_layout_input layout_input;
    static struct netbuff_layout_output layout_output;
    static const struct netbuff_coefficients_input input;
    static struct netbuff_coefficients_output output;
    static const struct netbuff_blocks blocks;
    static struct netbuff_blocks group;
    static const struct netbuff_bytes bytes;
    static const struct netbuff_lf_group lf_group;
    static const struct netbuff_context_map map;
    static const struct netbuff_symbols symbols;
    static struct netbuff_order_store store;
    static const struct netbuff_situation situation;
    struct netbuff_column_total total = {9, 9};
    struct netbuff_contexts contexts;
    size_t read;
    uint32_t context;
    bool alike = false;
    hold(LAYOUT, netbuff_read_layout(&layout_input, &layout_output).number == 11, "zeros");
    hold(COEFFICIENTS, netbuff_read_coefficients(&input, &output).number == 12, "zeros");
    hold(CUT, netbuff_cut_group(&blocks, 0, &group).number == 2, "zeros");
    hold(ALIKE, netbuff_layouts_alike(&layout_output, &layout_output, &alike).number == 0, "zeros");
    hold(ALIKE, alike, "zeros");
    hold(COUNT, netbuff_count_columns(&bytes, &lf_group, &total).number == 0, "zeros");
    hold(COUNT, total.count == 1 && total.bits_read == 0, "zeros");
    hold(CONTEXTS, netbuff_read_contexts(&bytes, &map, &contexts, &read).number == 3, "zeros");
    hold(ORDERS, netbuff_read_orders(&bytes, &symbols, &store, &read).number == 1, "zeros");
    hold(ORDERS, netbuff_find_order(&store, 0, 0).places == 0 && !netbuff_store_fits(&store),
         "zeros");
    hold(COEFFICIENT_CONTEXT, netbuff_situation_context(&situation, &context).number == 11, "zeros");
}

/* LF groups without blocks, their lists null: whatever the columns are, none is used. */
static void try_empty_layouts(void)
{
    static const struct {
        struct netbuff_lf_group group;
        size_t bw, bh;
        uint32_t number;
    } due[] = {{{0, 17, {0, 0, 0}}, 0, 3, 0},     {{17, 0, {0, 0, 0}}, 3, 0, 0},
               {{0, 0, {1, 2, 3}}, 0, 0, 0},      {{0, 8, {0, 1, 0}}, 0, 2, 0},
               {{8, 0, {0, 1, 0}}, 2, 0, 0},      {{0, 8, {2, 0, 0}}, 0, 1, 0},
               {{0, 2048, {0, 0, 3}}, 0, 256, 0}, {{0, 2049, {0, 0, 0}}, 9, 9, 2},
               {{2049, 0, {0, 0, 0}}, 9, 9, 2},   {{0, 17, {0, 0, 4}}, 9, 9, 11}};
    static const int32_t types[2] = {99, -1}, muls[2] = {-7, INT32_MAX};
    const struct netbuff_bytes none = {NULL, 0};
    for (size_t k = 0; k < sizeof due / sizeof due[0]; k++)
        for (size_t columns = 0; columns < 3; columns++) {
            const struct netbuff_lf_group *group = &due[k].group;
            uint32_t number = due[k].number;
            struct netbuff_column_total total = {9, 9};
            hold(COUNT, netbuff_count_columns(&none, group, &total).number == number, "empty");
            hold(COUNT, total.count == (number == 0 ? 1U : 9U), "counts of empty groups");
            hold(COUNT, total.bits_read == (number == 0 ? 0U : 9U), "bits of empty groups");
            struct netbuff_layout_input in = {
                *group, {types, muls, columns}, {NULL, 0}, NETBUFF_FILTER_OFF};
            struct netbuff_layout_output out = {{9, 9, NULL, NULL, 0}, NULL, 0, 9};
            hold(LAYOUT, netbuff_read_layout(&in, &out).number == number, "empty");
            hold(LAYOUT, out.columns_used == (number == 0 ? 0U : 9U), "columns of empty groups");
            hold(LAYOUT, out.blocks.bw == due[k].bw && out.blocks.bh == due[k].bh, "empty sides");
            hold(LAYOUT, number != 0 || netbuff_blocks_of(group) == 0, "blocks of empty groups");
        }
}

/* Layouts without blocks, their lists null; the last two have a side outside the limits. */
enum { EMPTY_FIT = 5, EMPTY_ALL = 7 };

static struct netbuff_layout_output empty_layout(size_t k)
{
    static const size_t sides[EMPTY_ALL][2] = {{0, 0},   {0, 3},   {5, 0},  {0, 256},
                                               {256, 0}, {0, 257}, {257, 0}};
    struct netbuff_layout_output layout = {{sides[k][0], sides[k][1], NULL, NULL, 0}, NULL, 0, 0};
    return layout;
}

/* No index is inside, and that comes before lengths. */
static void try_empty_cuts(void)
{
    uint8_t kind = 2;
    int32_t mul = 1;
    for (size_t k = 0; k < EMPTY_ALL; k++) {
        struct netbuff_blocks blocks = empty_layout(k).blocks, group = {5, 6, NULL, NULL, 0};
        hold(CUT, netbuff_group_count(blocks.bw, blocks.bh) == 0, "groups of empty layouts");
        for (size_t index = 0; index < 3; index++) {
            hold(CUT, netbuff_blocks_of_group(&blocks, index) == 0, "blocks of no groups");
            hold(CUT, netbuff_cut_group(&blocks, index, &group).number == 2, "empty");
        }
        blocks.kinds = &kind;
        blocks.hf_mul = &mul;
        blocks.length = 1;
        hold(CUT, netbuff_cut_group(&blocks, 0, &group).number == 2, "an index before lengths");
        hold(CUT, group.bw == 5 && group.bh == 6, "sides where an index is refused");
    }
}

/* Any two are alike, none is like a layout with a block, and numbers of sigma are looked at. */
static void try_empty_likeness(void)
{
    uint8_t kind = 2;
    int32_t mul = 1;
    float strength = 0, not_finite = NAN;
    const struct netbuff_layout_output block = {{1, 1, &kind, &mul, 1}, &strength, 1, 0};
    for (size_t k = 0; k < EMPTY_ALL; k++) {
        struct netbuff_layout_output one = empty_layout(k);
        bool fits = k < EMPTY_FIT, alike = true;
        uint32_t number = netbuff_layouts_alike(&one, &block, &alike).number;
        hold(ALIKE, number == (fits ? 0U : 2U) && alike == !fits, "an empty layout and a block");
        for (size_t j = 0; j < EMPTY_ALL; j++) {
            const struct netbuff_layout_output two = empty_layout(j);
            bool both = fits && j < EMPTY_FIT;
            alike = !both;
            number = netbuff_layouts_alike(&one, &two, &alike).number;
            hold(ALIKE, number == (both ? 0U : 2U) && alike, "empty layouts");
        }
        one.sigma_length = 1;
        one.sigma = &strength;
        number = netbuff_layouts_alike(&one, &block, &alike).number;
        hold(ALIKE, number == (fits ? 1U : 2U), "empty layouts with a number");
        one.sigma = &not_finite;
        number = netbuff_layouts_alike(&one, &block, &alike).number;
        hold(ALIKE, number == (fits ? 11U : 2U), "empty layouts with a NaN");
    }
}

/* Pass groups without blocks, their lists null: the preset is read and no symbol. */
static void try_empty_groups(void)
{
    static const uint8_t cluster_map[495 * 15 * 3], bits[1] = {3};
    static const uint32_t symbols[3] = {1, 3, 0};
    static const struct {
        size_t bw, bh;
        uint32_t presets, bytes, number;
        size_t x;
    } due[] = {{0, 0, 1, 0, 0, 0},  {0, 3, 1, 1, 0, 0},  {5, 0, 2, 1, 0, 0},   {0, 32, 1, 0, 0, 0},
               {32, 0, 1, 0, 0, 0}, {0, 3, 2, 0, 3, 0},  {5, 0, 3, 1, 14, 2},  {0, 3, 0, 0, 14, 0},
               {0, 33, 1, 0, 2, 0}, {33, 0, 1, 0, 2, 0}, {0, 3, 257, 0, 11, 0}};
    for (size_t k = 0; k < sizeof due / sizeof due[0]; k++) {
        uint32_t presets = due[k].presets;
        struct netbuff_coefficients_input in;
        memset(&in, 0, sizeof in);
        in.group.bw = due[k].bw;
        in.group.bh = due[k].bh;
        in.contexts = &usual;
        in.orders = (struct netbuff_order_store){natural, NETBUFF_STORE_LENGTH};
        in.presets = (struct netbuff_presets){
            presets, cluster_map, presets <= 3 ? netbuff_cluster_map_length(15, presets) : 0};
        in.bytes = (struct netbuff_bytes){bits, due[k].bytes};
        in.symbols = (struct netbuff_symbols){symbols, 3};
        for (size_t room = 0; room < 3; room++) {
            uint8_t log[2] = {77, 77};
            struct netbuff_coefficients_output out;
            memset(&out, 0, sizeof out);
            out.log = room == 0 ? NULL : log;
            out.log_length = room;
            out.symbols_read = 55;
            struct netbuff_refusal no = netbuff_read_coefficients(&in, &out);
            hold(COEFFICIENTS, no.number == due[k].number && no.x == due[k].x, "empty");
            hold(COEFFICIENTS, out.symbols_read == (no.number == 0 ? 0U : 55U), "symbols of none");
            hold(COEFFICIENTS, log[0] == 77 && log[1] == 77, "logs of empty groups");
        }
    }
}

/* A call, and numbers with which it has to have been answered. */
struct due {
    enum call call;
    uint8_t numbers[16];
    size_t count;
};

static void hold_counts(const struct due *due, size_t rows,
                        unsigned counts[CALLS][NETBUFF_REFUSALS_END], const char *where)
{
    for (size_t row = 0; row < rows; row++)
        for (size_t k = 0; k < due[row].count; k++)
            if (counts[due[row].call][due[row].numbers[k]] == 0) {
                fprintf(stderr, "structs: %s was never answered with %d%s\n", names[due[row].call],
                        due[row].numbers[k], where);
                exit(1);
            }
}

static void hold_all_counts(void)
{
    static const struct due due[] = {
        {FIND, {0, 5}, 2},
        {TAKE_BITS, {0, 3}, 2},
        {TAKE_U32, {0, 3}, 2},
        {COUNT, {0, 2, 3, 11}, 4},
        {LAYOUT, {0, 1, 2, 4, 5, 6, 8, 9, 10, 11}, 10},
        {CUT, {0, 1, 2, 18}, 4},
        {ALIKE, {0, 1, 2, 11, 18}, 5},
        {CONTEXTS, {0, 1, 3, 12}, 4},
        {ORDERS, {0, 1, 3, 13, 15}, 5},
        {COEFFICIENTS, {0, 1, 2, 3, 11, 12, 13, 14, 15, 16, 17, 18, 24}, 13},
        {COEFFICIENT_CONTEXT, {0, 11}, 2},
    };
    static const struct due of_empty[] = {
        {COUNT, {0, 2, 11}, 3},
        {LAYOUT, {0, 1, 2, 11}, 4},
        {CUT, {2}, 1},
        {ALIKE, {0, 1, 2, 11}, 4},
        {COEFFICIENTS, {0, 1, 3, 11, 12, 13, 14}, 7},
    };
    hold_counts(due, sizeof due / sizeof due[0], answers, "");
    hold_counts(of_empty, sizeof of_empty / sizeof of_empty[0], empty, ", its group being empty");
}

int main(void)
{
    prepare();
    try_zeros();
    try_empty_layouts();
    try_empty_cuts();
    try_empty_likeness();
    try_empty_groups();
    try_names();
    try_numbers();
    try_texts();
    for (unsigned round = 0; round < ROUNDS; round++) {
        try_transform();
        try_bits();
        try_column_count();
        try_layout();
        try_cut();
        try_alike();
        try_contexts();
        try_coefficients();
        try_coefficient_context();
        if (round % 20 == 0)
            try_orders();
    }
    hold_all_counts();
    hold(ALIKE, likenesses[0] > 100 && likenesses[1] > 100, "too few of yes or no: they");
    hold(CONTEXTS, threshold_records > 100, "too few accepted records with thresholds: they");
    unsigned accepted = 0, all = 0;
    for (int call = 0; call < CALLS; call++)
        for (uint32_t number = 0; number < NETBUFF_REFUSALS_END; number++) {
            all += answers[call][number];
            accepted += number == 0 ? answers[call][number] : 0;
        }
    printf("structs: %u calls the same by structs and by arguments, %u accepted, %u null lists\n",
           all, accepted, nulls);
    return 0;
}
