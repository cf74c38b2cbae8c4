/*
 * Netbuff over structs: the calls of netbuff.h, their arguments by name.
 *
 * Each function hands its structs' fields to the call of netbuff.h that it names, and hands back
 * what that call answers: what is refused, written and left is said there. Nothing is allocated and
 * nothing is copied but results.
 *
 * Structs may be zero-initialised. In any of them a null pointer is a list of no elements, whatever
 * its length says. So a list that was forgotten is refused, most often with NETBUFF_REFUSED_LENGTH.
 * Sides that were forgotten are 0, those of an empty group or layout, which is no reason to refuse;
 * its lists may be null. Pointers to structs must not be null.
 *
 *     struct netbuff_refusal no = netbuff_read_layout(&input, &output);
 *     if (no.number != NETBUFF_ACCEPTED)
 *         fprintf(stderr, "%s (%s: %zu, %zu)\n", netbuff_refusal_text(no.number),
 *                 netbuff_position_text(no.number), no.x, no.y);
 *     if (no.number == NETBUFF_REFUSED_LENGTH)
 *         fprintf(stderr, "that of %s\n", netbuff_layout_misfit(&input, &output));
 */
#ifndef NETBUFF_STRUCTS_H
#define NETBUFF_STRUCTS_H

#include "netbuff.h"

#ifdef __cplusplus
extern "C" {
#endif

/* ---- Refusals and lists ---- */

/* A refusal and its position; number 0 (NETBUFF_ACCEPTED) where there is none. */
struct netbuff_refusal {
    uint32_t number;
    size_t x, y;
};

/* Bytes whose bits are read, from bit 0 on. */
struct netbuff_bytes {
    const uint8_t *data;
    size_t length;
};

/* Decoded symbols. */
struct netbuff_symbols {
    const uint32_t *data;
    size_t length;
};

/* ---- Transforms and bits: netbuff_transform, netbuff_read_bits, netbuff_read_u32 ---- */

struct netbuff_transform_info {
    size_t wide, high; /* in blocks */
    size_t order;
    bool turn;
};

/* The bit with number 8 * byte + bit. */
struct netbuff_bit_place {
    size_t byte;
    uint32_t bit;
};

/* One choice of a U32; a constant has no bits. */
struct netbuff_u32_choice {
    uint32_t offset, bits;
};

/* ---- Layout: netbuff_column_count, netbuff_layout, netbuff_cut, netbuff_alike ---- */

/* An LF group: its sides in pixels and the upsampling modes of the three channels. */
struct netbuff_lf_group {
    uint32_t width, height;
    uint32_t modes[3];
};

struct netbuff_column_total {
    uint32_t count;
    size_t bits_read;
};

/* Columns: the type and the mul of each. */
struct netbuff_columns {
    const int32_t *types;
    const int32_t *muls;
    size_t length; /* of each list */
};

/* The filter; its look-up numbers and scale are checked even where it is off. */
struct netbuff_filter {
    bool on;
    float multiplier;
    float lookup[8];
    uint32_t scale; /* 1 to 73,728 */
};

/* A filter that is off, to initialise one: struct netbuff_filter filter = NETBUFF_FILTER_OFF; */
#define NETBUFF_FILTER_OFF                                                                         \
    {                                                                                              \
        false, 0, {0, 0, 0, 0, 0, 0, 0, 0}, 1                                                      \
    }

/* A sharpness number for each block, row by row. */
struct netbuff_sharpness {
    const int32_t *data;
    size_t length;
};

/* The varblocks of a layout or of a pass group: kind and hf_mul of bw x bh blocks, row by row. */
struct netbuff_blocks {
    size_t bw, bh;
    uint8_t *kinds;
    int32_t *hf_mul;
    size_t length; /* of each list: bw * bh */
};

struct netbuff_layout_input {
    struct netbuff_lf_group group;
    struct netbuff_columns columns;
    struct netbuff_sharpness sharpness;
    struct netbuff_filter filter;
};

/* blocks.length and sigma_length are netbuff_blocks_of(&input.group). */
struct netbuff_layout_output {
    struct netbuff_blocks blocks; /* bw and bh are set where the call accepts */
    float *sigma;
    size_t sigma_length;
    size_t columns_used;
};

/* ---- Contexts: netbuff_block_context ---- */

/* The decoded context map; zero-initialised for default contexts. */
struct netbuff_context_map {
    uint32_t num_clusters;
    const uint8_t *data;
    size_t length;
};

struct netbuff_contexts {
    uint32_t num_block_clusters;
    uint32_t lengths[4]; /* LF lists of channels 0, 1, 2, then the qf list */
    int32_t lf_thresholds[NETBUFF_LF_THRESHOLDS];
    uint32_t qf_thresholds[NETBUFF_THRESHOLDS];
    uint8_t block_ctx_map[NETBUFF_BLOCK_CTX_MAP];
};

/* ---- Orders: netbuff_orders, netbuff_order, netbuff_places_fit ---- */

/* A store of the 39 lists of a pass: 13 orders, three channels each. */
struct netbuff_order_store {
    uint16_t *data;
    size_t length; /* NETBUFF_STORE_LENGTH */
};

/* One list of a store: x and y of each place. Null and 0 where there is no such list. */
struct netbuff_order_list {
    const uint16_t *data;
    size_t places; /* half as many as numbers */
};

/* ---- Coefficients: netbuff_coefficients, netbuff_coefficient_context ---- */

/* The LF coefficients of a channel, one for each block. */
struct netbuff_lf_grid {
    const int32_t *data;
    size_t length; /* bw * bh */
};

/* The presets of a pass and their cluster map. */
struct netbuff_presets {
    uint32_t count;
    const uint8_t *cluster_map;
    size_t cluster_map_length; /* netbuff_cluster_map_length */
};

/* The coefficients of a channel; cell (x, y) is data[y * 8 * bw + x]. */
struct netbuff_grid {
    int32_t *data;
    size_t length; /* netbuff_grid_length */
};

struct netbuff_coefficients_input {
    struct netbuff_blocks group;
    const struct netbuff_contexts *contexts; /* null: an unfit record */
    struct netbuff_lf_grid lf[3];            /* all three zero: no LF grids */
    struct netbuff_order_store orders;
    struct netbuff_presets presets;
    uint32_t shift;
    struct netbuff_bytes bytes; /* the preset number */
    struct netbuff_symbols symbols;
};

struct netbuff_coefficients_output {
    struct netbuff_grid grids[3]; /* of channels 0, 1, 2; coefficients are added */
    uint8_t *log;                 /* the cluster of each symbol */
    size_t log_length;            /* at least netbuff_log_length */
    size_t symbols_read;
};

/* What the context number of a coefficient goes by; count + place is at most 63 * blocks. */
struct netbuff_situation {
    uint32_t blocks; /* of the varblock: a power of two up to 1,024 */
    uint32_t count;  /* coefficients that are not 0 still due, this place's included */
    uint32_t place;  /* from 0, behind the low-frequency ones */
    uint32_t prev;   /* 1 where the symbol before was not 0, else 0; at the first place of a
                        reading 1 where the count is at most 4 * blocks, else 0 */
};

/* ---- Lengths ---- */

/* The blocks of an LF group: the length of its sharpness, kinds, hf_mul and sigma. */
static inline size_t netbuff_blocks_of(const struct netbuff_lf_group *group)
{
    return netbuff_lf_blocks(group->width, group->height, group->modes[0], group->modes[1],
                             group->modes[2]);
}

/* The blocks of the pass group with this index: the length of the lists that it is cut into. */
static inline size_t netbuff_blocks_of_group(const struct netbuff_blocks *layout, size_t index)
{
    return netbuff_group_blocks(layout->bw, layout->bh, index);
}

/* Whether a varblock has its corner at this block of a layout, and its transform. */
static inline bool netbuff_is_corner(const struct netbuff_blocks *blocks, size_t block)
{
    return blocks->kinds[block] >= NETBUFF_KIND_CORNER;
}

static inline uint32_t netbuff_type_at(const struct netbuff_blocks *blocks, size_t block)
{
    return (uint32_t)blocks->kinds[block] - NETBUFF_KIND_CORNER;
}

/* ---- How a list is handed on ---- */

/* Something to point at for lists of no elements. It is neither read nor written. */
static inline void *netbuff_nothing(void)
{
    static uint64_t nothing;
    return &nothing;
}

#define NETBUFF_LIST_OF(name, type)                                                                \
    static inline type *netbuff_list_##name(type *list)                                            \
    {                                                                                              \
        return list != NULL ? list : (type *)netbuff_nothing();                                    \
    }
NETBUFF_LIST_OF(read_u8, const uint8_t)
NETBUFF_LIST_OF(read_u16, const uint16_t)
NETBUFF_LIST_OF(read_u32, const uint32_t)
NETBUFF_LIST_OF(read_i32, const int32_t)
NETBUFF_LIST_OF(read_f32, const float)
NETBUFF_LIST_OF(u8, uint8_t)
NETBUFF_LIST_OF(u16, uint16_t)
NETBUFF_LIST_OF(i32, int32_t)
NETBUFF_LIST_OF(f32, float)
#undef NETBUFF_LIST_OF

static inline size_t netbuff_list_length(const void *list, size_t length)
{
    return list != NULL ? length : 0;
}

/* A list as two arguments of a call. */
#define NETBUFF_LEND(name, list, length)                                                           \
    netbuff_list_##name(list), netbuff_list_length(list, length)

/* ---- The calls ---- */

static inline struct netbuff_refusal netbuff_find_transform(uint32_t number,
                                                            struct netbuff_transform_info *info)
{
    struct netbuff_refusal no = {0, 0, 0};
    no.number = netbuff_transform(number, &info->wide, &info->high, &info->order, &info->turn,
                                  &no.x, &no.y);
    return no;
}

/* Reads n bits from a place on, which moves behind them. The position of 3 is 0, 0. */
static inline struct netbuff_refusal netbuff_take_bits(const struct netbuff_bytes *bytes,
                                                       struct netbuff_bit_place *place, uint32_t n,
                                                       uint32_t *value)
{
    struct netbuff_refusal no = {0, 0, 0};
    uint32_t taken = 0;
    no.number = netbuff_read_bits(NETBUFF_LEND(read_u8, bytes->data, bytes->length), place->byte,
                                  place->bit, n, value, &place->byte, &place->bit, &taken);
    no.x = taken;
    return no;
}

/* Reads a U32 from a place on, which moves behind it. The position of 3 is the bits taken, 0. */
static inline struct netbuff_refusal netbuff_take_u32(const struct netbuff_bytes *bytes,
                                                      struct netbuff_bit_place *place,
                                                      const struct netbuff_u32_choice choices[4],
                                                      uint32_t *value)
{
    struct netbuff_refusal no = {0, 0, 0};
    uint32_t taken = 0;
    const uint32_t flat[8] = {choices[0].offset, choices[0].bits,   choices[1].offset,
                              choices[1].bits,   choices[2].offset, choices[2].bits,
                              choices[3].offset, choices[3].bits};
    no.number = netbuff_read_u32(NETBUFF_LEND(read_u8, bytes->data, bytes->length), place->byte,
                                 place->bit, flat, value, &place->byte, &place->bit, &taken);
    no.x = taken;
    return no;
}

static inline struct netbuff_refusal netbuff_count_columns(const struct netbuff_bytes *bytes,
                                                           const struct netbuff_lf_group *group,
                                                           struct netbuff_column_total *total)
{
    struct netbuff_refusal no = {0, 0, 0};
    no.number =
        netbuff_column_count(NETBUFF_LEND(read_u8, bytes->data, bytes->length), group->width,
                             group->height, group->modes[0], group->modes[1], group->modes[2],
                             &total->count, &total->bits_read, &no.x, &no.y);
    return no;
}

static inline struct netbuff_refusal netbuff_read_layout(const struct netbuff_layout_input *input,
                                                         struct netbuff_layout_output *output)
{
    struct netbuff_refusal no = {0, 0, 0};
    const struct netbuff_lf_group *group = &input->group;
    const struct netbuff_columns *columns = &input->columns;
    const struct netbuff_filter *filter = &input->filter;
    struct netbuff_blocks *blocks = &output->blocks;
    no.number =
        netbuff_layout(group->width, group->height, group->modes[0], group->modes[1],
                       group->modes[2], NETBUFF_LEND(read_i32, columns->types, columns->length),
                       NETBUFF_LEND(read_i32, columns->muls, columns->length),
                       NETBUFF_LEND(read_i32, input->sharpness.data, input->sharpness.length),
                       filter->on, filter->multiplier, filter->lookup, filter->scale,
                       NETBUFF_LEND(u8, blocks->kinds, blocks->length),
                       NETBUFF_LEND(i32, blocks->hf_mul, blocks->length),
                       NETBUFF_LEND(f32, output->sigma, output->sigma_length),
                       &output->columns_used, &no.x, &no.y);
    if (no.number == NETBUFF_ACCEPTED) {
        blocks->bw = netbuff_lf_bw(group->width, group->modes[0], group->modes[1], group->modes[2]);
        blocks->bh =
            netbuff_lf_bh(group->height, group->modes[0], group->modes[1], group->modes[2]);
    }
    return no;
}

/* Cuts a pass group, whose bw and bh are set. group->length is netbuff_blocks_of_group before. */
static inline struct netbuff_refusal netbuff_cut_group(const struct netbuff_blocks *layout,
                                                       size_t index, struct netbuff_blocks *group)
{
    struct netbuff_refusal no = {0, 0, 0};
    no.number = netbuff_cut(
        layout->bw, layout->bh, NETBUFF_LEND(read_u8, layout->kinds, layout->length),
        NETBUFF_LEND(read_i32, layout->hf_mul, layout->length), index,
        NETBUFF_LEND(u8, group->kinds, group->length),
        NETBUFF_LEND(i32, group->hf_mul, group->length), &group->bw, &group->bh, &no.x, &no.y);
    return no;
}

/* Of two layouts, each with its sigma as netbuff_read_layout fills it. */
static inline struct netbuff_refusal
netbuff_layouts_alike(const struct netbuff_layout_output *first,
                      const struct netbuff_layout_output *second, bool *alike)
{
    struct netbuff_refusal no = {0, 0, 0};
    const struct netbuff_blocks *one = &first->blocks, *two = &second->blocks;
    no.number = netbuff_alike(one->bw, one->bh, NETBUFF_LEND(read_u8, one->kinds, one->length),
                              NETBUFF_LEND(read_i32, one->hf_mul, one->length),
                              NETBUFF_LEND(read_f32, first->sigma, first->sigma_length), two->bw,
                              two->bh, NETBUFF_LEND(read_u8, two->kinds, two->length),
                              NETBUFF_LEND(read_i32, two->hf_mul, two->length),
                              NETBUFF_LEND(read_f32, second->sigma, second->sigma_length), alike,
                              &no.x, &no.y);
    return no;
}

/*
 * How long the map is that netbuff_read_contexts has to be lent, and how many bits come before its
 * own: reads past the lists of thresholds. The length is 0 for default contexts. Refused: 3, with
 * the bits read.
 */
static inline struct netbuff_refusal netbuff_scan_contexts(const struct netbuff_bytes *bytes,
                                                           size_t *map_length, size_t *bits_read)
{
    static const struct netbuff_u32_choice choices[2][4] = {
        {{0, 4}, {16, 8}, {272, 16}, {65808, 32}}, {{0, 2}, {4, 3}, {12, 5}, {44, 8}}};
    struct netbuff_bit_place place = {0, 0};
    uint32_t first, value, lengths[4] = {0, 0, 0, 0};
    struct netbuff_refusal no = netbuff_take_bits(bytes, &place, 1, &first);
    for (int list = 0; list < 4 && no.number == 0 && first == 0; list++) {
        no = netbuff_take_bits(bytes, &place, 4, &lengths[list]);
        for (uint32_t k = 0; k < lengths[list] && no.number == 0; k++)
            no = netbuff_take_u32(bytes, &place, choices[list == 3], &value);
    }
    no.x += no.number == 0 ? 0 : 8 * place.byte + place.bit;
    if (no.number != 0)
        return no;
    *map_length =
        first == 1 ? 0 : netbuff_context_map_length(lengths[0], lengths[1], lengths[2], lengths[3]);
    *bits_read = 8 * place.byte + place.bit;
    return no;
}

static inline struct netbuff_refusal netbuff_read_contexts(const struct netbuff_bytes *bytes,
                                                           const struct netbuff_context_map *map,
                                                           struct netbuff_contexts *contexts,
                                                           size_t *bits_read)
{
    struct netbuff_refusal no = {0, 0, 0};
    no.number = netbuff_block_context(
        NETBUFF_LEND(read_u8, bytes->data, bytes->length), map->num_clusters,
        NETBUFF_LEND(read_u8, map->data, map->length), &contexts->num_block_clusters,
        contexts->lengths, contexts->lf_thresholds, contexts->qf_thresholds,
        contexts->block_ctx_map, bits_read, &no.x, &no.y);
    return no;
}

static inline struct netbuff_refusal netbuff_read_orders(const struct netbuff_bytes *bytes,
                                                         const struct netbuff_symbols *symbols,
                                                         struct netbuff_order_store *store,
                                                         size_t *symbols_read)
{
    struct netbuff_refusal no = {0, 0, 0};
    no.number =
        netbuff_orders(NETBUFF_LEND(read_u8, bytes->data, bytes->length),
                       NETBUFF_LEND(read_u32, symbols->data, symbols->length),
                       NETBUFF_LEND(u16, store->data, store->length), symbols_read, &no.x, &no.y);
    return no;
}

static inline struct netbuff_order_list netbuff_find_order(const struct netbuff_order_store *store,
                                                           size_t order, size_t channel)
{
    struct netbuff_order_list list = {NULL, 0};
    size_t first = 0, count = 0;
    netbuff_order(NETBUFF_LEND(read_u16, store->data, store->length), order, channel, &first,
                  &count);
    if (count > 0) {
        list.data = store->data + first;
        list.places = count / 2;
    }
    return list;
}

static inline bool netbuff_store_fits(const struct netbuff_order_store *store)
{
    return netbuff_places_fit(NETBUFF_LEND(read_u16, store->data, store->length));
}

/* Whether any of three LF grids is there; then all three have to be. */
static inline bool netbuff_lf_there(const struct netbuff_lf_grid lf[3])
{
    return lf[0].data != NULL || lf[1].data != NULL || lf[2].data != NULL || lf[0].length != 0 ||
           lf[1].length != 0 || lf[2].length != 0;
}

static inline struct netbuff_refusal
netbuff_read_coefficients(const struct netbuff_coefficients_input *input,
                          struct netbuff_coefficients_output *output)
{
    static const struct netbuff_contexts unfit = {0, {0}, {0}, {0}, {0}};
    struct netbuff_refusal no = {0, 0, 0};
    const struct netbuff_blocks *group = &input->group;
    const struct netbuff_contexts *contexts = input->contexts != NULL ? input->contexts : &unfit;
    const struct netbuff_presets *presets = &input->presets;
    const struct netbuff_lf_grid *lf = input->lf;
    struct netbuff_grid *grids = output->grids;
    no.number = netbuff_coefficients(
        group->bw, group->bh, NETBUFF_LEND(read_u8, group->kinds, group->length),
        NETBUFF_LEND(read_i32, group->hf_mul, group->length), contexts->num_block_clusters,
        contexts->lengths, contexts->lf_thresholds, contexts->qf_thresholds,
        contexts->block_ctx_map, netbuff_lf_there(lf),
        NETBUFF_LEND(read_i32, lf[0].data, lf[0].length),
        NETBUFF_LEND(read_i32, lf[1].data, lf[1].length),
        NETBUFF_LEND(read_i32, lf[2].data, lf[2].length),
        NETBUFF_LEND(read_u16, input->orders.data, input->orders.length), presets->count,
        NETBUFF_LEND(read_u8, presets->cluster_map, presets->cluster_map_length), input->shift,
        NETBUFF_LEND(read_u8, input->bytes.data, input->bytes.length),
        NETBUFF_LEND(read_u32, input->symbols.data, input->symbols.length),
        NETBUFF_LEND(u8, output->log, output->log_length),
        NETBUFF_LEND(i32, grids[0].data, grids[0].length),
        NETBUFF_LEND(i32, grids[1].data, grids[1].length),
        NETBUFF_LEND(i32, grids[2].data, grids[2].length), &output->symbols_read, &no.x, &no.y);
    return no;
}

static inline struct netbuff_refusal
netbuff_situation_context(const struct netbuff_situation *situation, uint32_t *context)
{
    struct netbuff_refusal no = {0, 0, 0};
    no.number = netbuff_coefficient_context(situation->blocks, situation->count, situation->place,
                                            situation->prev, context, &no.x, &no.y);
    return no;
}

#undef NETBUFF_LEND

/* ---- Which length does not fit ---- */

/*
 * For messages where a call is refused with NETBUFF_REFUSED_LENGTH: the first of its lists whose
 * length does not fit, by its field. Null where all fit.
 */
static inline const char *netbuff_layout_misfit(const struct netbuff_layout_input *input,
                                                const struct netbuff_layout_output *output)
{
    const struct netbuff_columns *columns = &input->columns;
    const struct netbuff_blocks *filled = &output->blocks;
    size_t blocks = netbuff_blocks_of(&input->group);
    if (netbuff_list_length(columns->types, columns->length) !=
        netbuff_list_length(columns->muls, columns->length))
        return "columns.types or columns.muls";
    if (netbuff_list_length(input->sharpness.data, input->sharpness.length) != blocks)
        return "sharpness";
    if (netbuff_list_length(filled->kinds, filled->length) != blocks)
        return "blocks.kinds";
    if (netbuff_list_length(filled->hf_mul, filled->length) != blocks)
        return "blocks.hf_mul";
    return netbuff_list_length(output->sigma, output->sigma_length) != blocks ? "sigma" : NULL;
}

static inline const char *netbuff_cut_misfit(const struct netbuff_blocks *layout, size_t index,
                                             const struct netbuff_blocks *group)
{
    size_t whole = layout->bw * layout->bh, blocks = netbuff_blocks_of_group(layout, index);
    if (netbuff_list_length(layout->kinds, layout->length) != whole)
        return "kinds of the layout";
    if (netbuff_list_length(layout->hf_mul, layout->length) != whole)
        return "hf_mul of the layout";
    if (netbuff_list_length(group->kinds, group->length) != blocks)
        return "kinds of the group";
    return netbuff_list_length(group->hf_mul, group->length) != blocks ? "hf_mul of the group"
                                                                       : NULL;
}

static inline const char *netbuff_alike_misfit(const struct netbuff_layout_output *first,
                                               const struct netbuff_layout_output *second)
{
    static const char *const names[2][3] = {
        {"kinds of the first layout", "hf_mul of the first layout", "sigma of the first layout"},
        {"kinds of the second layout", "hf_mul of the second layout",
         "sigma of the second layout"}};
    for (int k = 0; k < 2; k++) {
        const struct netbuff_layout_output *layout = k == 0 ? first : second;
        const struct netbuff_blocks *blocks = &layout->blocks;
        size_t whole = blocks->bw * blocks->bh;
        if (netbuff_list_length(blocks->kinds, blocks->length) != whole)
            return names[k][0];
        if (netbuff_list_length(blocks->hf_mul, blocks->length) != whole)
            return names[k][1];
        if (netbuff_list_length(layout->sigma, layout->sigma_length) != whole)
            return names[k][2];
    }
    return NULL;
}

static inline const char *
netbuff_coefficients_misfit(const struct netbuff_coefficients_input *input,
                            const struct netbuff_coefficients_output *output)
{
    static const char *const lf[3] = {"lf[0]", "lf[1]", "lf[2]"};
    static const char *const grids[3] = {"grids[0]", "grids[1]", "grids[2]"};
    const struct netbuff_blocks *group = &input->group;
    const struct netbuff_presets *presets = &input->presets;
    size_t blocks = group->bw * group->bh;
    uint32_t clusters = input->contexts != NULL ? input->contexts->num_block_clusters : 0;
    if (netbuff_list_length(group->kinds, group->length) != blocks)
        return "group.kinds";
    if (netbuff_list_length(group->hf_mul, group->length) != blocks)
        return "group.hf_mul";
    for (int c = 0; c < 3 && netbuff_lf_there(input->lf); c++)
        if (netbuff_list_length(input->lf[c].data, input->lf[c].length) != blocks)
            return lf[c];
    if (netbuff_list_length(input->orders.data, input->orders.length) != NETBUFF_STORE_LENGTH)
        return "orders";
    if (netbuff_list_length(presets->cluster_map, presets->cluster_map_length) !=
        netbuff_cluster_map_length(clusters, presets->count))
        return "presets.cluster_map";
    for (int c = 0; c < 3; c++)
        if (netbuff_list_length(output->grids[c].data, output->grids[c].length) !=
            netbuff_grid_length(blocks))
            return grids[c];
    if (netbuff_list_length(output->log, output->log_length) < netbuff_log_length(blocks))
        return "log";
    return NULL;
}

#ifdef __cplusplus
}
#endif

#endif
