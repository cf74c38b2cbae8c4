/*
 * Netbuff: the varblock part of JPEG XL, from the columns of a scan to its coefficients.
 *
 * The path of a frame, call by call:
 *
 *    netbuff_column_count    the bits before the columns: how many columns there are
 *    netbuff_layout          the columns of an LF group: its varblocks and filter strengths
 *    netbuff_cut             one pass group of that layout, at most 32 x 32 blocks
 *    netbuff_block_context   the block contexts of the frame
 *    netbuff_orders          the coefficient orders of a pass
 *    netbuff_coefficients    the symbols of a pass group: its coefficients
 *
 * Entropy decoding is the caller's: columns, maps and symbols are lent decoded. Netbuff
 * reads bits only where a call has bytes, and each call reads from bit 0 of its bytes on, the
 * lowest bit of a byte first. Lend it the bytes from where its part begins, shifted if that is
 * within a byte. Only netbuff_read_bits and netbuff_read_u32 are told where to begin.
 *
 * netbuff_structs.h has these calls over structs with named fields. It is easier to use.
 *
 * ANSWERS. A call that can be refused returns the number of the refusal, or 0: accepted. On a
 * refusal *x and *y receive its position, on 0 they receive 0, 0. (netbuff_read_bits and
 * netbuff_read_u32 have *taken instead.) Results go out through pointers when the call accepted. A
 * refusal leaves them as they were, and all other lent memory too, unless the call says otherwise.
 * Refusals are tried in the order that stands behind "Refused:"; while columns or symbols are read,
 * the first that is met is given.
 *
 * LISTS. A list is a pointer and the number of its elements. Every length is allowed: one that does
 * not fit is refused. A length fits when it is the one that the call names ("Lengths that fit"), or
 * at least that where it says so; each has a function or a constant below. Bytes, columns and
 * symbols may have any length. A list of no elements may have any pointer that is aligned and not
 * null; netbuff_structs.h takes null for one too.
 *
 * WHAT THE CALLER SEES TO. Every pointer is valid, not null and aligned for its type, that of a
 * list for all its elements. What a call writes overlaps nothing else that is lent to it. What it
 * only reads may overlap. A bool is 0 or 1. Filter strengths are computed in the floating-point
 * environment that a C program starts with: rounding to nearest, nothing flushed to zero.
 *
 * WORDS. A block is 8 x 8 pixels. An LF group is a part of a frame, at most 2,048 pixels each way;
 * a pass group is a part of an LF group, at most 32 blocks each way. A group or layout is empty
 * where its width or height is 0: it has no blocks, and each call says what it then does. A
 * varblock is a rectangle of blocks with one transform; its corner is its first block, at the upper
 * left. A column is what a scan sends for a varblock: the number of its transform (type) and a mul;
 * hf_mul is mul + 1. A symbol is a number as an entropy decoder gives it. The context map, decoded
 * from the file, gives a varblock and a channel one of a few block contexts (num_block_clusters of
 * them). The cluster map, decoded too, gives each context of a count or coefficient its cluster,
 * the distribution by which its symbols are coded; it has a part for each preset, of which a pass
 * group names one. An order (0 to 12, by the size of a varblock) has a list for each channel: the
 * places within the varblock to which coefficients go, one after the other. Packed signed: see
 * netbuff_unpack_signed.
 *
 * BLOCKS AND CELLS. Lists with one element for each block are row by row: block (x, y) of a grid bw
 * blocks wide stands at y * bw + x. A cell is one entry of a coefficient grid, 8 x 8 of them for
 * each block. A coefficient grid of bw x bh blocks has rows of 8 * bw cells: cell (x, y) stands at
 * y * 8 * bw + x.
 *
 * THREADS. A call keeps nothing. The library has no data that is written. Any number of calls may
 * run at the same time, if none writes what another one uses. No call allocates, locks, does input
 * or output or sets errno. Of the C library memcpy and memset are used.
 *
 * STACK. A call needs less than 16 KiB of stack (NETBUFF_STACK_BYTES). Measured: 13 KiB for
 * netbuff_coefficients, less than 2 KiB for each other call (tests/c/stack.c).
 *
 * PLATFORMS. The library is machine code for Linux on x86-64 (System V calling convention, no
 * instructions beyond SSE2), position independent.
 */
#ifndef NETBUFF_H
#define NETBUFF_H

#include <stdbool.h>
#include <stddef.h>
#include <stdint.h>

#if SIZE_MAX != 0xffffffffffffffff
#error "Netbuff is a library for 64-bit programs"
#endif

#ifdef __cplusplus
extern "C" {
#endif

/* ---- Version ---- */

/* The version of this header. */
#define NETBUFF_VERSION_MAJOR 0
#define NETBUFF_VERSION_MINOR 5
#define NETBUFF_VERSION_PATCH 0

/* A version as one number. */
#define NETBUFF_VERSION_NUMBER(major, minor, patch) ((major)*1000000 + (minor)*1000 + (patch))
#define NETBUFF_VERSION                                                                            \
    NETBUFF_VERSION_NUMBER(NETBUFF_VERSION_MAJOR, NETBUFF_VERSION_MINOR, NETBUFF_VERSION_PATCH)

/*
 * The version of the library that is linked, to be held against NETBUFF_VERSION. Below 1.0.0 two
 * versions fit only if major and minor are equal.
 */
uint32_t netbuff_version(void);

/* ---- Refusals ---- */

/*
 * All refusals: name, number, text, position. A position is 0, 0; or x, y of the free block whose
 * varblock was being placed; or what was read until then, and 0. A refused symbol counts as read.
 * Number 13 has the position 0, 0 where a stored place is outside its order. Numbers 19 to 23
 * are no refusals of this version. No number changes its meaning.
 */
#define NETBUFF_REFUSALS(refusal)                                                                  \
    refusal(LENGTH, 1, "a lent length does not fit", "0, 0")                                       \
    refusal(SIZE, 2, "a size is outside its limits", "0, 0")                                       \
    refusal(BITS_END, 3, "bits end", "bits read, 0")                                               \
    refusal(COLUMNS_END, 4, "columns end", "x, y")                                                 \
    refusal(TRANSFORM, 5, "transform unknown", "x, y")                                             \
    refusal(HF_MUL, 6, "hf_mul not positive", "x, y")                                              \
    refusal(BORDER, 7, "varblock crosses a 32-block border", "x, y")                               \
    refusal(OVERLAP, 8, "varblocks overlap", "x, y")                                               \
    refusal(OUTSIDE, 9, "varblock leaves the LF group", "x, y")                                    \
    refusal(SHARPNESS, 10, "sharpness not 0 to 7", "x, y")                                         \
    refusal(PARAMETER, 11, "scale, mode, float, shift, presets or situation outside limits",       \
            "0, 0")                                                                                \
    refusal(CONTEXT, 12, "context record unfit", "0, 0")                                           \
    refusal(ORDER, 13, "order length, digit or stored place too large", "symbols read, 0")         \
    refusal(PRESET, 14, "preset number not below presets", "bits read, 0")                         \
    refusal(SYMBOLS_END, 15, "symbols end", "symbols read, 0")                                     \
    refusal(COUNT, 16, "count above 63 x blocks", "symbols read, 0")                               \
    refusal(COEFFICIENT_CONTEXT, 17, "coefficient context 458 or more", "symbols read, 0")         \
    refusal(LAYOUT, 18, "lent layout or group is none", "0, 0")                                    \
    refusal(COUNT_REMAINING, 24, "places end with count remaining", "symbols read, 0")

/* NETBUFF_REFUSED_LENGTH is 1, and so on. */
enum {
    NETBUFF_ACCEPTED = 0,
#define NETBUFF_NUMBERED(name, number, text, position) NETBUFF_REFUSED_##name = number,
    NETBUFF_REFUSALS(NETBUFF_NUMBERED)
#undef NETBUFF_NUMBERED
    NETBUFF_REFUSALS_END /* one more than the largest number */
};

/*
 * What a number means and what its position is, in English, for messages. Any number has a text.
 *
 *     printf("%s (%s: %zu, %zu)\n", netbuff_refusal_text(n), netbuff_position_text(n), x, y);
 *
 * prints "symbols end (symbols read, 0: 5, 0)", and "varblocks overlap (x, y: 0, 1)".
 */
static inline const char *netbuff_refusal_text(uint32_t number)
{
    switch (number) {
    case NETBUFF_ACCEPTED:
        return "accepted";
#define NETBUFF_TEXT(name, number, text, position)                                                 \
    case number:                                                                                   \
        return text;
        NETBUFF_REFUSALS(NETBUFF_TEXT)
#undef NETBUFF_TEXT
    default:
        return "no refusal of this version";
    }
}

static inline const char *netbuff_position_text(uint32_t number)
{
    switch (number) {
#define NETBUFF_POSITION(name, number, text, position)                                             \
    case number:                                                                                   \
        return position;
        NETBUFF_REFUSALS(NETBUFF_POSITION)
#undef NETBUFF_POSITION
    default:
        return "0, 0";
    }
}

/* ---- Names for numbers ---- */

/*
 * The 27 transforms. The first number of a name is the height in cells, the second the width:
 * NETBUFF_DCT16X8 is one block wide and two high.
 */
enum {
    NETBUFF_DCT8 = 0,
    NETBUFF_HORNUSS = 1,
    NETBUFF_DCT2 = 2,
    NETBUFF_DCT4 = 3,
    NETBUFF_DCT16 = 4,
    NETBUFF_DCT32 = 5,
    NETBUFF_DCT16X8 = 6,
    NETBUFF_DCT8X16 = 7,
    NETBUFF_DCT32X8 = 8,
    NETBUFF_DCT8X32 = 9,
    NETBUFF_DCT32X16 = 10,
    NETBUFF_DCT16X32 = 11,
    NETBUFF_DCT4X8 = 12,
    NETBUFF_DCT8X4 = 13,
    NETBUFF_AFV0 = 14,
    NETBUFF_AFV1 = 15,
    NETBUFF_AFV2 = 16,
    NETBUFF_AFV3 = 17,
    NETBUFF_DCT64 = 18,
    NETBUFF_DCT64X32 = 19,
    NETBUFF_DCT32X64 = 20,
    NETBUFF_DCT128 = 21,
    NETBUFF_DCT128X64 = 22,
    NETBUFF_DCT64X128 = 23,
    NETBUFF_DCT256 = 24,
    NETBUFF_DCT256X128 = 25,
    NETBUFF_DCT128X256 = 26,
    NETBUFF_TRANSFORMS = 27
};

/* Upsampling modes of a channel, as jpeg_upsampling has them. */
enum {
    NETBUFF_UPSAMPLING_NONE = 0,
    NETBUFF_UPSAMPLING_BOTH = 1,
    NETBUFF_UPSAMPLING_HORIZONTAL = 2,
    NETBUFF_UPSAMPLING_VERTICAL = 3
};

/* Channels by number: X, Y, B of an XYB frame; Cb, Y, Cr of a YCbCr frame. */
enum {
    NETBUFF_CHANNEL_X = 0,
    NETBUFF_CHANNEL_CB = 0,
    NETBUFF_CHANNEL_Y = 1,
    NETBUFF_CHANNEL_B = 2,
    NETBUFF_CHANNEL_CR = 2,
    NETBUFF_CHANNELS = 3
};

/* The kind of a block in a layout: NETBUFF_KIND_CORNER + t where a varblock of type t begins. */
enum { NETBUFF_KIND_FREE = 0, NETBUFF_KIND_OCCUPIED = 1, NETBUFF_KIND_CORNER = 2 };

/* ---- Limits and lengths ---- */

enum {
    NETBUFF_BLOCK_SIDE = 8, /* cells */
    NETBUFF_BLOCK_CELLS = 64,
    NETBUFF_LF_SIDE_MOST = 2048,    /* pixels of an LF group, each way */
    NETBUFF_LAYOUT_SIDE_MOST = 256, /* blocks of a layout, each way */
    NETBUFF_GROUP_SIDE_MOST = 32,   /* blocks of a pass group, each way */
    NETBUFF_SHIFT_MOST = 3,
    NETBUFF_PRESETS_MOST = 256,
    NETBUFF_CLUSTERS_MOST = 16, /* block clusters */
    NETBUFF_STACK_BYTES = 16384
};

/* The lists of a context record. */
enum {
    NETBUFF_THRESHOLDS = 15,     /* of one list, at most */
    NETBUFF_LF_THRESHOLDS = 45,  /* three lists, that of channel c from 15 * c on */
    NETBUFF_BLOCK_CTX_MAP = 2496 /* 39 x 64 */
};

/* The numbers of a store: x and y of the 393,984 places of 39 lists, by order and channel. */
#define NETBUFF_STORE_LENGTH 787968
enum { NETBUFF_ORDERS = 13 };

/*
 * Sides in blocks of an LF group: pixels divided by 8, rounded up, made even where a mode says. No
 * pixels are no blocks, whatever the modes.
 */
static inline size_t netbuff_lf_bw(uint32_t width, uint32_t mode0, uint32_t mode1, uint32_t mode2)
{
    size_t bw = ((size_t)width + 7) / 8;
    bool even = mode0 == 1 || mode0 == 2 || mode1 == 1 || mode1 == 2 || mode2 == 1 || mode2 == 2;
    return even ? (bw + 1) / 2 * 2 : bw;
}

static inline size_t netbuff_lf_bh(uint32_t height, uint32_t mode0, uint32_t mode1, uint32_t mode2)
{
    size_t bh = ((size_t)height + 7) / 8;
    bool even = mode0 == 1 || mode0 == 3 || mode1 == 1 || mode1 == 3 || mode2 == 1 || mode2 == 3;
    return even ? (bh + 1) / 2 * 2 : bh;
}

/* Blocks of an LF group: the length of sharpness, kinds, hf_mul and sigma. */
static inline size_t netbuff_lf_blocks(uint32_t width, uint32_t height, uint32_t mode0,
                                       uint32_t mode1, uint32_t mode2)
{
    return netbuff_lf_bw(width, mode0, mode1, mode2) * netbuff_lf_bh(height, mode0, mode1, mode2);
}

/* How many pass groups a layout of bw x bh blocks has: an empty one has none. */
static inline size_t netbuff_group_count(size_t bw, size_t bh)
{
    return (bw + 31) / 32 * ((bh + 31) / 32);
}

/* Sides in blocks of the pass group with this index; 0 where the layout has no such group. */
static inline size_t netbuff_group_bw(size_t bw, size_t bh, size_t index)
{
    if (index >= netbuff_group_count(bw, bh))
        return 0;
    size_t left = bw - index % ((bw + 31) / 32) * 32;
    return left < 32 ? left : 32;
}

static inline size_t netbuff_group_bh(size_t bw, size_t bh, size_t index)
{
    if (index >= netbuff_group_count(bw, bh))
        return 0;
    size_t left = bh - index / ((bw + 31) / 32) * 32;
    return left < 32 ? left : 32;
}

/* Its blocks: the length of out_kinds and out_hf_mul of a cut. */
static inline size_t netbuff_group_blocks(size_t bw, size_t bh, size_t index)
{
    return netbuff_group_bw(bw, bh, index) * netbuff_group_bh(bw, bh, index);
}

/* Cells of one coefficient grid of so many blocks. */
static inline size_t netbuff_grid_length(size_t blocks)
{
    return 64 * blocks;
}

/* Bytes that a cluster log needs at least: no group of so many blocks reads more symbols. */
static inline size_t netbuff_log_length(size_t blocks)
{
    return 192 * blocks;
}

/* Bytes of the cluster map of a pass. */
static inline size_t netbuff_cluster_map_length(uint32_t num_block_clusters, uint32_t presets)
{
    return (size_t)495 * num_block_clusters * presets;
}

/* Bytes of the map that netbuff_block_context is lent, for lists of these lengths (0 to 15). */
static inline size_t netbuff_context_map_length(uint32_t lf0_length, uint32_t lf1_length,
                                                uint32_t lf2_length, uint32_t qf_length)
{
    return (size_t)39 * (lf0_length + 1) * (lf1_length + 1) * (lf2_length + 1) * (qf_length + 1);
}

/* ---- Transforms and bits ---- */

/*
 * The transform of a number: how many blocks its varblock is wide and high, its order (0 to 12),
 * and whether x and y of a place of that order are swapped: for Dct8, for larger squares and for
 * varblocks higher than wide. (So Dct8 has its first coefficient at place (1, 0), in cell (0, 1).)
 * Refused: 5 at 0, 0 for 27 and more.
 */
uint32_t netbuff_transform(uint32_t number, size_t *wide, size_t *high, size_t *order, bool *turn,
                           size_t *x, size_t *y);

/*
 * One read of n bits, 0 to 32 (a larger n reads 32), from the bit with number 8 * byte + bit on:
 * the value, and where the bits behind it begin. Refused: 3 when the bits end, with nothing read.
 * *taken receives 0.
 */
uint32_t netbuff_read_bits(const uint8_t *bytes, size_t bytes_length, size_t byte, uint32_t bit,
                           uint32_t n, uint32_t *value, size_t *next_byte, uint32_t *next_bit,
                           uint32_t *taken);

/*
 * A U32: a two-bit selector, then that one of the four choices. A choice is an offset and a number
 * of bits: choices[2k] is the offset of choice k and choices[2k + 1] its bits, more than 32
 * counting as 32. The value is the offset plus the bits read, modulo 2^32. Refused: 3 when the bits
 * end. *taken receives the bits that a refused U32 took: 2 when only the field is missing, else 0.
 */
uint32_t netbuff_read_u32(const uint8_t *bytes, size_t bytes_length, size_t byte, uint32_t bit,
                          const uint32_t choices[8], uint32_t *value, size_t *next_byte,
                          uint32_t *next_bit, uint32_t *taken);

/* The number that a packed signed u stands for: 0, -1, 1, -2, 2 .. for 0, 1, 2, 3, 4 .. */
int32_t netbuff_unpack_signed(uint32_t u);

/* ---- Layout ---- */

/*
 * The column count of an LF group of width x height pixels (0 to 2,048 each): 1 plus as many bits
 * as the exponent of the least power of two not below its blocks. *bits receives the bits read. An
 * upsampling mode is 0 to 3; the three may come in any order. The count of an empty group is 1, and
 * no bit is read for it.
 *
 * Refused: 2, 11 (a mode), 3.
 */
uint32_t netbuff_column_count(const uint8_t *bytes, size_t bytes_length, uint32_t width,
                              uint32_t height, uint32_t mode0, uint32_t mode1, uint32_t mode2,
                              uint32_t *count, size_t *bits, size_t *x, size_t *y);

/*
 * The layout of an LF group of width x height pixels (0 to 2,048 each). Its sides in blocks, bw and
 * bh, are those of netbuff_lf_bw and netbuff_lf_bh. Columns are two lists of one length: types,
 * each a transform number, 0 to 26, and muls. All 32 bits of a type count: one with flags above the
 * number, as 256 or -256, is refused with 5. Blocks are visited row by row; a free block takes the
 * next column, and its varblock begins there. hf_mul is mul + 1 and must be positive; the largest
 * mul wraps, and is refused. Surplus columns are accepted, whatever they hold: *used receives how
 * many were used.
 *
 * An empty group is accepted: no column is used, so that all are surplus, and the length that fits
 * is 0. Modes, scale, floats and lengths are judged as for any other.
 *
 * The filter: sigma of a block is multiplier * 65536 / scale / hf_mul * lookup[sharpness], in f32,
 * each step rounded once. multiplier (quant_mul of the edge-preserving filter) and lookup (its
 * sharp_lut) are from -65,504 to 65,504, scale (global_scale of the quantizer) from 1 to 73,728.
 * With the filter off sigma is +0.0, and multiplier and sharpness numbers are not looked at;
 * lookup, scale and all lengths are checked still (zeros and a scale of 1 serve).
 *
 * Lengths that fit: bw * bh for sharpness, kinds, hf_mul and sigma. Filled, one element for each
 * block: kinds (NETBUFF_KIND_..), hf_mul (0 off corners), sigma.
 *
 * Refused: 2, 11, 1 (the three lists stay as they were); then block by block 4, 5, 6, 7, and 9, 8
 * or 10, whichever the scan of its rectangle meets first (the three lists are all zero).
 */
uint32_t netbuff_layout(uint32_t width, uint32_t height, uint32_t mode0, uint32_t mode1,
                        uint32_t mode2, const int32_t *types, size_t types_length,
                        const int32_t *muls, size_t muls_length, const int32_t *sharpness,
                        size_t sharpness_length, bool filter_on, float multiplier,
                        const float lookup[8], uint32_t scale, uint8_t *kinds, size_t kinds_length,
                        int32_t *hf_mul, size_t hf_mul_length, float *sigma, size_t sigma_length,
                        size_t *used, size_t *x, size_t *y);

/*
 * Cuts the pass group with this index out of a layout of bw x bh blocks (0 to 256 each way). The
 * 32 x 32 squares of a layout, cut at its edges, are counted row by row from 0. *out_bw and *out_bh
 * receive the group's sides in blocks, which are netbuff_group_bw and netbuff_group_bh.
 *
 * Lengths that fit: bw * bh for kinds and hf_mul, *out_bw * *out_bh for out_kinds and out_hf_mul.
 * Refused: 2 (sides, or an index outside the layout, which every index is where it is empty), 1,
 * 18; out_kinds and out_hf_mul stay as they were. A layout that netbuff_layout accepted is never
 * refused with 18.
 *
 * Each call judges the whole layout that it is lent (18). The rows of blocks that a row of groups
 * lies in (32 of them, fewer at the lower edge) are a layout by themselves, one piece of each list,
 * and their groups are the same. To cut all groups fast, lend each call just the rows of its group,
 * with their number as bh and the index counted among the groups of these rows.
 */
uint32_t netbuff_cut(size_t bw, size_t bh, const uint8_t *kinds, size_t kinds_length,
                     const int32_t *hf_mul, size_t hf_mul_length, size_t index, uint8_t *out_kinds,
                     size_t out_kinds_length, int32_t *out_hf_mul, size_t out_hf_mul_length,
                     size_t *out_bw, size_t *out_bh, size_t *x, size_t *y);

/*
 * Whether two layouts (0 to 256 blocks each way) are alike: yes exactly if they have the same
 * varblocks (the same corners, and at each the same transform number and hf_mul) and the same sigma
 * to the bit. So layouts of different sides that have a block are not alike, nor is one with
 * Hornuss like one with Dct8 in its place, nor +0.0 like -0.0. Empty layouts are alike whatever
 * their sides, as 0 x 3 and 5 x 0: they have no varblocks. Any finite sigma serves.
 *
 * Lengths that fit: bw * bh of each layout for its kinds, hf_mul and sigma. Refused: 2, 11 (sigma
 * holds a NaN or an infinity; every number that is lent is looked at, those beyond bw * bh too), 1,
 * 18, each tried over both layouts before the next. Two layouts that netbuff_layout accepted, each
 * with its sigma, are never refused, and each is like itself.
 */
uint32_t netbuff_alike(size_t bw, size_t bh, const uint8_t *kinds, size_t kinds_length,
                       const int32_t *hf_mul, size_t hf_mul_length, const float *sigma,
                       size_t sigma_length, size_t bw2, size_t bh2, const uint8_t *kinds2,
                       size_t kinds2_length, const int32_t *hf_mul2, size_t hf_mul2_length,
                       const float *sigma2, size_t sigma2_length, bool *alike, size_t *x,
                       size_t *y);

/* ---- Contexts ---- */

/*
 * The block contexts of a frame. First bit 1: the default contexts, 15 clusters; num_clusters and
 * map are not looked at (lend 0 and a list of none). First bit 0: four lists of thresholds follow
 * in the bytes, and the decoded context map is lent: 39 bytes for each of bsize (the product of the
 * four list lengths, each plus 1, at most 64), all below num_clusters, 1 to 16.
 *
 * A list is its length, four bits, then that many U32. LF thresholds (channels 0, 1, 2) are packed
 * signed: 4 bits, 16 + 8 bits, 272 + 16 bits, 65808 + 32 bits. qf thresholds are 1 more than: 2
 * bits, 4 + 3 bits, 12 + 5 bits, 44 + 8 bits. netbuff_scan_contexts of netbuff_structs.h tells the
 * lengths and where the lists end, so that the map can be decoded and lent.
 *
 * The record is handed out whole, unused elements 0: the number of clusters; the lengths of the LF
 * lists of channels 0, 1, 2 and of the qf list; the LF thresholds of channel c from 15 * c on; the
 * qf thresholds; the map. *bits_read receives the bits read; the map's own bits come behind them.
 *
 * Refused: 3, 12 (bsize above 64), 1, 12; the record stays as it was.
 */
uint32_t netbuff_block_context(const uint8_t *bytes, size_t bytes_length, uint32_t num_clusters,
                               const uint8_t *map, size_t map_length, uint32_t *num_block_clusters,
                               uint32_t lengths[4], int32_t lf_thresholds[45],
                               uint32_t qf_thresholds[15], uint8_t block_ctx_map[2496],
                               size_t *bits_read, size_t *x, size_t *y);

/* ---- Orders ---- */

/*
 * The orders of a pass. The bytes hold one U32 with the choices 95, 19, 0 and 13 bits: bit k is set
 * where order k is permuted. (A byte of 2 says: none.) The symbols hold, for each permuted order, a
 * permutation for channels 0, 1, 2: a length, then that many digits of the Lehmer code over the
 * places behind the low-frequency ones. Orders that are not permuted are natural and use no
 * symbols. Surplus symbols are accepted. *symbols_read receives the symbols read.
 *
 * Sizes of the orders 0 to 12, in cells: 8x8, 8x8, 16x16, 32x32, 16x8, 32x8, 32x16, 64x64, 64x32,
 * 128x128, 128x64, 256x256, 256x128 (width x height). A place is two numbers of the store, x and y.
 * The first size / 64 places of a list are the low-frequency cells, which are not permuted.
 *
 * The natural list of an order: its width / 8 x height / 8 low-frequency cells row by row; then the
 * diagonals x + y = 0, 1, 2 .. of a square of its width, upwards in x where that sum is even and
 * downwards where it is odd, without cells whose x and y are both below width / 8 and without rows
 * that width / height does not divide, by which y is then divided. 8x8 begins with (0, 0), (1, 0),
 * (0, 1), (0, 2), (1, 1), (2, 0), (3, 0); 16x8 with (0, 0), (1, 0), (0, 1), (2, 0), (3, 0), (1, 1).
 *
 * Length that fits: NETBUFF_STORE_LENGTH. Refused: 1, 3 (the store stays as it was), 13, 15 (the
 * whole store is zero).
 */
uint32_t netbuff_orders(const uint8_t *bytes, size_t bytes_length, const uint32_t *symbols,
                        size_t symbols_length, uint16_t *store, size_t store_length,
                        size_t *symbols_read, size_t *x, size_t *y);

/*
 * Where the list of an order (0 to 12) and channel (0 to 2) stands in a store: its first number and
 * how many there are, two for each place. An order above 12, a channel above 2 or a store of
 * another length gets the empty stretch. Never refused.
 */
void netbuff_order(const uint16_t *store, size_t store_length, size_t order, size_t channel,
                   size_t *first, size_t *count);

/* Whether a store has its length, and every place of its 39 lists is inside its order's size. */
bool netbuff_places_fit(const uint16_t *store, size_t store_length);

/* ---- Coefficients ---- */

/*
 * The coefficients of a pass group of bw x bh blocks (0 to 32 each way), all three channels at
 * full size: subsampled colour is not read. kinds and hf_mul are those of a cut, or lists of none
 * for an empty group; the record is one of netbuff_block_context, the store one of netbuff_orders.
 * Where lf_there is false the LF grids are not looked at (lend lists of none), else they hold the
 * LF numbers of channels 0, 1, 2, one for each block.
 *
 * The bytes hold the preset number, as many bits as the exponent of the least power of two not
 * below presets: none for one preset. The cluster map has 495 * num_block_clusters bytes for each
 * preset: first those of counts, entry n of block context b at n * num_block_clusters + b (n is the
 * predicted count p, or 4 + p / 2 from 8 on, 36 at most); then those of coefficients, 458 for each
 * block context, one block context behind the other (netbuff_coefficient_context tells which of the
 * 458). Which entry is a symbol's depends on the symbols before it, so the caller's entropy decoder
 * makes the same walk (as write_hf_coeff of jxl-vardct does), and the log is there to be held
 * against it.
 *
 * The symbols: corners row by row, and for each corner channel 1, then 0, then 2. A channel has a
 * count of its coefficients that are not 0; then, if that is not 0, one symbol for each place of
 * its list behind the low-frequency places, until as many as the count says were not 0. Where the
 * last place is passed before, its symbol read, logged and added, that is 24. Coefficients are
 * packed signed (netbuff_unpack_signed), counts are not. A coefficient is shifted left (shift is 0
 * to 3) and added to the grid of its channel, modulo 2^32: at place (px, py), or (py, px) where the
 * transform turns, it is cell (8 * x + px, 8 * y + py), for the corner (x, y). Low-frequency cells
 * are never touched where the store is one that netbuff_orders wrote. Surplus symbols are accepted.
 * *symbols_read receives the symbols read; log[i] receives the cluster that the cluster map names
 * for symbol i.
 *
 * Of an empty group the preset number is read and no symbol: it is accepted with 0 symbols read,
 * and nothing is written. All that is judged before, 3 and 14 included, is judged as for any other.
 *
 * Lengths that fit: bw * bh for kinds, hf_mul and each LF grid that is there; NETBUFF_STORE_LENGTH
 * for the store; 495 * num_block_clusters * presets (0 to 256) for the cluster map; 64 * bw * bh
 * for each grid, whose rows have 8 * bw cells; at least 192 * bw * bh for the log.
 *
 * Refused: 2, 11, 12, 1, 18, 13 (a stored place), 3, 14: grids and log stay as they were. Then 15,
 * 16, 17, 24: what was added and logged before stays, the refused count of 16 logged too. Log bytes
 * behind the symbols read keep their contents. 17 is met only where more coefficients of a channel
 * are due than places remain: more than 32 * blocks at place 31 * blocks or later.
 */
uint32_t netbuff_coefficients(size_t bw, size_t bh, const uint8_t *kinds, size_t kinds_length,
                              const int32_t *hf_mul, size_t hf_mul_length,
                              uint32_t num_block_clusters, const uint32_t lengths[4],
                              const int32_t lf_thresholds[45], const uint32_t qf_thresholds[15],
                              const uint8_t block_ctx_map[2496], bool lf_there, const int32_t *lf0,
                              size_t lf0_length, const int32_t *lf1, size_t lf1_length,
                              const int32_t *lf2, size_t lf2_length, const uint16_t *store,
                              size_t store_length, uint32_t presets, const uint8_t *cluster_map,
                              size_t cluster_map_length, uint32_t shift, const uint8_t *bytes,
                              size_t bytes_length, const uint32_t *symbols, size_t symbols_length,
                              uint8_t *log, size_t log_length, int32_t *grid0, size_t grid0_length,
                              int32_t *grid1, size_t grid1_length, int32_t *grid2,
                              size_t grid2_length, size_t *symbols_read, size_t *x, size_t *y);

/*
 * The context number of a coefficient, 0 to 457: which of the 458 entries of its block context in
 * the cluster map is its own. It is told for a situation: a varblock of so many blocks, a power of
 * two up to 1,024; a count, at least 1, of the coefficients that are not 0 still due, this place's
 * included; the place, counted from 0 behind the low-frequency ones; and prev, 1 where the symbol
 * before was not 0, else 0. count + place is at most 63 * blocks. At the first place a reading has
 * a prev of 1 where the count is at most 4 * blocks, else 0; here both are taken at every place.
 *
 * The number is 2 * (n + f) + prev. n goes by k = (count - 1) / blocks: 0 for 0, 31 for 1, 62 up to
 * 3, 93 up to 7, 123 up to 11, 152 up to 19, 180 up to 31, 206 up to 62. f goes by j = place /
 * blocks: j up to 14, (j + 15) / 2 up to 30, (j + 61) / 4 up to 62. Quotients are rounded down.
 * (The tables are COEFF_NUM_NONZERO_CONTEXT and COEFF_FREQ_CONTEXT of jxl-vardct.) So a situation
 * has the number of that of one block with count k + 1, place j and the same prev. Two situations
 * have the same number exactly if n, f and prev are the same, and each number occurs:
 * docs/CENSUS.md of the sources lists them all.
 *
 * Refused: 11 where blocks is no such power of two, count is 0, count + place, which does not wrap,
 * is above 63 * blocks, or prev is above 1. (17 is a refusal of netbuff_coefficients alone.)
 */
uint32_t netbuff_coefficient_context(uint32_t blocks, uint32_t count, uint32_t place, uint32_t prev,
                                     uint32_t *context, size_t *x, size_t *y);

#ifdef __cplusplus
}
#endif

#endif
