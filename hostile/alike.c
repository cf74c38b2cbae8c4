/* The likeness test. */
#include "lent_layout.h"

#include "netbuff.h"

#include <string.h>

/* A grid with the bits of its filter strengths. */
struct filtered_grid {
    struct grid grid;
    uint32_t sigma[LAYOUT_SIDE_MOST * LAYOUT_SIDE_MOST];
};

/* What is lent of it. */
struct filtered_layout {
    struct lent_layout layout;
    float *sigma;
    size_t sigma_length;
};

static uint32_t bits_of(float number)
{
    uint32_t bits;
    memcpy(&bits, &number, sizeof bits);
    return bits;
}

static bool is_finite(uint32_t bits)
{
    return (bits >> 23 & 0xff) != 0xff;
}

/* A finite number: zeros, subnormals, edges, or any other. */
static uint32_t spread_finite(struct input *in)
{
    static const uint32_t edges[] = {0,          0x80000000, 1,          0x80000001,
                                     0x007fffff, 0x00800000, 0x3f800000, 0x477fe000,
                                     0x477fe001, 0xc77fe001, 0x7f7fffff, 0xff7fffff};
    if (spread_below(in, 2) == 0)
        return edges[spread_below(in, sizeof edges / sizeof edges[0])];
    uint32_t bits = (uint32_t)next_spread(&in->spread);
    return is_finite(bits) ? bits : bits ^ 0x40000000;
}

/* Infinities, quiet NaNs and NaNs that signal, of both signs and of any payload. */
static uint32_t take_not_finite(struct input *in)
{
    static const uint32_t edges[] = {0x7f800000, 0xff800000, 0x7fc00000, 0xffc00000, 0x7f800001,
                                     0xff800001, 0x7fbfffff, 0x7fffffff, 0xffffffff};
    uint32_t class = take_below(in, sizeof edges / sizeof edges[0] + 1);
    return class < sizeof edges / sizeof edges[0] ? edges[class] : take_word(in) | 0x7f800000;
}

static void fill_filtered(struct input *in, struct filtered_grid *filled, struct sides sides)
{
    fill_grid(in, &filled->grid, sides);
    for (size_t cell = 0; cell < sides.wide * sides.high; cell++)
        filled->sigma[cell] = spread_finite(in);
}

/* The first corner from a cell on, of one block if asked; where there is none, the cell itself. */
static size_t corner_from(const struct grid *grid, size_t cell, bool of_one_block)
{
    size_t cells = grid->sides.wide * grid->sides.high;
    for (size_t step = 0; step < cells; step++) {
        uint8_t kind = grid->kinds[(cell + step) % cells];
        if (kind < 2 || kind >= 2 + TRANSFORMS)
            continue;
        struct sides of = transform_sides[kind - 2];
        if (!of_one_block || of.wide * of.high == 1)
            return (cell + step) % cells;
    }
    return cell;
}

/* Another transform of one block in place of one. */
static void exchange(struct input *in, struct grid *grid, size_t cell)
{
    static const uint8_t kinds[] = {2, 3, 4, 5, 14, 15, 16, 17, 18, 19};
    size_t corner = corner_from(grid, cell, true);
    uint8_t kind = kinds[take_below(in, sizeof kinds)];
    if (memchr(kinds, grid->kinds[corner], sizeof kinds) != NULL)
        grid->kinds[corner] = kind;
}

/* Beside a layout without blocks: mostly another one without, else one with some. */
static void take_other_of_empty(struct input *in, struct filtered_grid *other)
{
    struct sides sides = take_sides(in);
    if (!take_once_in(in, 3))
        take_blocks_away(in, &sides);
    fill_filtered(in, other, sides);
}

/* A second layout: the first, changed in one place or not at all, or another. */
static void take_other(struct input *in, struct filtered_grid *one, struct filtered_grid *other)
{
    size_t cells = one->grid.sides.wide * one->grid.sides.high;
    if (cells == 0) {
        take_other_of_empty(in, other);
        return;
    }
    uint32_t cell = take_below(in, (uint32_t)cells);
    other->grid.sides = one->grid.sides;
    memcpy(other->grid.kinds, one->grid.kinds, cells);
    memcpy(other->grid.hf_mul, one->grid.hf_mul, cells * sizeof one->grid.hf_mul[0]);
    memcpy(other->sigma, one->sigma, cells * sizeof one->sigma[0]);
    switch (take_below(in, 10)) {
    case 1:
        fill_filtered(in, other, take_sides(in));
        break;
    case 2:
        fill_grid(in, &other->grid, one->grid.sides);
        break;
    case 3:
        damage_grid(in, &other->grid);
        break;
    case 4:
        other->grid.hf_mul[corner_from(&one->grid, cell, false)] ^= 2;
        break;
    case 5:
    case 6:
        exchange(in, &other->grid, cell);
        break;
    case 7: /* the sign of a zero */
        one->sigma[cell] &= 0x80000000;
        other->sigma[cell] = one->sigma[cell] ^ 0x80000000;
        break;
    case 8:
        other->sigma[cell] ^= UINT32_C(1) << take_below(in, 32);
        break;
    }
}

/* In any place of a lent sigma, or behind all blocks where it is too long. */
static void put_not_finite(struct input *in, struct filtered_layout *lent, size_t cells)
{
    if (lent->sigma_length == 0 || lent->sigma_length >= VAST)
        return;
    uint32_t bits = take_not_finite(in), length = (uint32_t)lent->sigma_length;
    uint32_t from = lent->sigma_length > cells && take_below(in, 2) == 0 ? (uint32_t)cells : 0;
    memcpy(&lent->sigma[from + take_below(in, length - from)], &bits, sizeof bits);
}

/* A sigma is looked at to its end: a vast one is lent only where a side is refused before. Where there
 * are no blocks, there often are some numbers all the same. */
static struct filtered_layout lend_filtered(struct input *in, const struct filtered_grid *filled)
{
    size_t cells = filled->grid.sides.wide * filled->grid.sides.high, wanted = cells;
    if (cells == 0 && take_once_in(in, 4))
        wanted = take_between(in, 1, 3);
    struct filtered_layout lent = {lend_layout(in, &filled->grid), NULL, take_length(in, wanted)};
    if (lent.sigma_length >= VAST && sides_in_limits(lent.layout.sides))
        lent.sigma_length = cells + 1;
    lent.sigma = lend_copy(in, "sigma", filled->sigma, cells, lent.sigma_length, 4);
    if (take_once_in(in, lent.sigma_length > cells ? 3 : 20))
        put_not_finite(in, &lent, cells);
    return lent;
}

static bool all_finite(const struct filtered_layout *lent)
{
    for (size_t k = 0; k < lent->sigma_length; k++)
        if (!is_finite(bits_of(lent->sigma[k])))
            return false;
    return true;
}

static bool all_lengths_fit(const struct filtered_layout *lent)
{
    struct sides sides = lent->layout.sides;
    return lengths_fit(&lent->layout) && lent->sigma_length == sides.wide * sides.high;
}

static bool holds_layout(const struct filtered_layout *lent)
{
    return is_layout(lent->layout.sides, lent->layout.kinds, lent->layout.hf_mul);
}

static uint32_t alike_due(const struct filtered_layout *one, const struct filtered_layout *other)
{
    if (!sides_in_limits(one->layout.sides) || !sides_in_limits(other->layout.sides))
        return 2;
    if (!all_finite(one) || !all_finite(other))
        return 11;
    if (!all_lengths_fit(one) || !all_lengths_fit(other))
        return 1;
    return holds_layout(one) && holds_layout(other) ? 0 : 18;
}

static bool has_blocks(const struct lent_layout *layout)
{
    return layout->sides.wide > 0 && layout->sides.high > 0;
}

/* Of two layouts that nothing is refused of. Two without blocks have the same varblocks and the same
 * sigma, none, whatever their sides. */
static bool is_alike(const struct filtered_layout *one, const struct filtered_layout *other)
{
    const struct lent_layout *left = &one->layout, *right = &other->layout;
    struct sides sides = left->sides;
    if (!has_blocks(left) || !has_blocks(right))
        return has_blocks(left) == has_blocks(right);
    if (sides.wide != right->sides.wide || sides.high != right->sides.high)
        return false;
    return same_varblocks(sides, left->kinds, left->hf_mul, right->kinds, right->hf_mul) &&
           memcmp(one->sigma, other->sigma, one->sigma_length * sizeof one->sigma[0]) == 0;
}

void host_alike(struct input *in)
{
    static struct filtered_grid grids[2];
    fill_filtered(in, &grids[0], take_sides(in));
    if (take_once_in(in, 8))
        damage_grid(in, &grids[0].grid);
    take_other(in, &grids[0], &grids[1]);
    struct filtered_layout one = lend_filtered(in, &grids[0]), other = lend_filtered(in, &grids[1]);
    const struct lent_layout *left = &one.layout, *right = &other.layout;
    bool *alike = lend_bool(in, "alike");
    size_t *x = lend_size(in, "x"), *y = lend_size(in, "y");
    lend_note();
    uint32_t refused = netbuff_alike(
        left->sides.wide, left->sides.high, left->kinds, left->kinds_length, left->hf_mul,
        left->hf_mul_length, one.sigma, one.sigma_length, right->sides.wide, right->sides.high,
        right->kinds, right->kinds_length, right->hf_mul, right->hf_mul_length, other.sigma,
        other.sigma_length, alike, x, y);
    lend_check();
    uint32_t due = alike_due(&one, &other);
    answered((struct answer){refused, *x, *y}, (struct answer){due, 0, 0});
    if (due != 0) {
        stays(alike, 0);
        return;
    }
    bool same = is_alike(&one, &other);
    promise(written_bool(alike) == same, "alike: %d is due", same);
}
