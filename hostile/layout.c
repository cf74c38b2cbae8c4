/* The column count and the layout of an LF group. */
#include "layout.h"

#include "netbuff.h"

#include <string.h>

enum { SCALE_MOST = 73728 };

static const uint32_t edge_pixels[8] = {0, 2049, 2048, UINT32_MAX, 2041, 257, 256, 1};

static uint32_t take_pixels(struct input *in)
{
    uint8_t class = take_byte(in);
    if (class >= 248)
        return edge_pixels[class % 8];
    return class >= 232 ? take_between(in, 1, 300) : take_between(in, 1, 64);
}

/* Without blocks: one side is 0, the other as it was, or any, outside the limits too. */
static void empty_group(struct input *in, struct lf_group *group)
{
    uint32_t *sides[2] = {&group->width, &group->height}, which = take_below(in, 2);
    *sides[which] = 0;
    if (take_once_in(in, 2))
        *sides[1 - which] = edge_pixels[take_below(in, 8)];
}

/* Mostly small and within limits; once in 8 times without blocks. */
static struct lf_group take_group(struct input *in)
{
    struct lf_group group = {take_pixels(in), take_pixels(in), {0, 0, 0}};
    if (take_once_in(in, 8))
        empty_group(in, &group);
    if (take_once_in(in, 3))
        for (int channel = 0; channel < 3; channel++)
            group.modes[channel] = take_once_in(in, 16) ? take_any(in) : take_below(in, 4);
    return group;
}

/* The refusal that sizes and modes ask for, before all others. */
static uint32_t refused_before(struct lf_group group)
{
    if (!pixels_fit(group.width, group.height))
        return 2;
    return modes_fit(group.modes) ? 0 : 11;
}

void host_column_count(struct input *in)
{
    struct lf_group group = take_group(in);
    size_t length;
    const uint8_t *bytes = lend_bytes(in, &length);
    uint32_t *count = lend_word(in, "count");
    size_t *bits = lend_size(in, "bits"), *x = lend_size(in, "x"), *y = lend_size(in, "y");
    lend_note();
    const uint32_t *modes = group.modes;
    uint32_t refused = netbuff_column_count(bytes, length, group.width, group.height, modes[0], modes[1],
                                            modes[2], count, bits, x, y);
    lend_check();
    uint32_t due = refused_before(group), value = 0;
    uint64_t place = 0;
    if (due == 0) {
        struct sides sides = lf_group_sides(group.width, group.height, modes);
        uint32_t n = exponent_of((uint32_t)(sides.wide * sides.high));
        due = bits_at(bytes, length, &place, n, &value) ? 0 : 3;
    }
    answered((struct answer){refused, *x, *y}, (struct answer){due, 0, 0});
    if (due != 0) {
        stays(count, 0);
        stays(bits, 0);
        return;
    }
    promise(*count == value + 1, "count %u", *count);
    promise(*bits == place, "%zu bits read", *bits);
}

static float take_float(struct input *in)
{
    static const uint32_t edges[] = {0,          0x80000000, 1,          0x807fffff, 0x3f800000,
                                     0x477fe000, 0xc77fe000, 0x3eaaaaab, 0x477fe001, 0xc77fe001,
                                     0x7f800000, 0xff800000, 0x7fc00000};
    uint8_t class = take_byte(in);
    float number = (float)class / 16 - 7;
    uint32_t bits = class < 13 ? edges[class] : take_word(in);
    if (class < 32)
        memcpy(&number, &bits, sizeof number);
    return number;
}

static bool float_fits(float number)
{
    return number >= -65504.0f && number <= 65504.0f;
}

/* Sides to lend for: those of the group, or some where it is refused. */
static struct sides sides_for(struct lf_group group)
{
    if (refused_before(group) != 0)
        return (struct sides){1 + group.width % 8, 1 + group.height % 8};
    return lf_group_sides(group.width, group.height, group.modes);
}

/* Columns of a group without blocks: all of them are surplus, and hold anything. */
static void take_surplus(struct input *in, struct layout_call *call)
{
    size_t wanted = take_below(in, 4);
    call->types_length = take_length(in, wanted);
    call->muls_length = take_length(in, wanted);
    call->types = lend_spread(in, "types", call->types_length, 4, READ);
    call->muls = lend_spread(in, "muls", call->muls_length, 4, READ);
}

static void take_columns(struct input *in, struct layout_call *call, const struct grid *grid)
{
    size_t wanted = grid->columns;
    switch (take_below(in, 8)) {
    case 7:
        wanted = take_below(in, (uint32_t)wanted);
        call->undamaged = false;
        break;
    case 6:
        wanted += take_below(in, 4);
        break;
    }
    call->types_length = take_length(in, wanted);
    call->muls_length = take_length(in, wanted);
    call->types = lend_copy(in, "types", grid->types, grid->columns, call->types_length, 4);
    call->muls = lend_copy(in, "muls", grid->muls, grid->columns, call->muls_length, 4);
    call->undamaged &= call->types_length >= grid->columns;
}

/* Puts numbers that may be wrong into a list. */
static void damage_list(struct input *in, int32_t *list, size_t length, const int32_t numbers[8])
{
    if (length == 0 || length >= VAST)
        return;
    for (uint32_t times = take_between(in, 1, 3); times > 0; times--) {
        uint32_t place = take_below(in, (uint32_t)length);
        uint8_t class = take_byte(in);
        list[place] = class < 128 ? class % 32 : numbers[class % 8];
    }
}

/* Puts numbers that may be wrong into both lists at one column. */
static void damage_column(struct input *in, struct layout_call *call, const int32_t types[8],
                          const int32_t muls[8])
{
    size_t length = call->types_length;
    if (length == 0 || length >= VAST || length != call->muls_length)
        return;
    uint32_t column = take_below(in, (uint32_t)length);
    call->types[column] = types[take_below(in, 8)];
    call->muls[column] = muls[take_below(in, 8)];
}

/* Small varblocks, most of them high, whatever room there is: wide ones then meet others. */
static void spread_types(struct input *in, int32_t *types, size_t length)
{
    static const int32_t small[8] = {0, 0, 6, 6, 6, 8, 7, 4};
    for (size_t column = 0; length < VAST && column < length; column++)
        types[column] = small[spread_below(in, 8)];
}

static void take_damage(struct input *in, struct layout_call *call)
{
    static const int32_t types[8] = {27, 28, 255, 256, -1, -256, 24, 281};
    static const int32_t muls[8] = {-1, INT32_MAX, INT32_MIN, -2, 0, 300, 1, 2};
    static const int32_t numbers[8] = {8, -1, 7, INT32_MIN, INT32_MAX, 9, 0, 256};
    uint32_t which = take_below(in, 9);
    call->undamaged &= which < 3;
    if (which == 3)
        spread_types(in, call->types, call->types_length);
    if (which == 4 || which == 7)
        damage_list(in, call->types, call->types_length, types);
    if (which == 5)
        damage_list(in, call->muls, call->muls_length, muls);
    if (which == 6 || which == 7)
        damage_list(in, call->sharpness, call->sharpness_length, numbers);
    if (which == 8)
        damage_column(in, call, types, muls);
}

static void take_filter(struct input *in, struct layout_call *call)
{
    call->filter_on = take_below(in, 2) == 1;
    call->multiplier = take_float(in);
    call->lookup = lend("lookup", 8, sizeof(float), READ, true);
    bool plain = !take_once_in(in, 3);
    for (int k = 0; k < 8; k++)
        call->lookup[k] = plain ? (float)k / 7 : take_float(in);
    call->scale = take_once_in(in, 16) ? take_any(in) : take_between(in, 1, SCALE_MOST);
}

static void take_layout(struct input *in, struct layout_call *call)
{
    static struct grid grid;
    call->group = take_group(in);
    call->sides = sides_for(call->group);
    call->undamaged = true;
    fill_grid(in, &grid, call->sides);
    size_t blocks = call->sides.wide * call->sides.high;
    if (blocks == 0)
        take_surplus(in, call);
    else
        take_columns(in, call, &grid);
    call->sharpness_length = take_length(in, blocks);
    call->sharpness = lend_spread(in, "sharpness", call->sharpness_length, 4, READ);
    for (size_t block = 0; block < call->sharpness_length && block < blocks; block++)
        if (call->sharpness_length < VAST)
            call->sharpness[block] &= 7;
    take_filter(in, call);
    take_damage(in, call);
    call->kinds_length = take_length(in, blocks);
    call->hf_mul_length = take_length(in, blocks);
    call->sigma_length = take_length(in, blocks);
    call->kinds = lend_spread(in, "kinds", call->kinds_length, 1, WRITE);
    call->hf_mul = lend_spread(in, "hf_mul", call->hf_mul_length, 4, WRITE);
    call->sigma = lend_spread(in, "sigma", call->sigma_length, 4, WRITE);
    call->used = lend_size(in, "used");
    call->x = lend_size(in, "x");
    call->y = lend_size(in, "y");
}

/* The refusal that is due before work: sizes, then parameters, then lengths. */
static uint32_t due_before(const struct layout_call *call)
{
    uint32_t due = refused_before(call->group);
    if (due != 0)
        return due;
    bool fits = call->scale >= 1 && call->scale <= SCALE_MOST;
    fits &= !call->filter_on || float_fits(call->multiplier);
    for (int k = 0; k < 8; k++)
        fits &= float_fits(call->lookup[k]);
    if (!fits)
        return 11;
    size_t blocks = call->sides.wide * call->sides.high;
    bool lengths = call->types_length == call->muls_length && call->sharpness_length == blocks &&
                   call->kinds_length == blocks && call->hf_mul_length == blocks &&
                   call->sigma_length == blocks;
    return lengths ? 0 : 1;
}

/* A list is the one that is due, block by block. */
static void same_list(const char *name, const void *list, const void *due, size_t blocks, size_t size)
{
    const uint8_t *found = list, *wanted = due;
    if (memcmp(list, due, blocks * size) == 0)
        return;
    for (size_t block = 0; block < blocks; block++)
        promise(memcmp(found + block * size, wanted + block * size, size) == 0, "%s of block %zu", name,
                block);
}

/* What an accepted call filled is a layout, like itself. */
static void check_filled(const struct layout_call *call)
{
    size_t blocks = call->sides.wide * call->sides.high;
    promise(is_layout(call->sides, call->kinds, call->hf_mul), "kinds and hf_mul are a layout");
    const uint8_t *kinds = call->kinds;
    const int32_t *hf_mul = call->hf_mul;
    const float *sigma = call->sigma;
    struct sides sides = call->sides;
    bool alike = false;
    size_t x, y;
    uint32_t refused = netbuff_alike(sides.wide, sides.high, kinds, blocks, hf_mul, blocks, sigma, blocks,
                                     sides.wide, sides.high, kinds, blocks, hf_mul, blocks, sigma, blocks,
                                     &alike, &x, &y);
    promise(refused == 0 && alike, "an accepted layout is like itself");
}

static void check_layout(const struct layout_call *call, uint32_t refused)
{
    static struct layout_due due;
    uint32_t before = due_before(call);
    struct answer answer = {refused, *call->x, *call->y};
    if (before != 0) {
        answered(answer, (struct answer){before, 0, 0});
        stays(call->used, 0);
        stays(call->kinds, 0);
        stays(call->hf_mul, 0);
        stays(call->sigma, 0);
        return;
    }
    size_t blocks = call->sides.wide * call->sides.high;
    expect_layout(call, &due);
    answered(answer, due.answer);
    if (refused != 0)
        stays(call->used, 0);
    else
        promise(*call->used == due.used, "%zu columns used where %zu are due", *call->used, due.used);
    same_list("kinds", call->kinds, due.kinds, blocks, sizeof due.kinds[0]);
    same_list("hf_mul", call->hf_mul, due.hf_mul, blocks, sizeof due.hf_mul[0]);
    same_list("sigma", call->sigma, due.sigma, blocks, sizeof due.sigma[0]);
    promise(!call->undamaged || refused == 0, "columns that fill the grid are accepted");
    if (refused == 0)
        check_filled(call);
}

void host_layout(struct input *in)
{
    struct layout_call call;
    take_layout(in, &call);
    lend_note();
    const uint32_t *modes = call.group.modes;
    uint32_t refused = netbuff_layout(
        call.group.width, call.group.height, modes[0], modes[1], modes[2], call.types, call.types_length,
        call.muls, call.muls_length, call.sharpness, call.sharpness_length, call.filter_on,
        call.multiplier, call.lookup, call.scale, call.kinds, call.kinds_length, call.hf_mul,
        call.hf_mul_length, call.sigma, call.sigma_length, call.used, call.x, call.y);
    lend_check();
    check_layout(&call, refused);
}
