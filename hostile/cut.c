/* The cut. */
#include "lent_layout.h"

#include "netbuff.h"

#include <string.h>

static size_t least(size_t one, size_t other)
{
    return one < other ? one : other;
}

/* What is lent to a cut beside the layout, and the group's place in it, if it has one. */
struct cut_call {
    struct lent_layout layout;
    size_t index, x0, y0;
    struct sides sides;
    uint8_t *kinds;
    int32_t *hf_mul;
    size_t kinds_length, hf_mul_length;
};

static size_t groups_along(size_t side)
{
    return (side + GROUP_SIDE - 1) / GROUP_SIDE;
}

/* Where the group is in a grid that has it. */
static void place_group(struct cut_call *call, struct sides grid)
{
    size_t wide = groups_along(grid.wide);
    call->x0 = call->index % wide * GROUP_SIDE;
    call->y0 = call->index / wide * GROUP_SIDE;
    call->sides = (struct sides){least(GROUP_SIDE, grid.wide - call->x0),
                                 least(GROUP_SIDE, grid.high - call->y0)};
}

static void take_cut(struct input *in, struct cut_call *call)
{
    static struct grid grid;
    fill_grid(in, &grid, take_sides(in));
    size_t groups = groups_along(grid.sides.wide) * groups_along(grid.sides.high);
    if (take_once_in(in, 3))
        damage_grid(in, &grid);
    call->index = take_below(in, groups > 0 ? (uint32_t)groups : 2);
    if (take_once_in(in, 16))
        call->index = take_below(in, 2) == 0 ? groups : SIZE_MAX - take_byte(in);
    call->sides = (struct sides){take_below(in, 3), 1};
    if (call->index < groups)
        place_group(call, grid.sides);
    call->layout = lend_layout(in, &grid);
    size_t cells = call->sides.wide * call->sides.high;
    call->kinds_length = take_length(in, cells);
    call->hf_mul_length = take_length(in, cells);
    call->kinds = lend_spread(in, "out_kinds", call->kinds_length, 1, WRITE);
    call->hf_mul = lend_spread(in, "out_hf_mul", call->hf_mul_length, 4, WRITE);
}

/* Sides, then the index among the groups of the sides that are said: none without blocks. Where
 * another side was said than the grid has, one of the two refuses. */
static uint32_t cut_due(const struct cut_call *call)
{
    const struct lent_layout *layout = &call->layout;
    struct sides said = layout->sides;
    if (!sides_in_limits(said) || call->index >= groups_along(said.wide) * groups_along(said.high))
        return 2;
    size_t cells = call->sides.wide * call->sides.high;
    if (!lengths_fit(layout) || call->kinds_length != cells || call->hf_mul_length != cells)
        return 1;
    return is_layout(layout->sides, layout->kinds, layout->hf_mul) ? 0 : 18;
}

static void check_window(const struct cut_call *call)
{
    for (size_t y = 0; y < call->sides.high; y++) {
        size_t from = (call->y0 + y) * call->layout.sides.wide + call->x0, to = y * call->sides.wide;
        promise(memcmp(call->kinds + to, call->layout.kinds + from, call->sides.wide) == 0,
                "kinds of row %zu are the layout's", y);
        promise(memcmp(call->hf_mul + to, call->layout.hf_mul + from, 4 * call->sides.wide) == 0,
                "hf_mul of row %zu is the layout's", y);
    }
}

void host_cut(struct input *in)
{
    struct cut_call call;
    take_cut(in, &call);
    const struct lent_layout *layout = &call.layout;
    size_t *out_bw = lend_size(in, "out_bw"), *out_bh = lend_size(in, "out_bh");
    size_t *x = lend_size(in, "x"), *y = lend_size(in, "y");
    lend_note();
    uint32_t refused =
        netbuff_cut(layout->sides.wide, layout->sides.high, layout->kinds, layout->kinds_length,
                    layout->hf_mul, layout->hf_mul_length, call.index, call.kinds, call.kinds_length,
                    call.hf_mul, call.hf_mul_length, out_bw, out_bh, x, y);
    lend_check();
    answered((struct answer){refused, *x, *y}, (struct answer){cut_due(&call), 0, 0});
    if (refused == 0) {
        promise(*out_bw == call.sides.wide && *out_bh == call.sides.high, "sides of the group");
        check_window(&call);
        return;
    }
    stays(out_bw, 0);
    stays(out_bh, 0);
    stays(call.kinds, 0);
    stays(call.hf_mul, 0);
}
