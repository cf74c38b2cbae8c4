/*
 * From the columns of a scan to its coefficients, by netbuff_structs.h: 16 x 16 pixels in three
 * varblocks. What a decoder would take from a file stands here as constants. Prints what it finds;
 * ends with 1 where a call refuses or something else than expected is found.
 *
 *     cc $(pkg-config --cflags netbuff) -o example example.c $(pkg-config --libs netbuff)
 */
#include "netbuff_structs.h"

#include <inttypes.h>
#include <stdio.h>
#include <stdlib.h>

enum { BLOCKS = 4, CELLS = 64 * BLOCKS, LOG = 192 * BLOCKS };

/* Ends the program where a call refused. */
static void accept(const char *call, struct netbuff_refusal no)
{
    if (no.number == NETBUFF_ACCEPTED)
        return;
    printf("%s: refused %" PRIu32 ", %s (%s: %zu, %zu)\n", call, no.number,
           netbuff_refusal_text(no.number), netbuff_position_text(no.number), no.x, no.y);
    exit(1);
}

static void expect(bool holds, const char *what)
{
    if (!holds) {
        printf("unexpected: %s\n", what);
        exit(1);
    }
}

/* 1. How many columns: two bits that say 2, and 1 more. */
static size_t count_columns(const struct netbuff_lf_group *group)
{
    const uint8_t data[1] = {2};
    struct netbuff_bytes bytes = {data, sizeof data};
    struct netbuff_column_total total = {0, 0};
    accept("column count", netbuff_count_columns(&bytes, group, &total));
    printf("columns: %" PRIu32 ", %zu bits read\n", total.count, total.bits_read);
    return total.count;
}

/* 2. The layout: one Dct16x8 and two Dct8, filter off. */
static void read_layout(const struct netbuff_lf_group *group, size_t columns,
                        struct netbuff_blocks *layout)
{
    const int32_t types[3] = {NETBUFF_DCT16X8, NETBUFF_DCT8, NETBUFF_DCT8};
    const int32_t muls[3] = {4, 0, 2};
    const int32_t sharpness[BLOCKS] = {0};
    float sigma[BLOCKS];
    struct netbuff_filter off = NETBUFF_FILTER_OFF;
    struct netbuff_layout_input input = {
        .group = *group,
        .columns = {.types = types, .muls = muls, .length = columns},
        .sharpness = {sharpness, BLOCKS},
        .filter = off,
    };
    struct netbuff_layout_output output = {
        .blocks = *layout, .sigma = sigma, .sigma_length = BLOCKS};

    input.columns.length = 2; /* one too few: what a refusal looks like */
    struct netbuff_refusal no = netbuff_read_layout(&input, &output);
    printf("layout of two columns: refused %" PRIu32 " %zu %zu (%s)\n", no.number, no.x, no.y,
           netbuff_refusal_text(no.number));
    expect(no.number == NETBUFF_REFUSED_COLUMNS_END && no.x == 1 && no.y == 1, "refusal");

    input.columns.length = columns;
    accept("layout", netbuff_read_layout(&input, &output));
    *layout = output.blocks;
    for (size_t block = 0; block < layout->length; block++)
        if (netbuff_is_corner(layout, block))
            printf("varblock at %zu %zu: type %" PRIu32 ", hf_mul %" PRId32 "\n",
                   block % layout->bw, block / layout->bw, netbuff_type_at(layout, block),
                   layout->hf_mul[block]);
}

/* 3. A pass group: here there is only one, the whole layout. */
static void cut_group(const struct netbuff_blocks *layout, struct netbuff_blocks *group)
{
    group->length = netbuff_blocks_of_group(layout, 0);
    accept("cut", netbuff_cut_group(layout, 0, group));
    printf("group 0: %zu x %zu blocks\n", group->bw, group->bh);
}

/* 4. The contexts: a first bit of 1 says default. */
static void read_contexts(struct netbuff_contexts *contexts)
{
    const uint8_t data[1] = {1};
    struct netbuff_bytes bytes = {data, sizeof data};
    struct netbuff_context_map none = {0, NULL, 0};
    size_t bits_read = 0;
    accept("contexts", netbuff_read_contexts(&bytes, &none, contexts, &bits_read));
    printf("contexts: %" PRIu32 " clusters, %zu bits read\n", contexts->num_block_clusters,
           bits_read);
}

/* 5. The orders: a selector of 2 says that none is permuted. */
static void read_orders(struct netbuff_order_store *store)
{
    const uint8_t data[1] = {2};
    struct netbuff_bytes bytes = {data, sizeof data};
    struct netbuff_symbols none = {NULL, 0};
    size_t symbols_read = 0;
    accept("orders", netbuff_read_orders(&bytes, &none, store, &symbols_read));
    struct netbuff_order_list order = netbuff_find_order(store, 0, NETBUFF_CHANNEL_Y);
    printf("orders: natural 8 x 8 has %zu places, starts (%d,%d) (%d,%d) (%d,%d)\n", order.places,
           order.data[0], order.data[1], order.data[2], order.data[3], order.data[4],
           order.data[5]);
}

/* 6. The coefficients: one in channel 1 of the first varblock, none elsewhere. */
static void read_coefficients(const struct netbuff_blocks *group,
                              const struct netbuff_contexts *contexts,
                              const struct netbuff_order_store *orders)
{
    static const uint8_t cluster_map[495 * 15];
    static int32_t cells[3][CELLS];
    static uint8_t log[LOG];
    /* Nine counts (three varblocks, channels 1, 0, 2), of which the first is 1; then it has its
     * coefficient, 3, which is packed and stands for -2. */
    const uint32_t symbols[10] = {1, 3, 0, 0, 0, 0, 0, 0, 0, 0};

    struct netbuff_coefficients_input input = {
        .group = *group,
        .contexts = contexts,
        .orders = *orders,
        .presets = {.count = 1, /* so the preset number has no bits */
                    .cluster_map = cluster_map,
                    .cluster_map_length =
                        netbuff_cluster_map_length(contexts->num_block_clusters, 1)},
        .symbols = {symbols, 10},
    };
    struct netbuff_coefficients_output output = {
        .grids = {{cells[0], CELLS}, {cells[1], CELLS}, {cells[2], CELLS}},
        .log = log,
        .log_length = LOG,
    };
    accept("coefficients", netbuff_read_coefficients(&input, &output));
    size_t row = NETBUFF_BLOCK_SIDE * group->bw;
    int32_t found = cells[NETBUFF_CHANNEL_Y][0 * row + 1];
    printf("coefficients: %zu symbols read, channel 1 at (1,0) holds %" PRId32 "\n",
           output.symbols_read, found);
    expect(output.symbols_read == 10 && found == -2, "coefficients");
}

int main(void)
{
    const struct netbuff_lf_group lf_group = {16, 16, {0, 0, 0}};
    uint8_t kinds[BLOCKS], group_kinds[BLOCKS];
    int32_t hf_mul[BLOCKS], group_hf_mul[BLOCKS];
    struct netbuff_blocks layout = {0, 0, kinds, hf_mul, netbuff_blocks_of(&lf_group)};
    struct netbuff_blocks group = {0, 0, group_kinds, group_hf_mul, 0};
    static struct netbuff_contexts contexts;
    struct netbuff_order_store orders = {NULL, NETBUFF_STORE_LENGTH};

    expect(netbuff_version() == NETBUFF_VERSION, "header and library of one version");
    orders.data = calloc(orders.length, sizeof *orders.data);
    expect(orders.data != NULL, "memory");

    size_t columns = count_columns(&lf_group);
    read_layout(&lf_group, columns, &layout);
    cut_group(&layout, &group);
    read_contexts(&contexts);
    read_orders(&orders);
    read_coefficients(&group, &contexts, &orders);
    free(orders.data);
    return 0;
}
