/*
 * How much stack each call needs: it is made on a stack of its own that was painted before, and
 * what has lost its paint is counted. Ends with 1 where a call needs more than netbuff.h says.
 */
#include "netbuff_structs.h"

#include <stdio.h>
#include <stdlib.h>
#include <string.h>
#include <sys/mman.h>
#include <ucontext.h>

enum { STACK = 1 << 18, PAINT = 0xA5, COLUMNS = 1 << 16 };

/* ---- What the calls are made with: large inputs, accepted, and the same ones cut short ---- */

static uint16_t stores[2][NETBUFF_STORE_LENGTH];
static int32_t types[COLUMNS], muls[COLUMNS], sharpness[COLUMNS], hf_mul[COLUMNS], lf[1024];
static uint8_t kinds[COLUMNS], group_kinds[1024], cluster_map[495 * 15], log_bytes[192 * 1024];
static int32_t group_hf_mul[1024], grids[3][64 * 1024];
static float sigma[COLUMNS];
static uint32_t symbols[1 << 18];
static struct netbuff_contexts contexts;
static const uint8_t ones[8] = {255, 255, 255, 255, 255, 255, 255, 255}, zeros[8];
static const struct netbuff_filter filter = {true, 0.5f, {1, 1, 1, 1, 1, 1, 1, 1}, 32768};
static size_t cut_short; /* what is taken away from a length */
static struct netbuff_refusal answer;

static void call_nothing(void)
{
}

static void call_transform(void)
{
    struct netbuff_transform_info info;
    for (uint32_t number = 0; number < 28; number++)
        answer = netbuff_find_transform(number, &info);
}

static void call_reads(void)
{
    static const struct netbuff_u32_choice choices[4] = {{1, 2}, {3, 4}, {5, 6}, {7, 32}};
    struct netbuff_bytes bytes = {ones, 8 - cut_short};
    struct netbuff_bit_place place = {0, 3};
    uint32_t value;
    answer = netbuff_take_bits(&bytes, &place, 32, &value);
    answer = netbuff_take_u32(&bytes, &place, choices, &value);
    (void)netbuff_unpack_signed(value);
}

static void call_column_count(void)
{
    struct netbuff_bytes bytes = {ones, 2 - cut_short};
    struct netbuff_lf_group group = {2048, 2048, {0, 0, 0}};
    struct netbuff_column_total total;
    answer = netbuff_count_columns(&bytes, &group, &total);
}

static void call_layout(void)
{
    struct netbuff_layout_input in = {
        {2048, 2048, {0, 0, 0}}, {types, muls, COLUMNS - cut_short}, {sharpness, COLUMNS}, filter};
    struct netbuff_layout_output out = {{0, 0, kinds, hf_mul, COLUMNS}, sigma, COLUMNS, 0};
    answer = netbuff_read_layout(&in, &out);
}

static void call_cut(void)
{
    struct netbuff_blocks layout = {256, 256, kinds, hf_mul, COLUMNS};
    struct netbuff_blocks group = {0, 0, group_kinds, group_hf_mul, 1024 - cut_short};
    answer = netbuff_cut_group(&layout, 5, &group);
}

static void call_alike(void)
{
    struct netbuff_layout_output layout = {
        {256, 256, kinds, hf_mul, COLUMNS}, sigma, COLUMNS - cut_short, 0};
    bool alike;
    answer = netbuff_layouts_alike(&layout, &layout, &alike);
}

static void call_contexts(void)
{
    static const uint8_t thresholds[8] = {0x22, 0x11, 0x55, 0x33, 0xff, 0, 0, 0};
    static const uint8_t map[39 * 64];
    struct netbuff_context_map lent = {2, map, 0};
    static struct netbuff_contexts record;
    size_t read;
    for (size_t length = 0; length <= sizeof map; length += 39) {
        struct netbuff_bytes bytes = {thresholds, 8 - cut_short};
        lent.length = length;
        answer = netbuff_read_contexts(&bytes, &lent, &record, &read);
    }
    struct netbuff_bytes bytes = {ones, 1 - cut_short};
    answer = netbuff_read_contexts(&bytes, &lent, &record, &read);
}

static void call_orders(void)
{
    struct netbuff_bytes bytes = {ones, 8};
    struct netbuff_symbols digits = {symbols, 39 - cut_short};
    struct netbuff_order_store store = {stores[1], NETBUFF_STORE_LENGTH};
    size_t read;
    memset(symbols, 0, sizeof symbols);
    answer = netbuff_read_orders(&bytes, &digits, &store, &read);
}

static void call_permuted_orders(void)
{
    struct netbuff_bytes bytes = {ones, 8};
    struct netbuff_symbols digits = {symbols, sizeof symbols / sizeof symbols[0] - cut_short};
    struct netbuff_order_store store = {stores[1], NETBUFF_STORE_LENGTH};
    size_t read;
    for (size_t k = 0; k < digits.length; k++)
        symbols[k] = (uint32_t)(20 + k % 21);
    answer = netbuff_read_orders(&bytes, &digits, &store, &read);
}

static void call_store(void)
{
    struct netbuff_order_store store = {stores[0], NETBUFF_STORE_LENGTH - cut_short};
    (void)netbuff_find_order(&store, 12, 2);
    (void)netbuff_store_fits(&store);
}

static struct netbuff_coefficients_input in = {{32, 32, group_kinds, group_hf_mul, 1024},
                                               &contexts,
                                               {{lf, 1024}, {lf, 1024}, {lf, 1024}},
                                               {stores[0], NETBUFF_STORE_LENGTH},
                                               {1, cluster_map, sizeof cluster_map},
                                               1,
                                               {zeros, 0},
                                               {symbols, 192 * 1024}};
static struct netbuff_coefficients_output out = {
    {{grids[0], 64 * 1024}, {grids[1], 64 * 1024}, {grids[2], 64 * 1024}},
    log_bytes,
    sizeof log_bytes,
    0};

static void call_coefficients(void)
{
    in.symbols.length = 192 * 1024 - cut_short;
    for (size_t k = 0; k < 192 * 1024; k++)
        symbols[k] = k % 64 == 0 ? 63 : 5;
    answer = netbuff_read_coefficients(&in, &out);
}

static void call_spoilt_coefficients(void)
{
    uint16_t kept = stores[0][3];
    stores[0][3] = 99;
    call_coefficients();
    stores[0][3] = kept;
}

static void call_coefficient_context(void)
{
    struct netbuff_situation situation = {(uint32_t)(1024 - cut_short), 64512, 0, 1};
    uint32_t context;
    answer = netbuff_situation_context(&situation, &context);
}

/* ---- The measure ---- */

static ucontext_t here, there;

static size_t stack_of(void (*call)(void))
{
    uint8_t *stack = mmap(NULL, STACK, PROT_READ | PROT_WRITE, MAP_PRIVATE | MAP_ANONYMOUS, -1, 0);
    if (stack == MAP_FAILED || getcontext(&there) != 0)
        exit(2);
    memset(stack, PAINT, STACK);
    there.uc_stack.ss_sp = stack;
    there.uc_stack.ss_size = STACK;
    there.uc_link = &here;
    makecontext(&there, call, 0);
    if (swapcontext(&here, &there) != 0)
        exit(2);
    size_t untouched = 0;
    while (untouched < STACK && stack[untouched] == PAINT)
        untouched++;
    munmap(stack, STACK);
    return STACK - untouched;
}

static void prepare(void)
{
    const uint8_t none = 2;
    struct netbuff_bytes bytes = {&none, 1};
    struct netbuff_symbols no_symbols = {NULL, 0};
    struct netbuff_order_store store = {stores[0], NETBUFF_STORE_LENGTH};
    struct netbuff_context_map no_map = {0, NULL, 0};
    size_t read;
    cut_short = 0;
    answer = netbuff_read_orders(&bytes, &no_symbols, &store, &read);
    bytes.data = ones;
    answer = netbuff_read_contexts(&bytes, &no_map, &contexts, &read);
    call_layout();
    call_cut();
}

int main(void)
{
    static const struct {
        const char *name;
        void (*call)(void);
        uint32_t number, short_number; /* what the last call answers, and cut short */
    } calls[] = {
        {"transform", call_transform, 5, 5},
        {"reads of bits", call_reads, 3, 3},
        {"column count", call_column_count, 0, 3},
        {"layout", call_layout, 0, 4},
        {"cut", call_cut, 0, 1},
        {"likeness", call_alike, 0, 1},
        {"contexts", call_contexts, 0, 3},
        {"orders", call_orders, 0, 15},
        {"orders, permuted", call_permuted_orders, 0, 0},
        {"store", call_store, 0, 0},
        {"coefficients", call_coefficients, 0, 15},
        {"coefficients, a stored place", call_spoilt_coefficients, 13, 13},
        {"coefficient context", call_coefficient_context, 0, 11},
    };
    size_t most = 0;
    size_t without = stack_of(call_nothing);
    for (size_t k = 0; k < sizeof calls / sizeof calls[0]; k++)
        for (size_t less = 0; less < 2; less++) {
            prepare();
            cut_short = less;
            answer.number = 0;
            size_t bytes = stack_of(calls[k].call) - without;
            uint32_t due = less == 0 ? calls[k].number : calls[k].short_number;
            printf("%-30s %5zu bytes, answer %u\n", calls[k].name, bytes, (unsigned)answer.number);
            if (answer.number != due || bytes > NETBUFF_STACK_BYTES) {
                fprintf(stderr, "stack: %s: due are %u and at most %d bytes\n", calls[k].name,
                        (unsigned)due, NETBUFF_STACK_BYTES);
                return 1;
            }
            most = bytes > most ? bytes : most;
        }
    printf("stack: %zu bytes at most, %d allowed\n", most, NETBUFF_STACK_BYTES);
    return 0;
}
