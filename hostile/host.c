#include "host.h"

#include <string.h>

static void (*const hosts[CALLS])(struct input *in) = {
    [TRANSFORM] = host_transform,
    [READ_BITS] = host_read_bits,
    [READ_U32] = host_read_u32,
    [UNPACK_SIGNED] = host_unpack_signed,
    [COLUMN_COUNT] = host_column_count,
    [LAYOUT] = host_layout,
    [CUT] = host_cut,
    [ALIKE] = host_alike,
    [BLOCK_CONTEXT] = host_block_context,
    [ORDERS] = host_orders,
    [ORDER] = host_order,
    [PLACES_FIT] = host_places_fit,
    [COEFFICIENT_CONTEXT] = host_coefficient_context,
    [COEFFICIENTS] = host_coefficients,
};

/* The calls with more to go wrong come more often. */
static const enum call turns[] = {
    TRANSFORM,
    READ_BITS,
    READ_U32,
    UNPACK_SIGNED,
    COLUMN_COUNT,
    COLUMN_COUNT,
    LAYOUT,
    LAYOUT,
    LAYOUT,
    LAYOUT,
    CUT,
    CUT,
    ALIKE,
    ALIKE,
    BLOCK_CONTEXT,
    BLOCK_CONTEXT,
    ORDERS,
    ORDER,
    PLACES_FIT,
    COEFFICIENT_CONTEXT,
    COEFFICIENT_CONTEXT,
    COEFFICIENTS,
    COEFFICIENTS,
    COEFFICIENTS,
    COEFFICIENTS,
};

void host_prepare(void)
{
    prepare_natural();
    prepare_stores();
}

void host(const uint8_t *bytes, size_t length, const char *origin)
{
    promise_input(bytes, length, origin);
    if (length == 0)
        return;
    enum call call = turns[bytes[0] % (sizeof turns / sizeof turns[0])];
    struct input in = input_of(bytes + 1, length - 1);
    promise_about(call);
    lend_start();
    hosts[call](&in);
}

static bool spread_high(struct input *in)
{
    return spread_below(in, 2) == 1;
}

void *lend_spread(struct input *in, const char *name, size_t count, size_t size, enum use use)
{
    void *list = lend(name, count, size, use, spread_high(in));
    if (count < VAST)
        spread_bytes(in, list, count * size);
    return list;
}

void *lend_copy(struct input *in, const char *name, const void *list, size_t count, size_t length,
                size_t size)
{
    uint8_t *lent = lend(name, length, size, READ, spread_high(in));
    if (length >= VAST)
        return lent;
    size_t copied = count < length ? count : length;
    memcpy(lent, list, copied * size);
    memset(lent + copied * size, 0, (length - copied) * size);
    return lent;
}

size_t *lend_size(struct input *in, const char *name)
{
    return lend_spread(in, name, 1, sizeof(size_t), WRITE);
}

uint32_t *lend_word(struct input *in, const char *name)
{
    return lend_spread(in, name, 1, sizeof(uint32_t), WRITE);
}

bool *lend_bool(struct input *in, const char *name)
{
    return lend_spread(in, name, 1, sizeof(bool), WRITE);
}

bool written_bool(const bool *place)
{
    uint8_t byte;
    memcpy(&byte, place, 1);
    promise(byte <= 1, "a bool is 0 or 1, not %d", byte);
    return byte == 1;
}

const uint8_t *lend_bytes(struct input *in, size_t *length)
{
    enum { BYTES_MOST = 96 };
    *length = take_below(in, BYTES_MOST);
    if (*length == BYTES_MOST - 1 && lend_vast()) {
        *length = VAST + take_byte(in);
        return lend("bytes", *length, 1, READ, false);
    }
    uint8_t *bytes = lend_spread(in, "bytes", *length, 1, READ);
    for (size_t byte = 0; byte < *length && in->left > 0; byte++)
        bytes[byte] = take_byte(in);
    return bytes;
}
