/* The coefficient call: taken from bytes, and made. */
#include "walk.h"

#include "netbuff.h"

enum { SYMBOLS_MOST = 200000 };

/* Sides of a group without blocks: one is 0, the other any, or by times the largest, or one more. */
static struct sides take_no_blocks(struct input *in)
{
    size_t side = take_below(in, GROUP_SIDE + 1);
    if (take_once_in(in, 6))
        side = GROUP_SIDE + take_below(in, 2);
    return take_below(in, 2) == 0 ? (struct sides){0, side} : (struct sides){side, 0};
}

static void take_group(struct input *in, struct group_call *call, struct grid *grid)
{
    uint8_t class = take_byte(in);
    uint32_t most = class >= 252 ? GROUP_SIDE : 5;
    if (class < 64)
        fill_single(in, grid, take_below(in, TRANSFORMS));
    else if (class < 112)
        fill_grid(in, grid, take_no_blocks(in));
    else
        fill_grid(in, grid, (struct sides){take_between(in, 1, most), take_between(in, 1, most)});
    if (take_once_in(in, 16))
        damage_grid(in, grid);
    size_t cells = grid->sides.wide * grid->sides.high;
    call->sides = grid->sides;
    call->kinds_length = take_length(in, cells);
    call->hf_mul_length = take_length(in, cells);
    call->kinds = lend_copy(in, "kinds", grid->kinds, cells, call->kinds_length, 1);
    call->hf_mul = lend_copy(in, "hf_mul", grid->hf_mul, cells, call->hf_mul_length, 4);
    if (take_once_in(in, 32))
        *(take_below(in, 2) == 0 ? &call->sides.wide : &call->sides.high) =
            take_below(in, 3) == 0 ? 33 : (size_t)take_any(in) << take_below(in, 33);
}

/* A record that is fit, its lists short. */
static void write_record(struct input *in, struct record *record)
{
    size_t room = 64;
    uint32_t most = take_once_in(in, 4) ? LIST_MOST + 1 : 4;
    record->count = take_between(in, 1, 16);
    for (int list = 0; list < 4; list++) {
        uint32_t length = take_below(in, most);
        record->lengths[list] = length < room ? length : 0;
        room /= record->lengths[list] + 1;
    }
    for (int k = 0; k < 3 * LIST_MOST; k++)
        record->lf[k] = (int32_t)spread_below(in, 9) - 4;
    for (int k = 0; k < LIST_MOST; k++)
        record->qf[k] = 1 + spread_below(in, 300);
    for (int k = 0; k < MAP_MOST; k++)
        record->map[k] = (uint8_t)spread_below(in, record->count);
}

static void damage_record(struct input *in, struct record *record)
{
    switch (take_below(in, 5)) {
    case 0:
        record->count = take_any(in);
        break;
    case 1:
        record->lengths[take_below(in, 4)] = take_any(in);
        break;
    case 2:
        record->lengths[take_below(in, 4)] = take_below(in, 18);
        break;
    case 3:
        record->qf[take_below(in, LIST_MOST)] = take_any(in);
        break;
    default:
        record->map[take_below(in, MAP_MOST)] = take_byte(in);
    }
}

static void take_record(struct input *in, struct group_call *call, struct record *record, size_t blocks)
{
    write_record(in, record);
    if (take_once_in(in, blocks == 0 ? 6 : 16))
        damage_record(in, record);
    call->record = record;
    call->lengths = lend_copy(in, "lengths", record->lengths, 4, 4, 4);
    call->qf = lend_copy(in, "qf_thresholds", record->qf, LIST_MOST, LIST_MOST, 4);
    call->lf_thresholds = lend_copy(in, "lf_thresholds", record->lf, 3 * LIST_MOST, 3 * LIST_MOST, 4);
    call->map = lend_copy(in, "block_ctx_map", record->map, MAP_MOST, MAP_MOST, 1);
}

static void take_lf(struct input *in, struct group_call *call, size_t blocks)
{
    static const char *const names[3] = {"lf0", "lf1", "lf2"};
    call->lf_there = take_below(in, 2) == 1;
    for (int channel = 0; channel < 3; channel++) {
        size_t wanted = call->lf_there ? blocks : take_below(in, 3);
        size_t length = take_length(in, wanted);
        call->lf_length[channel] = length;
        call->lf[channel] = lend_spread(in, names[channel], length, 4, READ);
        for (size_t k = 0; length < VAST && k < length; k++)
            if (call->lf[channel][k] % 4 != 0)
                call->lf[channel][k] %= 8;
    }
}

/* Mostly one of the kept stores; else one with a number changed, or of another length. */
static void take_store(struct input *in, struct group_call *call, size_t blocks)
{
    const uint16_t *kept = take_below(in, 2) == 0 ? natural_store : permuted_store;
    size_t wanted = NETBUFF_STORE_LENGTH;
    call->store = kept;
    call->store_length = take_length(in, wanted);
    bool change = take_once_in(in, blocks == 0 ? 4 : 64);
    if (call->store_length == wanted && !change)
        return;
    uint16_t *store = lend_copy(in, "store", kept, wanted, call->store_length, sizeof *store);
    call->store = store;
    if (change && call->store_length > 0)
        store[take_below(in, (uint32_t)call->store_length)] = (uint16_t)take_any(in);
}

/* Bytes whose first bits mostly are the number of a preset; by times there are none. */
static const uint8_t *take_preset(struct input *in, uint32_t presets, size_t blocks, size_t *length)
{
    if (take_once_in(in, 4))
        return lend_bytes(in, length);
    *length = take_once_in(in, blocks == 0 ? 3 : 16) ? 0 : 1 + take_below(in, 3);
    uint8_t *bytes = lend_spread(in, "bytes", *length, 1, READ);
    if (*length > 0)
        bytes[0] = (uint8_t)take_below(in, presets > 0 && presets <= PRESETS_MOST ? presets : 1);
    return bytes;
}

static void take_presets(struct input *in, struct group_call *call, size_t blocks)
{
    uint8_t class = take_byte(in);
    call->presets = class >= (blocks == 0 ? 224 : 244) ? 0 : take_between(in, 1, 5);
    if (class >= 248)
        call->presets = class >= 252 ? take_any(in) : take_below(in, PRESETS_MOST + 2);
    call->shift = take_once_in(in, 32) ? take_any(in) : take_below(in, SHIFT_MOST + 1);
    uint32_t count = call->record->count;
    bool fits = call->presets <= PRESETS_MOST && count <= 16;
    size_t wanted = fits ? (size_t)ENTRIES_PER_CLUSTER * count * call->presets : ENTRIES_PER_CLUSTER;
    call->cluster_map_length = take_length(in, wanted);
    call->cluster_map = lend_spread(in, "cluster_map", call->cluster_map_length, 1, READ);
    call->bytes = take_preset(in, call->presets, blocks, &call->bytes_length);
}

/* How symbols are made: how often a coefficient is other than 0, how large counts are for each block,
 * the count that is the least too large, the one that is not used up by its places, and whether they
 * end where no context is left. */
struct manner {
    uint32_t sparse, most, refused, remaining_in;
    bool ends_at_17;
};

/* A number other than 0, of any size. */
static uint32_t spread_filled(struct input *in)
{
    uint32_t number = (uint32_t)next_spread(&in->spread);
    number >>= spread_below(in, 32);
    return number > 0 ? number : 1;
}

/* The coefficients behind a count, of which at least so much remains; false where the symbols end
 * there. */
static bool write_places(struct input *in, struct manner manner, uint32_t blocks, uint32_t left,
                         uint32_t remaining, uint32_t *symbols, size_t *count)
{
    bool filled = left <= 4 * blocks;
    for (uint32_t place = 0; left > 0 && place < 63 * blocks; place++) {
        if (manner.ends_at_17 && coefficient_context(left, place, blocks, filled) >= COEFFICIENT_ENTRIES)
            return false;
        filled = left > remaining && spread_below(in, manner.sparse) == 0;
        symbols[(*count)++] = filled ? spread_filled(in) : 0;
        left -= filled;
    }
    return true;
}

/* Symbols for all channels of a group, or as far as there is room (the corners of a damaged group may
 * be more than its blocks), its counts mostly small. */
static size_t write_symbols(struct input *in, struct manner manner, const struct grid *grid,
                            uint32_t *symbols)
{
    size_t count = 0;
    uint32_t number = 0;
    for (size_t cell = 0; cell < grid->sides.wide * grid->sides.high; cell++) {
        uint8_t kind = grid->kinds[cell];
        if (kind < 2 || kind >= 2 + TRANSFORMS)
            continue;
        uint32_t blocks = (uint32_t)(transform_sides[kind - 2].wide * transform_sides[kind - 2].high);
        if (count + 192 * (size_t)blocks > SYMBOLS_MOST)
            break;
        for (int channel = 0; channel < 3; channel++, number++) {
            uint32_t remaining = number == manner.remaining_in;
            uint32_t left = spread_below(in, manner.most * blocks + 1 - remaining) + remaining;
            symbols[count++] = number == manner.refused ? 63 * blocks + 1 : left;
            if (!write_places(in, manner, blocks, left, remaining, symbols, &count))
                return count;
        }
    }
    return count;
}

static struct manner take_manner(struct input *in)
{
    struct manner manner;
    manner.sparse = 1 + take_below(in, 8);
    manner.most = take_once_in(in, 4) ? 63 : 4;
    manner.refused = manner.remaining_in = UINT32_MAX;
    if (take_once_in(in, 16))
        manner.refused = take_below(in, 8);
    if (take_once_in(in, 8))
        manner.remaining_in = take_below(in, 8);
    manner.ends_at_17 = take_once_in(in, 4);
    return manner;
}

static void take_symbols(struct input *in, struct group_call *call, const struct grid *grid)
{
    static uint32_t symbols[SYMBOLS_MOST];
    size_t count = write_symbols(in, take_manner(in), grid, symbols);
    uint32_t fault = take_below(in, 10);
    if (fault == 9 && count > 0)
        symbols[take_below(in, (uint32_t)count)] = take_any(in);
    if (count == 0) { /* without blocks none of these is read */
        count = take_below(in, 4);
        spread_bytes(in, symbols, count * sizeof symbols[0]);
    }
    call->symbols_length = count;
    if (fault == 8)
        call->symbols_length = take_below(in, (uint32_t)count + 1);
    if (fault == 7)
        call->symbols_length = count + take_below(in, 3);
    if (fault == 6 && take_once_in(in, 8) && lend_vast())
        call->symbols_length = VAST + take_byte(in);
    call->symbols = lend_copy(in, "symbols", symbols, count, call->symbols_length, 4);
}

static void take_buffers(struct input *in, struct group_call *call, size_t blocks)
{
    static const char *const names[3] = {"grid0", "grid1", "grid2"};
    for (int channel = 0; channel < 3; channel++) {
        call->grid_length[channel] = take_length(in, 64 * blocks);
        call->grids[channel] = lend_spread(in, names[channel], call->grid_length[channel], 4, WRITE);
    }
    call->log_length = take_length(in, blocks == 0 ? take_below(in, 4) : 192 * blocks);
    if (call->log_length >= VAST)
        call->log_length = 192 * blocks + take_byte(in);
    call->log = lend_spread(in, "log", call->log_length, 1, WRITE);
    call->read = lend_size(in, "symbols_read");
    call->x = lend_size(in, "x");
    call->y = lend_size(in, "y");
}

/* A group without blocks reads nothing but its preset, so what it is refused for is lent more often. */
void host_coefficients(struct input *in)
{
    static struct grid grid;
    static struct record record;
    struct group_call call;
    take_group(in, &call, &grid);
    size_t blocks = grid.sides.wide * grid.sides.high;
    take_record(in, &call, &record, blocks);
    take_lf(in, &call, blocks);
    take_store(in, &call, blocks);
    take_presets(in, &call, blocks);
    take_symbols(in, &call, &grid);
    take_buffers(in, &call, blocks);
    lend_note();
    uint32_t refused = netbuff_coefficients(
        call.sides.wide, call.sides.high, call.kinds, call.kinds_length, call.hf_mul, call.hf_mul_length,
        record.count, call.lengths, call.lf_thresholds, call.qf, call.map, call.lf_there, call.lf[0],
        call.lf_length[0], call.lf[1], call.lf_length[1], call.lf[2], call.lf_length[2], call.store,
        call.store_length, call.presets, call.cluster_map, call.cluster_map_length, call.shift,
        call.bytes, call.bytes_length, call.symbols, call.symbols_length, call.log, call.log_length,
        call.grids[0], call.grid_length[0], call.grids[1], call.grid_length[1], call.grids[2],
        call.grid_length[2], call.read, call.x, call.y);
    lend_check();
    check_coefficients(&call, refused);
}
