/* The context call. */
#include "host.h"

#include "netbuff.h"

#include <string.h>

static const uint32_t lf_choices[8] = {0, 4, 16, 8, 272, 16, 65808, 32};
static const uint32_t qf_choices[8] = {0, 2, 4, 3, 12, 5, 44, 8};

/* Bits to be lent, lowest first within each byte. */
struct bits {
    uint8_t bytes[512];
    size_t count;
};

static void put(struct bits *bits, uint32_t value, uint32_t n)
{
    for (uint32_t bit = 0; bit < n; bit++, bits->count++)
        bits->bytes[bits->count / 8] |= (uint8_t)((value >> bit & 1) << bits->count % 8);
}

/* Bits of a record: lists whose lengths are mostly small. Returns the map's length. */
static size_t write_record(struct input *in, struct bits *bits)
{
    static const uint32_t most[4] = {1, 2, 4, 16};
    uint32_t lengths[4];
    put(bits, 0, 1);
    for (int list = 0; list < 4; list++) {
        lengths[list] = take_below(in, most[take_below(in, 4)]);
        put(bits, lengths[list], 4);
        for (uint32_t k = 0; k < lengths[list]; k++) {
            uint32_t selector = take_below(in, 4);
            put(bits, selector, 2);
            put(bits, (uint32_t)next_spread(&in->spread),
                (list < 3 ? lf_choices : qf_choices)[2 * selector + 1]);
        }
    }
    size_t bsize = bsize_of(lengths);
    return MAP_SETS * (bsize <= 64 ? bsize : 1);
}

/* The record where the first bit is 1: 15 clusters, this map, no thresholds. */
static const uint8_t default_map[MAP_SETS] = {
    0,  1,  2,  2,  3,  3,  4, 5, 6, 6, 6,  6,  6,  7,  8,  9,  9,  10, 11, 12,
    13, 14, 14, 14, 14, 14, 7, 8, 9, 9, 10, 11, 12, 13, 14, 14, 14, 14, 14,
};

/* The answer that is due, and the record and the bits read of an accepted call. */
struct due {
    struct record record;
    struct answer answer;
    size_t bits;
};

static bool list_at(const uint8_t *bytes, size_t length, uint64_t *place, int list,
                    struct record *record)
{
    if (!bits_at(bytes, length, place, 4, &record->lengths[list]))
        return false;
    for (uint32_t k = 0; k < record->lengths[list]; k++) {
        uint32_t value;
        if (!u32_at(bytes, length, place, list < 3 ? lf_choices : qf_choices, &value))
            return false;
        if (list < 3)
            record->lf[LIST_MOST * list + k] = signed_of(value);
        else
            record->qf[k] = value + 1;
    }
    return true;
}

static uint32_t clusters_refused(struct record *record, uint32_t count, const uint8_t *map,
                                 size_t length)
{
    size_t bsize = bsize_of(record->lengths);
    if (bsize > MAP_MOST / MAP_SETS)
        return 12;
    if (length != MAP_SETS * bsize)
        return 1;
    if (count < 1 || count > 16)
        return 12;
    for (size_t k = 0; k < length; k++)
        if (map[k] >= count)
            return 12;
    record->count = count;
    memcpy(record->map, map, length);
    return 0;
}

static void default_clusters(struct record *record)
{
    record->count = 15;
    memcpy(record->map, default_map, sizeof default_map);
}

static void expect_record(const uint8_t *bytes, size_t length, uint32_t count, const uint8_t *map,
                          size_t map_length, struct due *due)
{
    uint32_t first = 0;
    uint64_t place = 0;
    memset(due, 0, sizeof *due);
    bool whole = bits_at(bytes, length, &place, 1, &first);
    for (int list = 0; list < 4 && whole && first == 0; list++)
        whole = list_at(bytes, length, &place, list, &due->record);
    if (!whole)
        due->answer = (struct answer){3, place, 0};
    else if (first == 0)
        due->answer.number = clusters_refused(&due->record, count, map, map_length);
    else
        default_clusters(&due->record);
    due->bits = place;
}

/* What a context call is lent for its record. */
struct outs {
    uint32_t *count, *lengths, *qf;
    int32_t *lf;
    uint8_t *map;
    size_t *bits, *x, *y;
};

static struct outs lend_outs(struct input *in)
{
    return (struct outs){
        lend_word(in, "num_block_clusters"),
        lend_spread(in, "lengths", 4, 4, WRITE),
        lend_spread(in, "qf_thresholds", LIST_MOST, 4, WRITE),
        lend_spread(in, "lf_thresholds", 3 * LIST_MOST, 4, WRITE),
        lend_spread(in, "block_ctx_map", MAP_MOST, 1, WRITE),
        lend_size(in, "bits_read"),
        lend_size(in, "x"),
        lend_size(in, "y"),
    };
}

/* A refusal hands back no record, and no bits read. */
static void check_kept(const struct outs *outs)
{
    stays(outs->bits, 0);
    stays(outs->lengths, 0);
    stays(outs->qf, 0);
    stays(outs->lf, 0);
    stays(outs->count, 0);
    stays(outs->map, 0);
}

static void check_record(const struct outs *outs, const struct due *due)
{
    const struct record *record = &due->record;
    promise(*outs->bits == due->bits, "%zu bits read where %zu are due", *outs->bits, due->bits);
    promise(memcmp(outs->lengths, record->lengths, sizeof record->lengths) == 0, "lengths");
    promise(memcmp(outs->qf, record->qf, sizeof record->qf) == 0, "qf_thresholds");
    promise(memcmp(outs->lf, record->lf, sizeof record->lf) == 0, "lf_thresholds");
    promise(*outs->count == record->count, "num_block_clusters");
    promise(memcmp(outs->map, record->map, sizeof record->map) == 0, "block_ctx_map");
}

/* The bytes of a call: any, or those of a record, at times cut short. */
static const uint8_t *take_bytes(struct input *in, size_t *length, size_t *map_wanted)
{
    *map_wanted = MAP_SETS;
    if (take_below(in, 4) == 3)
        return lend_bytes(in, length);
    struct bits bits = {{0}, 0};
    *map_wanted = write_record(in, &bits);
    size_t whole = (bits.count + 7) / 8;
    *length = take_once_in(in, 8) ? take_below(in, (uint32_t)whole + 1) : whole;
    return lend_copy(in, "bytes", bits.bytes, whole, *length, 1);
}

void host_block_context(struct input *in)
{
    static struct due due;
    size_t length, map_wanted;
    const uint8_t *bytes = take_bytes(in, &length, &map_wanted);
    uint32_t count = take_once_in(in, 8) ? take_any(in) : take_between(in, 1, 16);
    size_t map_length = take_length(in, map_wanted);
    uint8_t *map = lend_spread(in, "map", map_length, 1, READ);
    for (size_t k = 0; map_length < VAST && count > 0 && k < map_length; k++)
        map[k] = (uint8_t)(map[k] % (count < 256 ? count : 256));
    if (take_once_in(in, 8) && map_length > 0 && map_length < VAST)
        map[take_below(in, (uint32_t)map_length)] = take_byte(in);
    struct outs outs = lend_outs(in);
    lend_note();
    uint32_t refused =
        netbuff_block_context(bytes, length, count, map, map_length, outs.count, outs.lengths, outs.lf,
                              outs.qf, outs.map, outs.bits, outs.x, outs.y);
    lend_check();
    expect_record(bytes, length, count, map, map_length, &due);
    answered((struct answer){refused, *outs.x, *outs.y}, due.answer);
    if (refused != 0)
        check_kept(&outs);
    else
        check_record(&outs, &due);
}
