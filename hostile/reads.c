/* The calls that look up and read single numbers. */
#include "host.h"

#include "netbuff.h"

void host_transform(struct input *in)
{
    uint32_t number = take_once_in(in, 4) ? take_any(in) : take_below(in, 32);
    size_t *wide = lend_size(in, "wide"), *high = lend_size(in, "high");
    size_t *order = lend_size(in, "order"), *x = lend_size(in, "x"), *y = lend_size(in, "y");
    bool *turn = lend_bool(in, "turn");
    lend_note();
    uint32_t refused = netbuff_transform(number, wide, high, order, turn, x, y);
    lend_check();
    bool known = number < TRANSFORMS;
    answered((struct answer){refused, *x, *y}, (struct answer){known ? 0 : 5, 0, 0});
    if (!known) {
        stays(wide, 0);
        stays(high, 0);
        stays(order, 0);
        stays(turn, 0);
        return;
    }
    bool turns = written_bool(turn);
    struct sides sides = transform_sides[number];
    promise(*wide == sides.wide && *high == sides.high, "sides of transform %u", number);
    promise(*order == transform_order[number], "order %zu of transform %u", *order, number);
    promise(turns == transform_turns(number), "turn %d of transform %u", turns, number);
}

void host_unpack_signed(struct input *in)
{
    uint32_t u = take_any(in);
    int32_t found = netbuff_unpack_signed(u);
    answered_plainly();
    promise(found == signed_of(u), "%d is not the signed number of %u", found, u);
}

/* A place in or behind the bytes: whole bytes, and bits that mostly are below 8. */
struct place {
    size_t byte;
    uint32_t bit;
};

static struct place take_place(struct input *in, size_t length)
{
    struct place place = {0, take_below(in, 8)};
    if (take_once_in(in, 8))
        place.bit = take_any(in);
    switch (take_below(in, 8)) {
    case 7:
        place.byte = (size_t)take_any(in) << take_below(in, 33);
        break;
    case 6:
        place.byte = SIZE_MAX - take_byte(in);
        break;
    case 5:
        place.byte = length - (length > 4 ? 4 : length) + take_below(in, 6);
        break;
    default:
        place.byte = length < 256 ? take_below(in, (uint32_t)length + 2) : take_any(in);
    }
    return place;
}

/* What a read handed out. */
struct read {
    uint32_t refused, *value, *next_bit, *taken;
    size_t *next_byte;
};

static struct read lend_read(struct input *in)
{
    return (struct read){0, lend_word(in, "value"), lend_word(in, "next_bit"), lend_word(in, "taken"),
                         lend_size(in, "next_byte")};
}

/* The read gave this value and ended at this bit, or it ended after so many bits of its own. */
static void check_read(struct read read, bool whole, uint32_t value, uint64_t end, uint32_t taken)
{
    lend_check();
    answered((struct answer){read.refused, *read.taken, 0},
             (struct answer){whole ? 0 : 3, whole ? 0 : taken, 0});
    if (!whole) {
        stays(read.value, 0);
        stays(read.next_byte, 0);
        stays(read.next_bit, 0);
        return;
    }
    promise(*read.value == value, "value %u where %u is due", *read.value, value);
    promise(8 * (uint64_t)*read.next_byte + *read.next_bit == end, "the place behind the read");
}

/* The number of a place's bit, or a number behind all bits where the sum would not be exact. */
static uint64_t bit_of(struct place place, size_t length)
{
    if (place.byte > length)
        return 8 * (uint64_t)length + 1;
    return 8 * (uint64_t)place.byte + place.bit;
}

void host_read_bits(struct input *in)
{
    size_t length;
    const uint8_t *bytes = lend_bytes(in, &length);
    struct place place = take_place(in, length);
    uint32_t n = take_once_in(in, 8) ? take_any(in) : take_below(in, 33);
    struct read read = lend_read(in);
    lend_note();
    read.refused = netbuff_read_bits(bytes, length, place.byte, place.bit, n, read.value, read.next_byte,
                                     read.next_bit, read.taken);
    uint64_t end = bit_of(place, length);
    uint32_t value = 0;
    bool whole = bits_at(bytes, length, &end, n < 32 ? n : 32, &value);
    check_read(read, whole, value, end, 0);
}

void host_read_u32(struct input *in)
{
    size_t length;
    const uint8_t *bytes = lend_bytes(in, &length);
    struct place place = take_place(in, length);
    uint32_t *choices = lend("choices", 8, sizeof *choices, READ, true);
    for (int choice = 0; choice < 4; choice++) {
        choices[2 * choice] = take_any(in);
        choices[2 * choice + 1] = take_once_in(in, 8) ? take_any(in) : take_below(in, 33);
    }
    struct read read = lend_read(in);
    lend_note();
    read.refused = netbuff_read_u32(bytes, length, place.byte, place.bit, choices, read.value,
                                    read.next_byte, read.next_bit, read.taken);
    uint64_t start = bit_of(place, length), end = start;
    uint32_t value = 0;
    bool whole = u32_at(bytes, length, &end, choices, &value);
    check_read(read, whole, value, end, (uint32_t)(end - start));
}
