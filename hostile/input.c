#include "input.h"

#include "lend.h"

#include <string.h>

struct input input_of(const uint8_t *bytes, size_t length)
{
    struct input in = {bytes, length, false, 0};
    in.spread = take_word(&in);
    in.wrong_lengths = take_once_in(&in, 4);
    return in;
}

uint8_t take_byte(struct input *in)
{
    if (in->left == 0)
        return 0;
    in->left--;
    return *in->next++;
}

uint32_t take_word(struct input *in)
{
    uint32_t word = 0;
    for (int byte = 0; byte < 4; byte++)
        word |= (uint32_t)take_byte(in) << 8 * byte;
    return word;
}

uint32_t take_below(struct input *in, uint32_t n)
{
    return (n <= 256 ? take_byte(in) : take_word(in)) % n;
}

uint32_t take_between(struct input *in, uint32_t first, uint32_t last)
{
    return first + take_below(in, last - first + 1);
}

bool take_once_in(struct input *in, uint32_t n)
{
    return take_below(in, n) == n - 1;
}

uint32_t take_any(struct input *in)
{
    static const uint32_t edges[8] = {0, 1, 27, 256, 0x7fffffff, 0x80000000, 0xfffffffe, 0xffffffff};
    uint8_t class = take_byte(in);
    if (class % 4 == 0)
        return edges[class / 4 % 8];
    return take_word(in) >> (class / 4 % 32);
}

size_t take_length(struct input *in, size_t wanted)
{
    if (!in->wrong_lengths || take_below(in, 4) != 3)
        return wanted;
    switch (take_below(in, 6)) {
    case 0:
        return 0;
    case 1:
        return wanted > 0 ? wanted - 1 : 1;
    case 2:
        return wanted / 2;
    case 3:
        return wanted <= 65536 ? 2 * wanted + 1 : wanted + 2;
    case 4:
        return lend_vast() && wanted < 65536 ? VAST + wanted : wanted + 1;
    default:
        return wanted + 1;
    }
}

uint64_t next_spread(uint64_t *state)
{
    *state += UINT64_C(0x9E3779B97F4A7C15);
    uint64_t z = *state;
    z = (z ^ (z >> 30)) * UINT64_C(0xBF58476D1CE4E5B9);
    z = (z ^ (z >> 27)) * UINT64_C(0x94D049BB133111EB);
    return z ^ (z >> 31);
}

uint32_t spread_below(struct input *in, uint32_t n)
{
    return (uint32_t)((next_spread(&in->spread) >> 32) * n >> 32);
}

void spread_bytes(struct input *in, void *list, size_t bytes)
{
    uint8_t *at = list;
    while (bytes > 0) {
        uint64_t number = next_spread(&in->spread);
        size_t part = bytes < sizeof number ? bytes : sizeof number;
        memcpy(at, &number, part);
        at += part;
        bytes -= part;
    }
}
