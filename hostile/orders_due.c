/* The order call: symbols taken apart into permutations, and the store that is due. */
#include "orders.h"

#include <string.h>

/* Symbols being read. */
struct reading {
    const uint32_t *symbols;
    size_t length, read;
    struct answer answer;
};

/* One symbol that is not above `most`: else 13, or 15 where symbols end. */
static bool read_symbol(struct reading *reading, size_t most, size_t *symbol)
{
    if (reading->read == reading->length) {
        reading->answer = (struct answer){15, reading->read, 0};
        return false;
    }
    *symbol = reading->symbols[reading->read++];
    if (*symbol > most)
        reading->answer = (struct answer){13, reading->read, 0};
    return *symbol <= most;
}

size_t free_of(size_t order)
{
    size_t size = order_sides[order].wide * order_sides[order].high;
    return size - size / 64;
}

/* The numbers of an order in the turn that the symbols choose: the fixed ones, then for each digit
 * that one of the ascending rest, then what is left of it. */
static bool permute(struct reading *reading, size_t order, uint16_t *numbers)
{
    static uint16_t rest[ORDER_PLACES_MOST];
    size_t left = free_of(order), fixed = left / 63, digits, digit;
    for (size_t number = 0; number < fixed; number++)
        *numbers++ = (uint16_t)number;
    for (size_t k = 0; k < left; k++)
        rest[k] = (uint16_t)(fixed + k);
    if (!read_symbol(reading, left, &digits))
        return false;
    for (; digits > 0; digits--) {
        if (!read_symbol(reading, left - 1, &digit))
            return false;
        *numbers++ = rest[digit];
        left--;
        memmove(rest + digit, rest + digit + 1, (left - digit) * sizeof rest[0]);
    }
    memcpy(numbers, rest, left * sizeof rest[0]);
    return true;
}

/* The places of the natural order in the turn of these numbers. */
static void store_list(size_t order, const uint16_t *numbers, uint16_t *list)
{
    const uint16_t *natural = natural_list(order);
    for (size_t place = 0; place < list_length(order) / 2; place++)
        memcpy(list + 2 * place, natural + 2 * (size_t)numbers[place], 2 * sizeof list[0]);
}

struct answer expect_orders(uint32_t used, const uint32_t *symbols, size_t length, size_t *read,
                            uint16_t *store)
{
    static uint16_t numbers[ORDER_PLACES_MOST];
    struct reading reading = {symbols, length, 0, {0, 0, 0}};
    for (size_t list = 0; list < 3 * ORDERS_COUNT; list++) {
        size_t order = list / 3;
        uint16_t *at = store + list_start(order, list % 3);
        if ((used >> order & 1) == 0)
            memcpy(at, natural_list(order), list_length(order) * sizeof at[0]);
        else if (permute(&reading, order, numbers))
            store_list(order, numbers, at);
        else
            break;
    }
    *read = reading.answer.number == 0 ? reading.read : 0;
    return reading.answer;
}
