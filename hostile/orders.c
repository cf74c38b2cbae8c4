/* The order call, the look-up of an order, and the check of stored places. */
#include "orders.h"

#include "netbuff.h"

#include <string.h>

enum { SYMBOLS_MOST = 8192, DIGITS_MOST = 64, LONG_MOST = 4096 };

const uint16_t *natural_store;
const uint16_t *permuted_store;

/* A store of these orders, kept; it is the model's, so that no call decides what is lent. */
static const uint16_t *store_of(uint32_t used, const uint32_t *symbols, size_t length)
{
    static uint16_t store[NETBUFF_STORE_LENGTH];
    size_t read;
    if (expect_orders(used, symbols, length, &read, store).number != 0 || read != length)
        give_up("orders of the host are refused");
    return keep(store, sizeof store);
}

void prepare_stores(void)
{
    static const uint8_t none[1] = {0};
    static uint32_t symbols[ORDERS_COUNT * 3 * 9];
    struct input in = input_of(none, sizeof none);
    size_t length = 0;
    for (size_t list = 0; list < 3 * ORDERS_COUNT; list++) {
        symbols[length++] = 8;
        for (int digit = 0; digit < 8; digit++)
            symbols[length++] = spread_below(&in, 50);
    }
    natural_store = store_of(0, symbols, 0);
    permuted_store = store_of((1 << ORDERS_COUNT) - 1, symbols, length);
}

/* Which orders the bytes say to be used; false where the bits end. */
static bool used_orders(const uint8_t *bytes, size_t length, uint64_t *place, uint32_t *used)
{
    static const uint32_t choices[8] = {95, 0, 19, 0, 0, 0, 0, 13};
    return u32_at(bytes, length, place, choices, used);
}

/* The number of the symbol that is to be refused: none, the first, or a later one. */
static size_t take_refused(struct input *in)
{
    if (!take_once_in(in, 16))
        return SIZE_MAX;
    return take_once_in(in, 2) ? take_below(in, DIGITS_MOST) : 0;
}

/* Symbols for the used orders: lengths and digits that fit, few for each list, at times many for one;
 * at times one symbol is the least that is too large. */
static size_t write_symbols(struct input *in, uint32_t used, uint32_t *symbols)
{
    size_t count = 0, longest = take_below(in, 4 * 3 * ORDERS_COUNT);
    size_t refused = take_refused(in);
    uint32_t most = 1 + take_below(in, DIGITS_MOST);
    for (size_t list = 0; list < 3 * ORDERS_COUNT; list++) {
        uint32_t room = (uint32_t)free_of(list / 3);
        if ((used >> list / 3 & 1) == 0)
            continue;
        uint32_t digits = spread_below(in, most);
        if (room < DIGITS_MOST && spread_below(in, 4) == 0)
            digits = room;
        if (list == longest)
            digits = room < LONG_MOST ? room : spread_below(in, LONG_MOST);
        symbols[count] = count == refused ? room + 1 : digits;
        count++;
        for (uint32_t digit = 0; digit < digits; digit++, count++)
            symbols[count] = count == refused ? room - digit : spread_below(in, room - digit);
    }
    return count;
}

/* The symbols of a call: those of the used orders, at times with a wrong one, cut short, or more. */
static const uint32_t *take_symbols(struct input *in, uint32_t used, size_t *length)
{
    static uint32_t symbols[SYMBOLS_MOST];
    size_t count = write_symbols(in, used, symbols);
    uint32_t fault = take_below(in, 8);
    if (fault == 7 && count > 0)
        symbols[take_below(in, (uint32_t)count)] = take_any(in);
    *length = count + (fault == 6 ? take_below(in, 3) : 0);
    if (fault == 5)
        *length = take_below(in, (uint32_t)count + 1);
    if (fault == 4 && lend_vast())
        *length = VAST + take_byte(in);
    return lend_copy(in, "symbols", symbols, count, *length, sizeof symbols[0]);
}

/* The store is the one that is due, place by place. */
static void check_store(const uint16_t *store, const uint16_t *due)
{
    if (memcmp(store, due, NETBUFF_STORE_LENGTH * sizeof *store) == 0)
        return;
    for (size_t number = 0; number < NETBUFF_STORE_LENGTH; number++)
        promise(store[number] == due[number], "number %zu of the store is %d where %d is due", number,
                store[number], due[number]);
}

void host_orders(struct input *in)
{
    static uint16_t due_store[NETBUFF_STORE_LENGTH];
    size_t length, symbols_length, due_read = 0;
    const uint8_t *bytes = lend_bytes(in, &length);
    uint64_t place = 0;
    uint32_t used = 0;
    bool whole = used_orders(bytes, length, &place, &used);
    const uint32_t *symbols = take_symbols(in, used, &symbols_length);
    size_t store_length = take_length(in, NETBUFF_STORE_LENGTH);
    uint16_t *store = lend_spread(in, "store", store_length, sizeof *store, WRITE);
    size_t *read = lend_size(in, "symbols_read"), *x = lend_size(in, "x"), *y = lend_size(in, "y");
    lend_note();
    uint32_t refused =
        netbuff_orders(bytes, length, symbols, symbols_length, store, store_length, read, x, y);
    lend_check();
    struct answer due = {0, 0, 0};
    if (store_length != NETBUFF_STORE_LENGTH)
        due.number = 1;
    else if (!whole)
        due = (struct answer){3, place, 0};
    else
        due = expect_orders(used, symbols, symbols_length, &due_read, due_store);
    answered((struct answer){refused, *x, *y}, due);
    if (due.number == 0) {
        promise(*read == due_read, "%zu symbols read where %zu are due", *read, due_read);
        check_store(store, due_store);
        return;
    }
    stays(read, 0);
    if (due.number == 13 || due.number == 15)
        is_cleared(store);
    else
        stays(store, 0);
}

void host_order(struct input *in)
{
    size_t order = take_below(in, 16), channel = take_below(in, 4);
    if (take_once_in(in, 8))
        *(take_below(in, 2) == 0 ? &order : &channel) = SIZE_MAX - take_any(in);
    size_t store_length = take_length(in, NETBUFF_STORE_LENGTH);
    const uint16_t *store = natural_store;
    if (store_length != NETBUFF_STORE_LENGTH)
        store = lend_copy(in, "store", store, NETBUFF_STORE_LENGTH, store_length, sizeof *store);
    size_t *first = lend_size(in, "first"), *count = lend_size(in, "count");
    lend_note();
    netbuff_order(store, store_length, order, channel, first, count);
    lend_check();
    answered_plainly();
    bool known = order < ORDERS_COUNT && channel < 3 && store_length == NETBUFF_STORE_LENGTH;
    promise(*count == (known ? list_length(order) : 0), "%zu numbers", *count);
    promise(*first == (known ? list_start(order, channel) : 0), "first number %zu", *first);
}

void host_places_fit(struct input *in)
{
    static const uint16_t numbers[8] = {0, 7, 8, 16, 255, 256, 0x8000, 0xffff};
    size_t store_length = take_length(in, NETBUFF_STORE_LENGTH);
    const uint16_t *kept = take_below(in, 2) == 0 ? natural_store : permuted_store;
    uint16_t *store = lend_copy(in, "store", kept, NETBUFF_STORE_LENGTH, store_length, sizeof *store);
    bool whole = store_length == NETBUFF_STORE_LENGTH;
    for (uint32_t times = whole ? take_below(in, 3) : 0; times > 0; times--)
        store[take_below(in, NETBUFF_STORE_LENGTH)] = numbers[take_below(in, 8)];
    lend_note();
    bool fit = netbuff_places_fit(store, store_length);
    lend_check();
    answered_plainly();
    promise(fit == (whole && places_inside(store)), "places fit: %d", fit);
}
