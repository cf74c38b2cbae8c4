/* The order call, as it is due. */
#ifndef ORDERS_H
#define ORDERS_H

#include "host.h"

enum { ORDER_PLACES_MOST = 256 * 256 };

/* How many numbers of an order are free to be permuted. */
size_t free_of(size_t order);

/* The answer that is due once the used orders are known, the symbols read, and the store of an accepted
 * call. */
struct answer expect_orders(uint32_t used, const uint32_t *symbols, size_t length, size_t *read,
                            uint16_t *store);

#endif
