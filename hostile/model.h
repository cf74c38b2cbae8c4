/* What the header says, computed in the plainest way, to hold answers against. */
#ifndef MODEL_H
#define MODEL_H

#include <stdbool.h>
#include <stddef.h>
#include <stdint.h>

enum {
    TRANSFORMS = 27,
    ORDERS_COUNT = 13,
    GROUP_SIDE = 32,
    LAYOUT_SIDE_MOST = 256,
    PIXELS_MOST = 2048,
    LIST_MOST = 15,
    MAP_SETS = 39,
    MAP_MOST = 2496,
    ENTRIES_PER_CLUSTER = 495,
    STORE_NUMBERS = 787968
};

/* Sides in blocks, or in cells; in blocks either may be 0, and then there are none. */
struct sides {
    size_t wide, high;
};

/* Width and height of the transforms in blocks, and of the orders in cells. */
extern const struct sides transform_sides[TRANSFORMS];
extern const struct sides order_sides[ORDERS_COUNT];

/* The order of each transform, and whether x and y of its places are swapped. */
extern const size_t transform_order[TRANSFORMS];
bool transform_turns(uint32_t transform);

/* Sides in blocks of an LF group whose pixels and modes are within limits. */
struct sides lf_group_sides(uint32_t width, uint32_t height, const uint32_t modes[3]);
bool pixels_fit(uint32_t width, uint32_t height);
bool modes_fit(const uint32_t modes[3]);

/* The exponent of the least power of two not below n. */
uint32_t exponent_of(uint32_t n);

/* Reads n bits, 0 to 32, at *place, which moves behind them; false where the bits end. */
bool bits_at(const uint8_t *bytes, size_t length, uint64_t *place, uint32_t n, uint32_t *value);

/* Reads a U32 with its four choices; where the field is missing, *place is behind the selector. */
bool u32_at(const uint8_t *bytes, size_t length, uint64_t *place, const uint32_t choices[8],
            uint32_t *value);

int32_t signed_of(uint32_t u);

/* Whether kinds and hf_mul of a grid are a layout (refusal 18). */
bool is_layout(struct sides sides, const uint8_t *kinds, const int32_t *hf_mul);

/* Whether two layouts of the same sides have the same corners, transform numbers and hf_mul. */
bool same_varblocks(struct sides sides, const uint8_t *kinds, const int32_t *hf_mul,
                    const uint8_t *kinds2, const int32_t *hf_mul2);

/* Where the list of an order and channel begins in a store; its numbers. */
size_t list_start(size_t order, size_t channel);
size_t list_length(size_t order);

bool places_inside(const uint16_t *store);

/* The natural order's list, x and y of each place; the lists are made once. */
void prepare_natural(void);
const uint16_t *natural_list(size_t order);

/* A context record. */
struct record {
    uint32_t count, lengths[4], qf[LIST_MOST];
    int32_t lf[3 * LIST_MOST];
    uint8_t map[MAP_MOST];
};

/* The product of the four lengths, each plus 1; no length is above 15. */
size_t bsize_of(const uint32_t lengths[4]);
bool is_fit(const struct record *record);

#endif
