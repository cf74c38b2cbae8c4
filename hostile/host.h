/* The host: one call of each kind, its inputs taken from bytes, its answer held to its promises. */
#ifndef HOST_H
#define HOST_H

#include "input.h"
#include "lend.h"
#include "model.h"
#include "promise.h"

/* Builds what is made once; to be called after lend_prepare and before any call is hosted. */
void host_prepare(void);

/* Hosts the one call that the bytes say. */
void host(const uint8_t *bytes, size_t length, const char *origin);

/* One call each. */
void host_transform(struct input *in);
void host_read_bits(struct input *in);
void host_read_u32(struct input *in);
void host_unpack_signed(struct input *in);
void host_column_count(struct input *in);
void host_layout(struct input *in);
void host_cut(struct input *in);
void host_alike(struct input *in);
void host_block_context(struct input *in);
void host_orders(struct input *in);
void host_order(struct input *in);
void host_places_fit(struct input *in);
void host_coefficient_context(struct input *in);
void host_coefficients(struct input *in);

/* A list of spread bytes, lent. */
void *lend_spread(struct input *in, const char *name, size_t count, size_t size, enum use use);

/* A copy of a list, lent with another length if need be. */
void *lend_copy(struct input *in, const char *name, const void *list, size_t count, size_t length,
                size_t size);

/* Places for results, which hold anything before the call. */
size_t *lend_size(struct input *in, const char *name);
uint32_t *lend_word(struct input *in, const char *name);
bool *lend_bool(struct input *in, const char *name);

/* The bool that a call has written. */
bool written_bool(const bool *place);

/* Lists of bytes of any length: taken from the input, or none, or vast. */
const uint8_t *lend_bytes(struct input *in, size_t *length);

/* A filled grid: kinds, hf_mul, and the columns that fill it (type and mul of each). */
struct grid {
    struct sides sides;
    uint8_t kinds[LAYOUT_SIDE_MOST * LAYOUT_SIDE_MOST];
    int32_t hf_mul[LAYOUT_SIDE_MOST * LAYOUT_SIDE_MOST];
    int32_t types[LAYOUT_SIDE_MOST * LAYOUT_SIDE_MOST];
    int32_t muls[LAYOUT_SIDE_MOST * LAYOUT_SIDE_MOST];
    size_t columns;
};

void fill_grid(struct input *in, struct grid *grid, struct sides sides);

/* A grid that is one varblock. */
void fill_single(struct input *in, struct grid *grid, uint32_t transform);

/* Changes single cells, if there are any, so that most grids are no layout any more. */
void damage_grid(struct input *in, struct grid *grid);

/* Stores as order calls write them: the natural one, and one with permuted lists. */
extern const uint16_t *natural_store;
extern const uint16_t *permuted_store;

void prepare_stores(void);

#endif
