/* The coefficient call: what is lent to it, and what its answer is held to. */
#ifndef COEFFICIENTS_H
#define COEFFICIENTS_H

#include "host.h"

enum { PRESETS_MOST = 256, SHIFT_MOST = 3 };

/* What is lent to a coefficient call. */
struct group_call {
    struct sides sides;
    uint8_t *kinds;
    int32_t *hf_mul;
    size_t kinds_length, hf_mul_length;
    struct record *record;
    uint32_t *lengths, *qf;
    int32_t *lf_thresholds;
    uint8_t *map;
    bool lf_there;
    int32_t *lf[3];
    size_t lf_length[3];
    const uint16_t *store;
    size_t store_length;
    uint32_t presets, shift;
    uint8_t *cluster_map;
    size_t cluster_map_length;
    const uint8_t *bytes;
    size_t bytes_length;
    const uint32_t *symbols;
    size_t symbols_length;
    uint8_t *log;
    size_t log_length;
    int32_t *grids[3];
    size_t grid_length[3];
    size_t *read, *x, *y;
};

/* Promises about a call that was answered with this number. */
void check_coefficients(const struct group_call *call, uint32_t refused);

#endif
