/* Bytes taken apart into numbers. Behind the last byte there are only zeros. */
#ifndef INPUT_H
#define INPUT_H

#include <stdbool.h>
#include <stddef.h>
#include <stdint.h>

struct input {
    const uint8_t *next;
    size_t left;
    /* Whether lengths of this call may be wrong. */
    bool wrong_lengths;
    /* Numbers for whole lists are spread from here. */
    uint64_t spread;
};

struct input input_of(const uint8_t *bytes, size_t length);

uint8_t take_byte(struct input *in);
uint32_t take_word(struct input *in);

/* A number below n, which is not 0; a byte is taken for it, or four where n is above 256. */
uint32_t take_below(struct input *in, uint32_t n);
uint32_t take_between(struct input *in, uint32_t first, uint32_t last);

/* Yes once in n times. */
bool take_once_in(struct input *in, uint32_t n);

/* A word of any size class, the edges of 32 bits among them. */
uint32_t take_any(struct input *in);

/* A length for a list that wants so many elements: mostly as wanted; else none, too few, too many. */
size_t take_length(struct input *in, size_t wanted);

/* The next number of a generator that depends on its state alone (splitmix64). */
uint64_t next_spread(uint64_t *state);
uint32_t spread_below(struct input *in, uint32_t n);
void spread_bytes(struct input *in, void *list, size_t bytes);

#endif
