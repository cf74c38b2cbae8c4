/* What the header promises, call by call; a promise that is broken ends the program. */
#ifndef PROMISE_H
#define PROMISE_H

#include "netbuff.h"

#include <stdbool.h>
#include <stddef.h>
#include <stdint.h>
#include <stdnoreturn.h>

enum call {
    TRANSFORM,
    READ_BITS,
    READ_U32,
    UNPACK_SIGNED,
    COLUMN_COUNT,
    LAYOUT,
    CUT,
    ALIKE,
    BLOCK_CONTEXT,
    ORDERS,
    ORDER,
    PLACES_FIT,
    COEFFICIENT_CONTEXT,
    COEFFICIENTS,
    CALLS
};

/* Answers by number: 0 (accepted) and the refusals. */
enum { REFUSALS = NETBUFF_REFUSALS_END };

/* A refusal's number (0: accepted) and position. */
struct answer {
    uint32_t number;
    size_t x, y;
};

/* The call that promises are now about, and what is told beside a broken one. */
void promise_about(enum call call);
void promise_input(const uint8_t *bytes, size_t length, const char *origin);

/* Ends the program with one line unless it holds. */
__attribute__((format(printf, 2, 3))) void promise(bool holds, const char *what, ...);

/* Ends the program on a fault of the host itself. */
noreturn void give_up(const char *what);

/* Has the signals of a forbidden access tell the call and the list. */
void promise_catch_faults(void);

/* The expected answer is the one that came; counted by call and number. */
void answered(struct answer answer, struct answer expected);

/* The answer is one of the call's, its position is one that goes with it; counted likewise. */
void answered_any(struct answer answer);

/* An answer that has no number: counted as accepted. */
void answered_plainly(void);

/* Counts of answers, one line. */
void print_counts(void);

/* The answers so far, by call and number. */
extern uint64_t answer_counts[CALLS][REFUSALS];

/* What a coverage-guided run is told of an answer; set by it. */
extern void (*on_answer)(enum call call, struct answer answer);

#endif
