#include "promise.h"

#include "lend.h"

#include <inttypes.h>
#include <signal.h>
#include <stdarg.h>
#include <stdio.h>
#include <stdlib.h>
#include <string.h>
#include <unistd.h>

#define BIT(number) (UINT32_C(1) << (number))
#define BITS_4_TO_10 (BIT(4) | BIT(5) | BIT(6) | BIT(7) | BIT(8) | BIT(9) | BIT(10))
#define BITS_11_TO_18                                                                              \
    (BIT(11) | BIT(12) | BIT(13) | BIT(14) | BIT(15) | BIT(16) | BIT(17) | BIT(18))

/* Each call's name and the answers that the header gives it. */
#define ANSWERS(call)                                                                              \
    call(TRANSFORM, "transform", BIT(0) | BIT(5))                                                  \
    call(READ_BITS, "read_bits", BIT(0) | BIT(3))                                                  \
    call(READ_U32, "read_u32", BIT(0) | BIT(3))                                                    \
    call(UNPACK_SIGNED, "unpack_signed", BIT(0))                                                   \
    call(COLUMN_COUNT, "column_count", BIT(0) | BIT(2) | BIT(3) | BIT(11))                         \
    call(LAYOUT, "layout", BIT(0) | BIT(1) | BIT(2) | BIT(11) | BITS_4_TO_10)                      \
    call(CUT, "cut", BIT(0) | BIT(1) | BIT(2) | BIT(18))                                           \
    call(ALIKE, "alike", BIT(0) | BIT(1) | BIT(2) | BIT(11) | BIT(18))                             \
    call(BLOCK_CONTEXT, "block_context", BIT(0) | BIT(1) | BIT(3) | BIT(12))                       \
    call(ORDERS, "orders", BIT(0) | BIT(1) | BIT(3) | BIT(13) | BIT(15))                           \
    call(ORDER, "order", BIT(0))                                                                   \
    call(PLACES_FIT, "places_fit", BIT(0))                                                         \
    call(COEFFICIENT_CONTEXT, "coefficient_context", BIT(0) | BIT(11))                             \
    call(COEFFICIENTS, "coefficients", BIT(0) | BIT(1) | BIT(2) | BIT(3) | BITS_11_TO_18 | BIT(24))

static const struct {
    const char *name;
    uint32_t answers;
} about[CALLS] = {
#define ABOUT(call, name, answers) [call] = {name, answers},
    ANSWERS(ABOUT)
};

/* The calls give each refusal that the header names, and no other. */
#define NAMED(name, number, text, position) | BIT(number)
#define GIVEN(call, name, answers) | (answers)
_Static_assert(REFUSALS <= 32, "a call's answers are the bits of 32");
_Static_assert((BIT(0) NETBUFF_REFUSALS(NAMED)) == (0 ANSWERS(GIVEN)),
               "the header's refusals and those of hostile/promise.c are not the same");

uint64_t answer_counts[CALLS][REFUSALS];
void (*on_answer)(enum call call, struct answer answer);

static enum call current;
static const uint8_t *input;
static size_t input_length;
static const char *input_origin = "";

void promise_about(enum call call)
{
    current = call;
}

void promise_input(const uint8_t *bytes, size_t length, const char *origin)
{
    input = bytes;
    input_length = length;
    input_origin = origin;
}

static void print_input(void)
{
    fprintf(stderr, "hostile: input %s: ", input_origin);
    for (size_t byte = 0; byte < input_length; byte++)
        fprintf(stderr, "%02x", input[byte]);
    fprintf(stderr, "\n");
}

void promise(bool holds, const char *what, ...)
{
    if (holds)
        return;
    va_list list;
    va_start(list, what);
    fprintf(stderr, "hostile: broken promise of netbuff_%s: ", about[current].name);
    vfprintf(stderr, what, list);
    fprintf(stderr, "\n");
    va_end(list);
    print_input();
    abort();
}

void give_up(const char *what)
{
    fprintf(stderr, "hostile: the host itself is at fault: %s\n", what);
    print_input();
    exit(2);
}

/* The program ends here, so what a handler may not do in general does no harm. */
static void fault(int signal, siginfo_t *info, void *context)
{
    (void)context;
    const char *list = lent_near(info->si_addr);
    fprintf(stderr, "hostile: broken promise of netbuff_%s: signal %d, access outside %s\n",
            about[current].name, signal, list != NULL ? list : "all that was lent");
    print_input();
    _exit(1);
}

void promise_catch_faults(void)
{
    struct sigaction action = {.sa_sigaction = fault, .sa_flags = SA_SIGINFO};
    sigaction(SIGSEGV, &action, NULL);
    sigaction(SIGBUS, &action, NULL);
    sigaction(SIGILL, &action, NULL);
    sigaction(SIGFPE, &action, NULL);
}

void answered_any(struct answer answer)
{
    bool known = answer.number < REFUSALS && (about[current].answers & BIT(answer.number)) != 0;
    promise(known, "refusal %" PRIu32 " is none of its answers", answer.number);
    uint32_t number = answer.number;
    bool placed = number >= 4 && number <= 10 && current == LAYOUT;
    bool counted = number == 3 || (number >= 13 && number <= 17) || number == 24;
    promise(placed || answer.y == 0, "refusal %" PRIu32 " has y 0, not %zu", number, answer.y);
    promise(placed || counted || answer.x == 0, "refusal %" PRIu32 " has x 0, not %zu", number,
            answer.x);
    answer_counts[current][number]++;
    if (on_answer != NULL)
        on_answer(current, answer);
}

void answered(struct answer answer, struct answer expected)
{
    answered_any(answer);
    promise(answer.number == expected.number && answer.x == expected.x && answer.y == expected.y,
            "answer %" PRIu32 " %zu %zu where %" PRIu32 " %zu %zu is due", answer.number, answer.x,
            answer.y, expected.number, expected.x, expected.y);
}

void answered_plainly(void)
{
    answered_any((struct answer){0, 0, 0});
}

void print_counts(void)
{
    uint64_t total = 0;
    for (enum call call = 0; call < CALLS; call++) {
        printf("%s%s", call == 0 ? "" : "; ", about[call].name);
        for (uint32_t number = 0; number < REFUSALS; number++) {
            uint64_t count = answer_counts[call][number];
            if (count > 0)
                printf(" %" PRIu32 ":%" PRIu64, number, count);
            total += count;
        }
    }
    printf("; calls %" PRIu64 "\n", total);
}
