/*
 * The hostile host under libFuzzer. Its coverage is of three kinds: branches of the host itself (it is
 * instrumented), the kind of each answer (call, number, size of the position), and, where HOSTILE_PLACES
 * names what hostile/places wrote, each instruction of the archive the first time that it is run.
 */
#include "cover.h"
#include "host.h"

#include <stdlib.h>

enum { SIZE_CLASSES = 66, INSTRUCTIONS_MOST = 1 << 14 };

/* libFuzzer looks at this section after each input. */
__attribute__((
    section("__libfuzzer_extra_counters"))) static uint8_t answers[CALLS * REFUSALS * SIZE_CLASSES];
__attribute__((section("__libfuzzer_extra_counters"))) static uint8_t instructions[INSTRUCTIONS_MOST];

static void count_answer(enum call call, struct answer answer)
{
    size_t class = 0;
    for (size_t x = answer.x; x > 0; x /= 2)
        class ++;
    answers[(call * REFUSALS + answer.number) * SIZE_CLASSES + class] = 1;
}

static void count_instruction(size_t number)
{
    instructions[number % INSTRUCTIONS_MOST] = 1;
}

static void print_end(void)
{
    print_counts();
    if (getenv("HOSTILE_PLACES") != NULL)
        cover_print(false);
}

int LLVMFuzzerInitialize(int *count, char ***words);
int LLVMFuzzerTestOneInput(const uint8_t *bytes, size_t length);

int LLVMFuzzerInitialize(int *count, char ***words)
{
    (void)count;
    (void)words;
    lend_prepare(false);
    host_prepare();
    on_answer = count_answer;
    on_instruction = count_instruction;
    if (getenv("HOSTILE_PLACES") != NULL)
        cover_start(getenv("HOSTILE_PLACES"));
    atexit(print_end);
    return 0;
}

int LLVMFuzzerTestOneInput(const uint8_t *bytes, size_t length)
{
    host(bytes, length, "of the fuzzer");
    return 0;
}
