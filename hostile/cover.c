#include "cover.h"

#include "netbuff.h"
#include "promise.h"

#include <inttypes.h>
#include <signal.h>
#include <stdio.h>
#include <stdlib.h>
#include <string.h>
#include <sys/mman.h>
#include <ucontext.h>

enum { PLACES_MOST = 1 << 16, PAGE = 4096, TRAP = 0xCC };

/* Each instruction of the archive: where it is, its first byte, its address in the program's file. */
static struct {
    uint8_t *at, byte;
    uint64_t address;
    bool run;
} places[PLACES_MOST];

static size_t count, run;

void (*on_instruction)(size_t number);

#if defined(__linux__) && defined(__x86_64__)

static size_t find(const uint8_t *at)
{
    size_t first = 0, last = count;
    while (first < last) {
        size_t middle = (first + last) / 2;
        if (places[middle].at < at)
            first = middle + 1;
        else
            last = middle;
    }
    return first;
}

static void trapped(int signal, siginfo_t *info, void *given)
{
    (void)signal;
    (void)info;
    greg_t *registers = ((ucontext_t *)given)->uc_mcontext.gregs;
    uint8_t *at = (uint8_t *)(uintptr_t)registers[REG_RIP] - 1;
    size_t place = find(at);
    if (place == count || places[place].at != at)
        abort();
    *at = places[place].byte;
    places[place].run = true;
    run++;
    registers[REG_RIP]--;
    if (on_instruction != NULL)
        on_instruction(place);
}

/* Reads addresses, in ascending order; the first line is that of netbuff_transform in the file. */
static void read_places(const char *name)
{
    FILE *file = fopen(name, "r");
    uint64_t known, address;
    if (file == NULL || fscanf(file, "%" SCNx64, &known) != 1)
        give_up("the places cannot be read");
    while (fscanf(file, "%" SCNx64, &address) == 1) {
        if (count == PLACES_MOST)
            give_up("too many places");
        places[count].address = address;
        places[count++].at = (uint8_t *)((uintptr_t)netbuff_transform + (uintptr_t)(address - known));
    }
    fclose(file);
}

void cover_start(const char *name)
{
    struct sigaction action = {.sa_sigaction = trapped, .sa_flags = SA_SIGINFO};
    sigaction(SIGTRAP, &action, NULL);
    read_places(name);
    for (size_t place = 0; place < count; place++) {
        uintptr_t page = (uintptr_t)places[place].at / PAGE * PAGE;
        if (mprotect((void *)page, PAGE, PROT_READ | PROT_WRITE | PROT_EXEC) != 0)
            give_up("code cannot be written");
        places[place].byte = *places[place].at;
        *places[place].at = TRAP;
    }
}

#else

void cover_start(const char *name)
{
    (void)name;
    give_up("instructions are counted on Linux on x86-64 only");
}

#endif

void cover_print(bool missed)
{
    printf("instructions of the archive: %zu of %zu run\n", run, count);
    for (size_t place = 0; missed && place < count; place++)
        if (!places[place].run)
            printf("not run: %" PRIx64 "\n", places[place].address);
}
