/* A hostile host for Netbuff's calls. What it can do stands in `help`. */
#include "cover.h"
#include "host.h"

#include <errno.h>
#include <getopt.h>
#include <inttypes.h>
#include <math.h>
#include <stdio.h>
#include <stdlib.h>
#include <string.h>
#include <time.h>

enum { INPUT_MOST = 256, FILE_MOST = 1 << 20 };

static const char help[] =
    "usage: hostile [OPTION].. FILE..\n"
    "       hostile [OPTION].. --seed S (--count N | --seconds T | --only K)\n"
    "\n"
    "Takes bytes apart into one call of Netbuff each and holds its answer, its results and all "
    "that\n"
    "was lent against a model. Ends with one line of answers by call and number; or with 1 and a\n"
    "broken promise and its input; or with 2 where the words are wrong or a file cannot be read.\n"
    "\n"
    "  FILE..           the bytes of each file\n"
    "  --seed S         inputs of this seed,\n"
    "  --count N        numbers 0 to N - 1 of them, or\n"
    "  --seconds T      as many as fit into so long, or\n"
    "  --only K         number K alone\n"
    "  --heap           lends from the heap, for valgrind\n"
    "  --cover PLACES   counts the instructions of the archive that were run; PLACES is what\n"
    "                   hostile/places writes\n"
    "  --missed         lists the instructions that were not run (with --cover)\n"
    "  --help           prints this\n";

struct options {
    bool heap, missed;
    const char *cover;
    uint64_t seed, first, count;
    double seconds;
    bool generated;
    int files; /* the first of them among the words */
};

static _Noreturn void refuse_words(const char *why, const char *word)
{
    fprintf(stderr, "hostile: %s%s (--help tells what there is)\n", why, word);
    exit(2);
}

static uint64_t number_of(const char *name, const char *word)
{
    char *end;
    errno = 0;
    unsigned long long number = strtoull(word, &end, 10);
    if (word[0] < '0' || word[0] > '9' || *end != '\0' || errno != 0 || number == UINT64_MAX)
        refuse_words(name, word);
    return number;
}

static double seconds_of(const char *word)
{
    char *end;
    double seconds = strtod(word, &end);
    if (word[0] < '0' || word[0] > '9' || *end != '\0' || !isfinite(seconds) || seconds <= 0)
        refuse_words("--seconds is no time: ", word);
    return seconds;
}

static struct options read_options(int count, char **words)
{
    enum { HEAP = 1, MISSED, COVER, SEED, COUNT, SECONDS, ONLY, HELP };
    static const struct option known[] = {
        {"heap", no_argument, NULL, HEAP},
        {"missed", no_argument, NULL, MISSED},
        {"cover", required_argument, NULL, COVER},
        {"seed", required_argument, NULL, SEED},
        {"count", required_argument, NULL, COUNT},
        {"seconds", required_argument, NULL, SECONDS},
        {"only", required_argument, NULL, ONLY},
        {"help", no_argument, NULL, HELP},
        {NULL, 0, NULL, 0},
    };
    struct options options = {.count = UINT64_MAX};
    int extents = 0, option;
    while ((option = getopt_long(count, words, "", known, NULL)) != -1) {
        extents += option == COUNT || option == SECONDS || option == ONLY;
        if (option == HEAP)
            options.heap = true;
        else if (option == MISSED)
            options.missed = true;
        else if (option == COVER)
            options.cover = optarg;
        else if (option == SEED) {
            options.generated = true;
            options.seed = number_of("--seed is no number: ", optarg);
        } else if (option == COUNT)
            options.count = number_of("--count is no number: ", optarg);
        else if (option == SECONDS)
            options.seconds = seconds_of(optarg);
        else if (option == ONLY) {
            options.first = number_of("--only is no number: ", optarg);
            options.count = options.first + 1;
        } else if (option == HELP) {
            fputs(help, stdout);
            exit(0);
        } else
            refuse_words("nothing done", "");
    }
    options.files = optind;
    bool files = optind < count;
    if (options.generated == files)
        refuse_words("either files or --seed", "");
    if (extents != (options.generated ? 1 : 0))
        refuse_words("--seed goes with one of --count, --seconds, --only, files with none", "");
    if (options.missed && options.cover == NULL)
        refuse_words("--missed goes with --cover", "");
    return options;
}

static double now(void)
{
    struct timespec time;
    clock_gettime(CLOCK_MONOTONIC, &time);
    return (double)time.tv_sec + (double)time.tv_nsec / 1e9;
}

/* The input with this number: mostly short, of any bytes. */
static void host_generated(uint64_t seed, uint64_t number)
{
    uint8_t bytes[INPUT_MOST];
    char origin[64];
    uint64_t state = seed;
    state = next_spread(&state) ^ number;
    struct input in = {NULL, 0, false, next_spread(&state)};
    size_t length = 16 + spread_below(&in, spread_below(&in, 2) == 0 ? 48 : INPUT_MOST - 15);
    spread_bytes(&in, bytes, length);
    snprintf(origin, sizeof origin, "--seed %" PRIu64 " --only %" PRIu64, seed, number);
    host(bytes, length, origin);
}

static void run_generated(const struct options *options)
{
    double start = now();
    for (uint64_t number = options->first; number < options->count; number++) {
        if (options->seconds > 0 && now() - start >= options->seconds)
            break;
        host_generated(options->seed, number);
    }
}

static FILE *open_file(const char *name)
{
    FILE *file = fopen(name, "rb");
    if (file == NULL) {
        perror(name);
        exit(2);
    }
    return file;
}

static void run_file(const char *name)
{
    static uint8_t bytes[FILE_MOST];
    FILE *file = open_file(name);
    size_t length = fread(bytes, 1, sizeof bytes, file);
    if (ferror(file) || fgetc(file) != EOF) {
        fprintf(stderr, "hostile: %s cannot be read, or has more than %d bytes\n", name, FILE_MOST);
        exit(2);
    }
    fclose(file);
    host(bytes, length, name);
}

int main(int count, char **words)
{
    struct options options = read_options(count, words);
    for (int file = options.files; file < count; file++)
        fclose(open_file(words[file]));
    promise_catch_faults();
    lend_prepare(options.heap);
    if (options.cover != NULL)
        cover_start(options.cover);
    host_prepare();
    if (options.generated)
        run_generated(&options);
    for (int file = options.files; file < count; file++)
        run_file(words[file]);
    print_counts();
    if (options.cover != NULL)
        cover_print(options.missed);
    return 0;
}
