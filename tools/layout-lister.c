/*
 * The layout lister as a command, with what the proved program does not have: options, file names,
 * messages and an exit status. The listing itself is the proved program's,
 * crates/layout_lister: its object is linked in as it is, and the linker's --wrap leads its start,
 * its reads, with the place in the input, and its writes through here.
 *
 *   cc -o layout-lister tools/layout-lister.c target/obj/layout_lister.o \
 *      -Wl,--wrap=main,--wrap=read,--wrap=lseek,--wrap=write KIT/c/libos_c.a KIT/c/liblibc_c.a
 */
#include <errno.h>
#include <fcntl.h>
#include <getopt.h>
#include <signal.h>
#include <stdbool.h>
#include <stdio.h>
#include <string.h>
#include <unistd.h>

enum { LISTED = 0, NOT_LISTED = 1, FAILED = 2 };

static const char help[] =
    "Usage: layout-lister [FILE]..\n"
    "Lists the block layout of the job in each FILE, or on standard input.\n"
    "\n"
    "A job, little-endian: 10 width height (hexadecimal byte, 16-bit pixels), a record 11 type mul\n"
    "(32-bit) for each column, 00. It takes 512 pixels each way and 4,096 columns. What follows a\n"
    "job is not read. The FILE - is standard input.\n"
    "\n"
    "Prints the grid in blocks, x, y, type and hf_mul of each varblock, and the total area; or one\n"
    "line, 'refused' with number, x and y, or 'bad input'.\n"
    "\n"
    "  -h, --help     these words\n"
    "  -V, --version  the version\n"
    "\n"
    "Ends with 0 when every job was listed, 1 when one was refused or bad input, 2 when something\n"
    "could not be read or written or an argument is wrong.\n";

/* Of the proved program: its start, and what the linker calls read and write of the C library. */
int __real_main(void);
ssize_t __real_read(int file, void *bytes, size_t length);
off_t __real_lseek(int file, off_t by, int from);
ssize_t __real_write(int file, const void *bytes, size_t length);

/* The job that is being listed. */
static int input;
static int read_error, write_error;
static bool listed;

/* A read of the proved program: from the job's file; a failure is kept, and ends its input. */
ssize_t __wrap_read(int file, void *bytes, size_t length)
{
    (void)file;
    ssize_t got;
    do
        got = __real_read(input, bytes, length);
    while (got < 0 && errno == EINTR);
    if (got < 0)
        read_error = errno;
    return got;
}

/* Where the proved program stands in its input, or goes to: in the job's file. */
off_t __wrap_lseek(int file, off_t by, int from)
{
    (void)file;
    return __real_lseek(input, by, from);
}

/*
 * A write of the proved program, all of it: nothing where the input could not be read, and nothing of
 * what it says of a failure, which is told here. Its start sets SIGPIPE aside; a reader that closes
 * its pipe ends this command, as usual.
 */
ssize_t __wrap_write(int file, const void *bytes, size_t length)
{
    if (file != STDOUT_FILENO)
        return (ssize_t)length;
    signal(SIGPIPE, SIG_DFL);
    listed = length > 6 && memcmp(bytes, "blocks", 6) == 0;
    for (size_t done = 0; done < length && read_error == 0;) {
        ssize_t moved = __real_write(file, (const char *)bytes + done, length - done);
        if (moved > 0) {
            done += (size_t)moved;
        } else if (moved == 0 || errno != EINTR) {
            write_error = moved == 0 ? EIO : errno;
            return -1;
        }
    }
    return (ssize_t)length;
}

static int fail(const char *what, int error)
{
    fprintf(stderr, "layout-lister: %s: %s\n", what, strerror(error));
    return FAILED;
}

/* Lists the job that can be read from a descriptor. */
static int list(int file, const char *name)
{
    input = file;
    read_error = write_error = 0;
    listed = false;
    __real_main();
    if (read_error != 0)
        return fail(name, read_error);
    if (write_error != 0)
        return fail("standard output", write_error);
    return listed ? LISTED : NOT_LISTED;
}

static int list_named(const char *name)
{
    if (strcmp(name, "-") == 0)
        return list(STDIN_FILENO, "standard input");
    int file = open(name, O_RDONLY | O_CLOEXEC);
    if (file < 0)
        return fail(name, errno);
    int status = list(file, name);
    close(file);
    return status;
}

static int say(const char *words)
{
    bool said = fputs(words, stdout) >= 0;
    said &= fflush(stdout) == 0;
    return said ? LISTED : fail("standard output", errno);
}

int __wrap_main(int count, char **words)
{
    static const struct option options[] = {{"help", no_argument, NULL, 'h'},
                                            {"version", no_argument, NULL, 'V'},
                                            {NULL, 0, NULL, 0}};
    int option = getopt_long(count, words, "hV", options, NULL);
    if (option == 'h')
        return say(help);
    if (option == 'V')
        return say("layout-lister (Netbuff) " NETBUFF_VERSION "\n");
    if (option != -1) {
        fputs("Try 'layout-lister --help'.\n", stderr);
        return FAILED;
    }
    int status = optind == count ? list_named("-") : LISTED;
    for (; optind < count && write_error == 0; optind++) {
        int one = list_named(words[optind]);
        status = one > status ? one : status;
    }
    return status;
}
