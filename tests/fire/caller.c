/* Makes the calls of zobukwami_check for the program fire, and shares nine memories with it: the trace, the report and
   the pieces of room. Its words are the descriptors of these. On standard output it says first how many they are, so
   that one knows it runs. A request on standard input says of each memory how many bytes it has, which of them is the
   first one lent, and the length that the call is told; then whether the pages are closed. The answer on standard
   output is what the call returned. All are numbers of eight bytes.

   Each memory lies between pages that may never be touched. The trace may only be read, and where the pages are closed
   nothing may be done with any of it. So a fault ends this program by a signal, as does a call that does not come to an
   end. It ends by itself where the input does. */
#define _DEFAULT_SOURCE

#include <zobukwami.h>

#include <errno.h>
#include <stdbool.h>
#include <stdio.h>
#include <stdlib.h>
#include <string.h>
#include <sys/mman.h>
#include <sys/resource.h>
#include <unistd.h>

/* Far longer than any call takes, be it under an emulator. */
#ifndef SECONDS
#define SECONDS 300
#endif

enum { DONE = 0, FAILED = 2 };

/* In the order of the call. */
enum { TRACE, REPORT, HEADS, LINKS, EVENTS, PROCEDURES, SETS, STARTS, JOINS, MEMORIES };

/* What lies on either side of a memory: whole pages, also of an emulator's host, whose pages may be larger than those
   that this program is told of. */
enum { PROTECTED_BYTES = 65536 };

/* Stands for the place of the first byte where NULL is lent. */
#define NULL_IS_LENT UINT64_MAX

static struct {
    struct {
        uint64_t bytes;
        uint64_t first;
        uint64_t length;
    } memories[MEMORIES];
    uint64_t closed;
} request;

/* The memories as they are mapped. */
static struct {
    int file;
    uint8_t *first; /* NULL before the first call */
    size_t bytes;
    int rights;
} mapped[MEMORIES];

static void stop(const char *what, const char *why)
{
    fprintf(stderr, "caller: %s: %s\n", what, why);
    exit(FAILED);
}

static void stop_unless(bool done, const char *what)
{
    if (!done)
        stop(what, strerror(errno));
}

static void set_files(int count, char **words)
{
    if (count != 1 + MEMORIES)
        stop("wrong use", "it takes the descriptors of nine memories");
    for (int memory = TRACE; memory < MEMORIES; memory++)
        mapped[memory].file = atoi(words[1 + memory]);
}

/* A fault is shown by who asked for the call, and no core need stay of it. */
static void leave_no_core(void)
{
    const struct rlimit none = {0, 0};
    stop_unless(setrlimit(RLIMIT_CORE, &none) == 0, "setrlimit");
}

/* False where the input ends instead. */
static bool take_request(void)
{
    for (size_t taken = 0; taken < sizeof request;) {
        const ssize_t more = read(STDIN_FILENO, (uint8_t *)&request + taken, sizeof request - taken);
        if (more == 0 && taken == 0)
            return false;
        if (more == 0)
            stop("standard input", "a request is cut short");
        stop_unless(more > 0 || errno == EINTR, "standard input");
        taken += more > 0 ? (size_t)more : 0;
    }
    return true;
}

static void give(const uint64_t *numbers, size_t bytes)
{
    for (size_t given = 0; given < bytes;) {
        const ssize_t more = write(STDOUT_FILENO, (const uint8_t *)numbers + given, bytes - given);
        stop_unless(more >= 0 || errno == EINTR, "standard output");
        given += more > 0 ? (size_t)more : 0;
    }
}

static void give_ready(void)
{
    const uint64_t memories = MEMORIES;
    give(&memories, sizeof memories);
}

static void give_answer(const zobukwami_answer *answer)
{
    const uint64_t numbers[] = {answer->code,  answer->events, answer->offset,
                                answer->races, answer->visits, answer->most};
    give(numbers, sizeof numbers);
}

/* Maps the memory anew where the number of its bytes has changed. Nothing may be done with it yet. */
static void map(int memory, size_t bytes)
{
    uint8_t *first = mapped[memory].first;
    if (first != NULL && mapped[memory].bytes == bytes)
        return;
    if (first != NULL)
        stop_unless(munmap(first - PROTECTED_BYTES, mapped[memory].bytes + 2 * PROTECTED_BYTES) == 0, "munmap");
    void *all = mmap(NULL, bytes + 2 * PROTECTED_BYTES, PROT_NONE, MAP_PRIVATE | MAP_ANONYMOUS, -1, 0);
    stop_unless(all != MAP_FAILED, "mmap");
    first = (uint8_t *)all + PROTECTED_BYTES;
    if (bytes > 0) {
        void *placed = mmap(first, bytes, PROT_NONE, MAP_SHARED | MAP_FIXED, mapped[memory].file, 0);
        stop_unless(placed == first, "mmap");
    }
    mapped[memory].first = first;
    mapped[memory].bytes = bytes;
    mapped[memory].rights = PROT_NONE;
}

static void allow(int memory, int rights)
{
    if (mapped[memory].bytes > 0 && mapped[memory].rights != rights)
        stop_unless(mprotect(mapped[memory].first, mapped[memory].bytes, rights) == 0, "mprotect");
    mapped[memory].rights = rights;
}

static void lay_out(void)
{
    for (int memory = TRACE; memory < MEMORIES; memory++) {
        map(memory, request.memories[memory].bytes);
        if (request.closed)
            allow(memory, PROT_NONE);
        else
            allow(memory, memory == TRACE ? PROT_READ : PROT_READ | PROT_WRITE);
    }
}

static void *lent(int memory)
{
    const uint64_t first = request.memories[memory].first;
    return first == NULL_IS_LENT ? NULL : mapped[memory].first + first;
}

static size_t length(int memory)
{
    return request.memories[memory].length;
}

static zobukwami_answer call(void)
{
    return zobukwami_check(
        lent(TRACE), length(TRACE),
        lent(REPORT), length(REPORT),
        lent(HEADS), length(HEADS),
        lent(LINKS), length(LINKS),
        lent(EVENTS), length(EVENTS),
        lent(PROCEDURES), length(PROCEDURES),
        lent(SETS), length(SETS),
        lent(STARTS), length(STARTS),
        lent(JOINS), length(JOINS));
}

int main(int count, char **words)
{
    set_files(count, words);
    leave_no_core();
    give_ready();
    while (take_request()) {
        lay_out();
        alarm(SECONDS);
        const zobukwami_answer answer = call();
        alarm(0);
        give_answer(&answer);
    }
    return DONE;
}
