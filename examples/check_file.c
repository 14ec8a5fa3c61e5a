/* Checks the trace in a file, up to the longest that the library takes, and prints what racecheck prints, but every
   race there is. */
#define _POSIX_C_SOURCE 200809L

#include <errno.h>
#include <fcntl.h>
#include <inttypes.h>
#include <stdbool.h>
#include <stdio.h>
#include <stdlib.h>
#include <string.h>
#include <unistd.h>
#include <zobukwami.h>

enum { CLEAN = 0, NOT_CLEAN = 1, FAILED = 2 };

/* One byte more than the longest trace, so that a longer input is known by filling it. */
#define INPUT_BYTES ((size_t)ZOBUKWAMI_MOST_BYTES + 1)

static zobukwami_room room;

static const char *program = "check_file";

static int failed(const char *what)
{
    fprintf(stderr, "%s: %s: %s\n", program, what, strerror(errno));
    return FAILED;
}

static int wrong_use(void)
{
    fprintf(stderr, "usage: %s [FILE], or %s --help\n", program, program);
    return FAILED;
}

/* The status, if all that was printed has gone out. */
static int printed(bool all, int status)
{
    return all && fflush(stdout) == 0 ? status : failed("standard output");
}

static int help(void)
{
    bool all = printf(
        "usage: %s [FILE]\n"
        "\n"
        "Checks the trace in FILE, or on standard input where FILE is - or is not given. Prints\n"
        "\n"
        "    code N events N offset N races N visits N most N\n"
        "\n"
        "and a line for each race,\n"
        "\n"
        "    race LOCATION EARLIER-EVENT LATER-EVENT\n"
        "\n"
        "or, where there are more than %d bytes, only\n"
        "\n"
        "    too long\n"
        "\n"
        "Exit status:\n"
        "  0  the code is 0 and there are no races\n"
        "  1  there are races, the code is not 0, or the input is too long\n"
        "  2  wrong use, no memory, or the input or the output failed: standard error says which\n",
        program, ZOBUKWAMI_MOST_BYTES) >= 0;
    return printed(all, CLEAN);
}

/* Fills the input as far as there are bytes, and says how many; -1 where reading fails. */
static ssize_t read_input(int file, uint8_t *input)
{
    size_t length = 0;
    while (length < INPUT_BYTES) {
        ssize_t got = read(file, input + length, INPUT_BYTES - length);
        if (got == 0)
            break;
        if (got > 0)
            length += (size_t)got;
        else if (errno != EINTR)
            return -1;
    }
    return (ssize_t)length;
}

static bool print_answer(const zobukwami_answer *answer, const uint32_t *report)
{
    if (printf("code %" PRIu32 " events %" PRIu32 " offset %zu races %" PRIu32 " visits %" PRIu64 " most %" PRIu32 "\n",
               answer->code, answer->events, answer->offset, answer->races, answer->visits, answer->most) < 0)
        return false;
    const uint32_t *end = report + (size_t)answer->races * ZOBUKWAMI_NUMBERS;
    for (const uint32_t *entry = report; entry < end; entry += ZOBUKWAMI_NUMBERS) {
        if (printf("race %" PRIu32 " %" PRIu32 " %" PRIu32 "\n", entry[0], entry[1], entry[2]) < 0)
            return false;
    }
    return true;
}

/* A race is reported at an access of its own, and an access takes at least a byte: a report of as many entries as the
   trace has bytes holds all races, and one call is enough. Pages of it that are not written take no memory. */
static int check(const uint8_t *trace, size_t length)
{
    size_t numbers = length * ZOBUKWAMI_NUMBERS;
    uint32_t *report = malloc((numbers + 1) * sizeof *report);
    if (report == NULL)
        return failed("report");
    zobukwami_answer answer = zobukwami_check_in(&room, trace, length, report, numbers);
    bool clean = answer.code == ZOBUKWAMI_ACCEPTED && answer.races == 0;
    int status = printed(print_answer(&answer, report), clean ? CLEAN : NOT_CLEAN);
    free(report);
    return status;
}

static int check_file(int file, const char *name)
{
    uint8_t *input = malloc(INPUT_BYTES);
    if (input == NULL)
        return failed("input");
    ssize_t length = read_input(file, input);
    int status;
    if (length < 0)
        status = failed(name);
    else if (length > ZOBUKWAMI_MOST_BYTES)
        status = printed(puts("too long") >= 0, NOT_CLEAN);
    else
        status = check(input, (size_t)length);
    free(input);
    return status;
}

static int check_named(const char *name)
{
    int file;
    do
        file = open(name, O_RDONLY | O_CLOEXEC);
    while (file < 0 && errno == EINTR);
    if (file < 0)
        return failed(name);
    int status = check_file(file, name);
    close(file);
    return status;
}

int main(int count, char **words)
{
    if (count > 0)
        program = words[0];
    if (count > 2)
        return wrong_use();
    if (count < 2 || strcmp(words[1], "-") == 0)
        return check_file(STDIN_FILENO, "standard input");
    if (strcmp(words[1], "--help") == 0)
        return help();
    if (words[1][0] == '-')
        return wrong_use();
    return check_named(words[1]);
}
