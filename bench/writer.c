/* writer time|count [ROW]

   Holds the library's writer and the same calls written by hand against each other, and then measures them. For each
   row it prints: name, bytes, events, how many events a call has, and with `time` the nanoseconds of all the calls of
   each. With `count` it is to be run under callgrind, as bench.c is. */
#include <stdio.h>
#include <stdlib.h>
#include <string.h>

#include "workloads.h"
#include "zobukwami.h"

typedef __typeof__(zobukwami_write_event) event_call;
typedef __typeof__(zobukwami_write_events) list_call;

event_call event_gcc, event_clang;
list_call list_gcc, list_clang;

static const struct variant {
    const char *name;
    event_call *event;
    list_call *list;
} variants[] = {
    {"library", zobukwami_write_event, zobukwami_write_events},
    {"gcc", event_gcc, list_gcc},
    {"clang", event_clang, list_clang},
};

#define SEED UINT64_C(88172645463325252)

enum {
    VARIANTS = sizeof variants / sizeof *variants,
    ROOM = 1 << 17, /* the most bytes, */
    BESIDE = 8,     /* and bytes behind them */
    LIST = 100,     /* the most numbers in a random list */
};

/* Numbers, two to an event, and how many events go into a call. */
typedef struct work {
    const uint32_t *numbers;
    size_t count, each;
    size_t length, place; /* of the buffer, and the first in it */
} work;

static uint8_t lent[ROOM + BESIDE];

/* Writes all of it, or until something is refused. */
static __attribute__((noinline)) zobukwami_written run(const struct variant *v, const work *w)
{
    zobukwami_written written = {.next = w->place};
    size_t i = 0;
    if (w->each == 1) {
        for (; i < w->count && written.code == 0; i += 2)
            written = v->event(lent, w->length, written.next, w->numbers[i], w->numbers[i + 1]);
        return written;
    }
    do {
        size_t count = w->count - i < 2 * w->each ? w->count - i : 2 * w->each;
        written = v->list(lent, w->length, written.next, w->numbers + i, count);
        i += count;
    } while (i < w->count && written.code == 0);
    return written;
}

#include "measure.h"

static void fail(const char *row, const char *variant, const char *what)
{
    fprintf(stderr, "%s, %s: %s\n", row, variant, what);
    exit(1);
}

/* Fails unless all give the same code and place, and write the same bytes. */
static zobukwami_written agree(const char *row, const work *w)
{
    static uint8_t wanted[sizeof lent];
    size_t seen = w->length + BESIDE;
    zobukwami_written first = {0};
    for (const struct variant *v = variants; v < variants + VARIANTS; v++) {
        memset(lent, 0xA5, seen);
        zobukwami_written written = run(v, w);
        if (v == variants) {
            memcpy(wanted, lent, seen);
            first = written;
        }
        if (written.code != first.code || written.next != first.next)
            fail(row, v->name, "another answer");
        if (memcmp(lent, wanted, seen) != 0)
            fail(row, v->name, "other bytes");
    }
    return first;
}

/* On both sides of every limit. */
static const uint32_t kinds[] = {0, 1, 2, 3, 4, 5, 6, 7, 8, 0x10005, 1u << 31, UINT32_MAX};
static const uint32_t operands[] = {
    0, 1, 15, 16, 62, 63, 2047, 2048, 4095, 4096, 0x10000, 1u << 29, 1u << 31, UINT32_MAX};

enum { KINDS = sizeof kinds / sizeof *kinds, OPERANDS = sizeof operands / sizeof *operands };

/* Every event of these, alone and as a list, in short buffers, at all places and beyond. */
static void agree_on_events(void)
{
    for (size_t i = 0; i < (size_t)KINDS * OPERANDS; i++) {
        uint32_t event[] = {kinds[i / OPERANDS], operands[i % OPERANDS]};
        for (size_t length = 0; length < 5; length++) {
            for (size_t place = 0; place < 7; place++) {
                for (size_t each = 1; each < 3; each++)
                    agree("an event", &(work){event, 2, each, length, place < 6 ? place : SIZE_MAX});
            }
        }
    }
}

/* Any of these for the number, where it is a kind and where it is an operand. */
static void spoil(uint32_t *number, size_t i, struct trace *random)
{
    *number = i % 2 == 0 ? kinds[below(random, KINDS)] : operands[below(random, OPERANDS)];
}

/* Random lists, two in five of which are refused. */
static void agree_on_lists(struct trace *random)
{
    uint32_t numbers[LIST];
    for (int list = 0; list < 20000; list++) {
        size_t count = 2 * below(random, LIST / 2) + (below(random, 8) == 0);
        size_t length = below(random, 4 * LIST);
        for (size_t i = 0; i < count; i++) {
            uint32_t kind = i % 2 == 0 ? below(random, 7) : numbers[i - 1];
            numbers[i] = i % 2 == 0 ? kind : kind < 3 ? 0 : below(random, kind < 5 ? 63 : 4096);
            if (below(random, 200) == 0)
                spoil(&numbers[i], i, random);
        }
        size_t place = below(random, 8) == 0 ? length + below(random, 2) : below(random, 4);
        agree("a list", &(work){numbers, count, LIST, length, place});
    }
}

/* Fails unless all write the trace that the events come from, and do the same with a buffer that is a byte short, and
   where some number is another. */
static void agree_on_row(const char *row, const struct trace *t, const work *w, uint32_t *numbers)
{
    zobukwami_written written = agree(row, w);
    if (written.code != 0 || written.next != t->length || memcmp(lent, t->bytes, t->length) != 0)
        fail(row, "all", "not the trace");
    agree(row, &(work){numbers, w->count, w->each, w->length - 1, 0});
    struct trace random = {.state = SEED};
    for (int i = 0; i < 20; i++) {
        size_t which = below(&random, (uint32_t)w->count);
        uint32_t was = numbers[which];
        spoil(&numbers[which], which, &random);
        agree(row, w);
        numbers[which] = was;
    }
}

/* The events of a trace, as numbers. */
static size_t read_events(const struct trace *t, uint32_t *numbers)
{
    size_t count = 0;
    for (size_t at = 0; at < t->length; count += 2) {
        uint32_t number = 0, shift = 0;
        do {
            number |= (t->bytes[at] & 127u) << shift;
            shift += 7;
        } while (t->bytes[at++] > 127);
        numbers[count] = number % 8;
        numbers[count + 1] = number / 8;
    }
    return count;
}

int main(int count, char **words)
{
    static const size_t each[] = {1, 4, 4096};
    static uint8_t bytes[ROOM];
    static uint32_t numbers[2 * ROOM];
    int counts = count > 1 && strcmp(words[1], "count") == 0;
    if (count < 2 || count > 3 || (!counts && strcmp(words[1], "time") != 0)) {
        fprintf(stderr, "usage: %s time|count [ROW]\n", words[0]);
        return 2;
    }
    struct trace t = {.bytes = bytes, .room = ROOM, .state = SEED};
    agree_on_events();
    agree_on_lists(&t);
    int found = 0;
    for (size_t i = 0; recorded[i / 3].name != NULL; i++) {
        char row[32];
        snprintf(row, sizeof row, "%s-%zu", recorded[i / 3].name, each[i % 3]);
        if (count == 3 && strcmp(words[2], row) != 0)
            continue;
        found = 1;
        write_workload(&t, &recorded[i / 3]);
        work w = {numbers, read_events(&t, numbers), each[i % 3], t.length, 0};
        agree_on_row(row, &t, &w, numbers);
        printf("%s %zu %zu %zu", row, t.length, w.count / 2, w.each);
        if (counts)
            count_row(row, &w, 1, VARIANTS);
        else
            time_row(&w);
        printf("\n");
        fflush(stdout);
    }
    if (!found) {
        fprintf(stderr, "there is no row %s\n", words[2]);
        return 2;
    }
    return 0;
}
