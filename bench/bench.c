/* bench time|count workloads|growth [ROW]

   Holds the library and the calls written by hand against each other, and then measures them. For each row it prints:
   name, bytes, events, visits, how many calls are counted, and with `time` the nanoseconds of a call of each. With
   `count` it is to be run under callgrind, which then writes a file for each, named in it by row and variant. */
#include <stdio.h>
#include <stdlib.h>
#include <string.h>

#include "workloads.h"
#include "zobukwami.h"

typedef struct trace work;
typedef __typeof__(zobukwami_check) call;

call runs_gcc, runs_clang, forest_gcc, forest_clang;

static const struct variant {
    const char *name;
    call *check;
} variants[] = {
    {"library", zobukwami_check},
    {"runs-gcc", runs_gcc},
    {"runs-clang", runs_clang},
    {"forest-gcc", forest_gcc},
    {"forest-clang", forest_clang},
};

enum {
    VARIANTS = sizeof variants / sizeof *variants,
    REPORT = 1024 * ZOBUKWAMI_NUMBERS + 2, /* two numbers are left over */
    LENT = ZOBUKWAMI_PIECE + 8,            /* and in each piece eight */
};

static struct lent {
    uint32_t report[REPORT];
    uint32_t pieces[6][LENT]; /* heads, links, events, procedures, starts, joins */
    uint64_t sets[LENT];
} lent;

static __attribute__((noinline)) zobukwami_answer run(const struct variant *v, const work *t)
{
    uint32_t(*p)[LENT] = lent.pieces;
    return v->check(
        t->bytes, t->length, lent.report, REPORT, p[0], LENT, p[1], LENT, p[2], LENT, p[3], LENT, lent.sets, LENT, p[4],
        LENT, p[5], LENT);
}

static void fail(const struct workload *w, const struct variant *v, const char *what)
{
    fprintf(stderr, "%s, %s: %s\n", w->name, v->name, what);
    exit(1);
}

static int same(const zobukwami_answer *a, const zobukwami_answer *b)
{
    return a->code == b->code && a->events == b->events && a->offset == b->offset && a->races == b->races &&
           a->visits == b->visits && a->most == b->most;
}

/* Fails unless each gives the code that the row names, and all the same answer, report and room: zero as far as it is
   used, and else as it was. */
static zobukwami_answer agree(const struct workload *w, const struct trace *t)
{
    static struct lent wanted;
    zobukwami_answer first = {0};
    for (const struct variant *v = variants; v < variants + VARIANTS; v++) {
        memset(&lent, 0xA5, sizeof lent);
        zobukwami_answer answer = run(v, t);
        if (v == variants) {
            memset(&wanted, 0xA5, sizeof wanted);
            memcpy(wanted.report, lent.report, sizeof wanted.report);
            for (size_t i = 0; i < 6; i++)
                memset(wanted.pieces[i], 0, ZOBUKWAMI_PIECE * sizeof *wanted.pieces[i]);
            memset(wanted.sets, 0, ZOBUKWAMI_PIECE * sizeof *wanted.sets);
            first = answer;
        }
        if (answer.code != w->code)
            fail(w, v, "not the code that the row names");
        if (!same(&answer, &first))
            fail(w, v, "another answer");
        if (memcmp(lent.report, wanted.report, sizeof lent.report) != 0)
            fail(w, v, "another report");
        if (memcmp(&lent, &wanted, sizeof lent) != 0)
            fail(w, v, "the room is not as it has to be");
    }
    return first;
}

#include "measure.h"

int main(int count, char **words)
{
    int counts = count > 2 && strcmp(words[1], "count") == 0;
    int grows = count > 2 && strcmp(words[2], "growth") == 0;
    if (count < 3 || count > 4 || (!counts && strcmp(words[1], "time") != 0) ||
        (!grows && strcmp(words[2], "workloads") != 0)) {
        fprintf(stderr, "usage: %s time|count workloads|growth [ROW]\n", words[0]);
        return 2;
    }
    struct trace t = {.bytes = malloc(ZOBUKWAMI_MOST_BYTES), .room = ZOBUKWAMI_MOST_BYTES};
    if (t.bytes == NULL) {
        fprintf(stderr, "no memory for a trace\n");
        return 1;
    }
    int found = 0;
    for (const struct workload *w = grows ? growth : workloads; w->name != NULL; w++) {
        if (count == 4 && strcmp(words[3], w->name) != 0)
            continue;
        found = 1;
        write_workload(&t, w);
        uint32_t calls = t.length < 100 ? 100 : 1;
        zobukwami_answer a = agree(w, &t);
        printf("%s %zu %u %llu %u", w->name, t.length, a.events, (unsigned long long)a.visits, calls);
        if (counts)
            count_row(w->name, &t, calls, grows ? 1 : VARIANTS);
        else if (!grows)
            time_row(&t);
        printf("\n");
        fflush(stdout);
    }
    free(t.bytes);
    if (!found) {
        fprintf(stderr, "there is no row %s\n", words[3]);
        return 2;
    }
    return 0;
}
