/* How the drivers measure. The file that includes this one has defined

       work                  what is run
       struct variant        what runs it, with a name
       variants, VARIANTS    these, the library first
       run(&variant, &work)  one run */
#include <stdio.h>
#include <time.h>
#include <valgrind/callgrind.h>

/* Processor time, so that what else runs on the machine matters less. */
static double now(void)
{
    struct timespec t;
    clock_gettime(CLOCK_PROCESS_CPUTIME_ID, &t);
    return (double)t.tv_sec * 1e9 + (double)t.tv_nsec;
}

static double timed(const struct variant *v, const work *w, uint32_t runs)
{
    double from = now();
    for (uint32_t i = 0; i < runs; i++)
        run(v, w);
    return (now() - from) / runs;
}

/* The least time of a run of each, the variants taking turns for about a second. */
static void time_row(const work *w)
{
    double least[VARIANTS];
    uint32_t runs = 1;
    while (timed(variants, w, runs) * runs < 1e6)
        runs *= 2;
    double until = now() + 1e9;
    for (int turn = 0; turn < 3 || now() < until; turn++) {
        for (size_t i = 0; i < VARIANTS; i++) {
            double taken = timed(&variants[i], w, runs);
            if (turn == 0 || taken < least[i])
                least[i] = taken;
        }
    }
    for (size_t i = 0; i < VARIANTS; i++)
        printf(" %.1f", least[i]);
}

/* Has callgrind count the runs of the first variants, and write a file for each. */
static void count_row(const char *name, const work *w, uint32_t runs, size_t counted)
{
    for (size_t i = 0; i < counted; i++) {
        char both[64];
        snprintf(both, sizeof both, "%s %s", name, variants[i].name);
        CALLGRIND_START_INSTRUMENTATION;
        for (uint32_t j = 0; j < runs; j++)
            run(&variants[i], w);
        CALLGRIND_STOP_INSTRUMENTATION;
        CALLGRIND_DUMP_STATS_AT(both);
    }
}
