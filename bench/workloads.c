/* Each trace but the one of three-byte numbers is a whole run: the locks are let go, main returns, and the limits of
   4,096 procedures and 4,096 kept entries are not reached. `below` gives the same random numbers each time. */
#include "workloads.h"

#include <stdio.h>
#include <stdlib.h>
#include <string.h>

enum { SPAWN, RETURN, SYNC, LOCK, UNLOCK, READ, WRITE };

static void put(struct trace *t, uint32_t kind, uint32_t operand)
{
    uint32_t number = operand * 8 + kind;
    do {
        if (t->length == t->room) {
            fprintf(stderr, "a workload is longer than a trace may be\n");
            exit(1);
        }
        t->bytes[t->length++] = (uint8_t)(number % 128 + (number > 127 ? 128 : 0));
        number /= 128;
    } while (number != 0);
}

/* Marsaglia's xorshift. */
uint32_t below(struct trace *t, uint32_t n)
{
    t->state ^= t->state << 13;
    t->state ^= t->state >> 7;
    t->state ^= t->state << 17;
    return (uint32_t)((t->state >> 32) * n >> 32);
}

/* An update of a location: a read, then a write; and one under a lock. */
static void update(struct trace *t, uint32_t location)
{
    put(t, READ, location);
    put(t, WRITE, location);
}

static void locked_update(struct trace *t, uint32_t lock, uint32_t location)
{
    put(t, LOCK, lock);
    update(t, location);
    put(t, UNLOCK, lock);
}

/* A trace of 01 that has so many bytes; the one of 24 is Figure 1 of 002. */
static void tiny(struct trace *t, uint32_t length, uint32_t none)
{
    static const uint8_t main_returns[] = {0x01};
    static const uint8_t two_writes[] = {0x00, 0x06, 0x01, 0x06, 0x01};
    static const uint8_t figure_1[] = {0x06, 0x00, 0x03, 0x0B, 0x05, 0x06, 0x0C, 0x04, 0x01, 0x00, 0x03, 0x05,
                                       0x06, 0x04, 0x01, 0x00, 0x0B, 0x05, 0x06, 0x0C, 0x01, 0x02, 0x05, 0x01};
    (void)none;
    memcpy(t->bytes, length == 24 ? figure_1 : length == 5 ? two_writes : main_returns, length);
    t->length = length;
}

/* A body is split into halves, each half is spawned, and a sync follows; a part that is not split knits its rows until
   its share of the bytes is used: it looks at the pattern (240 cells, only read), updates three cells of its own, and
   updates one of 16 cells of the row table under that cell's lock. Now and then it looks at a neighbour's cell. */
static void knit_part(struct trace *t, uint32_t from, uint32_t to, uint32_t parts, uint32_t bytes)
{
    uint32_t own = 256 + 3 * from;
    if (to - from > 1) {
        uint32_t middle = from + (to - from) / 2;
        put(t, SPAWN, 0);
        knit_part(t, from, middle, parts, bytes);
        put(t, RETURN, 0);
        put(t, SPAWN, 0);
        knit_part(t, middle, to, parts, bytes);
        put(t, RETURN, 0);
        put(t, SYNC, 0);
        update(t, own);
        return;
    }
    size_t share = (size_t)((uint64_t)bytes * to / parts);
    while (t->length + 128 < share) {
        for (uint32_t i = 0; i < 6; i++)
            put(t, READ, 16 + below(t, 240));
        for (uint32_t i = 0; i < 3; i++)
            update(t, own + i);
        uint32_t row = below(t, 16);
        locked_update(t, row, row);
        if (from > 0 && below(t, 256) == 0)
            put(t, READ, own - 3);
    }
}

static void knit(struct trace *t, uint32_t bytes, uint32_t parts)
{
    knit_part(t, 0, parts, parts, bytes);
    put(t, RETURN, 0);
}

/* Main spawns so many children, one after the other, then comes a sync, and main reads all that they wrote; twice. */
static void fan(struct trace *t, uint32_t children, uint32_t none)
{
    (void)none;
    for (uint32_t wave = 0; wave < 2; wave++) {
        for (uint32_t i = 0; i < children; i++) {
            put(t, SPAWN, 0);
            for (uint32_t j = 0; j < 8; j++)
                put(t, READ, below(t, 64));
            update(t, 64 + i);
            update(t, 64 + i);
            uint32_t total = below(t, 4);
            locked_update(t, total, 4000 + total);
            put(t, RETURN, 0);
        }
        put(t, SYNC, 0);
        for (uint32_t i = 0; i < children; i++)
            put(t, READ, 64 + i);
    }
    put(t, RETURN, 0);
}

/* Each procedure spawns one more, so deep; each works before it does so and, after a sync, once more. What it looks at
   was last written by a procedure at any depth above. */
static void deep(struct trace *t, uint32_t depth, uint32_t none)
{
    (void)none;
    for (uint32_t i = 0; i < depth; i++) {
        put(t, SPAWN, 0);
        put(t, WRITE, i % 1000);
        for (uint32_t j = 0; j < 12; j++)
            put(t, READ, below(t, 1000));
    }
    for (uint32_t i = depth; i-- > 0;) {
        put(t, SYNC, 0);
        put(t, WRITE, i % 1000);
        for (uint32_t j = 0; j < 12; j++)
            put(t, READ, below(t, 1000));
        put(t, RETURN, 0);
    }
    put(t, RETURN, 0);
}

/* A little work on 1,000 cells: half of them are only read, the others are updated under locks. */
static void bush(struct trace *t)
{
    for (uint32_t j = 0; j < 6; j++) {
        put(t, READ, below(t, 500));
        uint32_t cell = 500 + below(t, 500);
        locked_update(t, cell % 8, cell);
    }
}

/* As deep, and each procedure spawns small children first, which return; only every other one then has a sync. So the
   cells hold entries of procedures all the way down, in series and in parallel. */
static void deep_bushy(struct trace *t, uint32_t depth, uint32_t children)
{
    for (uint32_t i = 0; i < depth; i++) {
        put(t, SPAWN, 0);
        for (uint32_t j = 0; j < children; j++) {
            put(t, SPAWN, 0);
            bush(t);
            put(t, RETURN, 0);
        }
        if (i % 2 == 1)
            put(t, SYNC, 0);
        bush(t);
    }
    for (uint32_t i = 0; i < depth; i++) {
        bush(t);
        put(t, RETURN, 0);
    }
    put(t, RETURN, 0);
}

/* Barnes-Hut: threads build the parts of a tree, each part under its own lock, from bodies that are only read. */
static void n_body(struct trace *t, uint32_t threads, uint32_t steps)
{
    for (uint32_t i = 0; i < threads; i++) {
        put(t, SPAWN, 0);
        for (uint32_t j = 0; j < steps; j++) {
            uint32_t body = 1000 + below(t, 1000), part = below(t, 63);
            for (uint32_t k = 0; k < 3; k++)
                put(t, READ, body + k);
            put(t, LOCK, part);
            put(t, READ, part);
            if (below(t, 8) == 0)
                put(t, WRITE, part);
            put(t, UNLOCK, part);
        }
        put(t, RETURN, 0);
        if (i % 64 == 63)
            put(t, SYNC, 0);
    }
    put(t, RETURN, 0);
}

/* A bucket sort: threads read an element and add it to a bucket under the lock of that bucket. */
static void bucket(struct trace *t, uint32_t threads, uint32_t elements)
{
    for (uint32_t i = 0; i < threads; i++) {
        put(t, SPAWN, 0);
        for (uint32_t j = 0; j < elements; j++) {
            uint32_t to = below(t, 63);
            put(t, READ, 1000 + (i * elements + j) % 3000);
            locked_update(t, to, to);
        }
        put(t, RETURN, 0);
    }
    put(t, SYNC, 0);
    put(t, RETURN, 0);
}

/* How many subsets of that size a set of n has. */
static uint32_t choose(uint32_t n, uint32_t size)
{
    uint64_t subsets = 1;
    for (uint32_t i = 0; i < size; i++)
        subsets = subsets * (n - i) / (i + 1);
    return n < size ? 0 : (uint32_t)subsets;
}

/* Takes or releases the locks of a number, as many as `size`, from lock `first` on: another set for each number. */
static void locks_of(struct trace *t, uint32_t kind, uint32_t number, uint32_t size, uint32_t first)
{
    for (; size > 0; size--) {
        uint32_t lock = size - 1;
        while (choose(lock + 1, size) <= number)
            lock++;
        number -= choose(lock, size);
        put(t, kind, first + lock);
    }
}

/* maxflow and rad: threads update locations under so many different lock sets, of as few locks as that takes: one lock
   that they share (of a vertex, of a surface) and one to three beside it (of a neighbour, of a patch). */
static void lock_sets(struct trace *t, uint32_t sets, uint32_t updates)
{
    uint32_t beside = sets <= choose(62, 1) ? 1 : sets <= choose(62, 2) ? 2 : 3;
    uint32_t locations = 4000 / sets < 100 ? 4000 / sets : 100;
    uint32_t made = 0;
    for (uint32_t thread = 1; made < updates; thread++) {
        put(t, SPAWN, 0);
        for (uint32_t i = 0; i < 16 && made < updates; i++, made++) {
            uint32_t number = made < sets * locations ? made / locations : below(t, sets);
            put(t, LOCK, 0);
            locks_of(t, LOCK, number, beside, 1);
            update(t, made % locations);
            locks_of(t, UNLOCK, number, beside, 1);
            put(t, UNLOCK, 0);
        }
        put(t, RETURN, 0);
        if (thread % 32 == 0)
            put(t, SYNC, 0);
    }
    put(t, RETURN, 0);
}

/* A table that all procedures read; main writes a few cells of it between the waves. */
static void reads(struct trace *t, uint32_t waves, uint32_t each)
{
    for (uint32_t wave = 0; wave < waves; wave++) {
        for (uint32_t i = 0; i < 16; i++)
            put(t, WRITE, below(t, 1500));
        for (uint32_t i = 0; i < 32; i++) {
            put(t, SPAWN, 0);
            for (uint32_t j = 0; j < each; j++)
                put(t, READ, below(t, 1500));
            put(t, RETURN, 0);
        }
        put(t, SYNC, 0);
    }
    put(t, RETURN, 0);
}

/* Writes location 0 under lock 62 and three others, so that an entry is kept for each number. */
static void keep(struct trace *t, uint32_t number)
{
    put(t, LOCK, 62);
    locks_of(t, LOCK, number, 3, 0);
    put(t, WRITE, 0);
    locks_of(t, UNLOCK, number, 3, 0);
    put(t, UNLOCK, 62);
}

/* A list of that length, and accesses that each visit all of it; of the lock sets none lies within the other, but they
   have a lock in common. */
static void visits(struct trace *t, uint32_t length, uint32_t accesses)
{
    for (uint32_t i = 0; i + 1 < length; i++)
        keep(t, i);
    put(t, LOCK, 62);
    put(t, LOCK, 61);
    for (uint32_t i = 0; i < accesses; i++)
        put(t, WRITE, 0);
    put(t, UNLOCK, 61);
    put(t, UNLOCK, 62);
    put(t, RETURN, 0);
}

/* The same with lock sets that have nothing in common with those kept, from all depths, so that at each visit the bags
   are asked about another procedure. */
static void visits_ask(struct trace *t, uint32_t depth, uint32_t accesses)
{
    for (uint32_t i = 0; i < depth; i++) {
        keep(t, 2 * i);
        keep(t, 2 * i + 1);
        put(t, SPAWN, 0);
    }
    put(t, LOCK, 61);
    for (uint32_t i = 0; i < accesses; i++)
        put(t, WRITE, 0);
    put(t, UNLOCK, 61);
    for (uint32_t i = 0; i <= depth; i++)
        put(t, RETURN, 0);
}

/* So deep, and so many reads there of cells that procedures at all depths have written. */
static void at_depth(struct trace *t, uint32_t depth, uint32_t accesses)
{
    for (uint32_t i = 0; i < depth; i++) {
        put(t, WRITE, i % 2000);
        put(t, SPAWN, 0);
    }
    uint32_t cells = depth < 2000 ? depth : 2000;
    for (uint32_t i = 0; i < accesses; i++)
        put(t, READ, below(t, cells));
    for (uint32_t i = 0; i <= depth; i++)
        put(t, RETURN, 0);
}

/* Numbers of one byte alone: of 16 locks and 16 locations. */
static void one_byte(struct trace *t, uint32_t threads, uint32_t steps)
{
    for (uint32_t i = 0; i < threads; i++) {
        put(t, SPAWN, 0);
        for (uint32_t j = 0; j < steps; j++) {
            uint32_t cell = below(t, 16);
            put(t, READ, below(t, 16));
            locked_update(t, cell, cell);
        }
        put(t, RETURN, 0);
        if (i % 8 == 7)
            put(t, SYNC, 0);
    }
    put(t, RETURN, 0);
}

/* Numbers of three bytes alone: of the upper half of the locations. Main does not return, which would be one byte. */
static void three_byte(struct trace *t, uint32_t accesses, uint32_t none)
{
    (void)none;
    for (uint32_t i = 0; i < accesses; i++)
        put(t, below(t, 4) == 0 ? WRITE : READ, 2048 + below(t, 2048));
}

enum { KIB = 1024, MIB = 1024 * KIB };

const struct workload workloads[] = {
    {"tiny-0", tiny, 0, 0, 14},
    {"tiny-1", tiny, 1, 0, 0},
    {"tiny-5", tiny, 5, 0, 0},
    {"tiny-24", tiny, 24, 0, 0},
    {"knit-4KiB", knit, 4 * KIB, 16, 0},
    {"knit-64KiB", knit, 64 * KIB, 128, 0},
    {"knit-1MiB", knit, MIB, 1024, 0},
    {"knit-16MiB", knit, 16 * MIB, 1024, 0},
    {"fan", fan, 2000, 0, 0},
    {"deep", deep, 4000, 0, 0},
    {"deep-bushy", deep_bushy, 1300, 2, 0},
    {"n-body", n_body, 1000, 50, 0},
    {"bucket", bucket, 1000, 50, 0},
    {"maxflow-32", lock_sets, 32, 20000, 0},
    {"maxflow-64", lock_sets, 64, 20000, 0},
    {"rad-512", lock_sets, 512, 10000, 0},
    {"rad-4000", lock_sets, 4000, 6000, 0},
    {"reads", reads, 100, 120, 0},
    {"visits", visits, 4096, 3000, 0},
    {"visits-ask", visits_ask, 2000, 500, 0},
    {0},
};

const struct workload growth[] = {
    {"knit-64KiB", knit, 64 * KIB, 128, 0},
    {"knit-256KiB", knit, 256 * KIB, 128, 0},
    {"knit-1MiB", knit, MIB, 128, 0},
    {"knit-4MiB", knit, 4 * MIB, 128, 0},
    {"knit-16MiB", knit, 16 * MIB, 128, 0},
    {"list-1", visits, 1, 2000, 0},
    {"list-1", visits, 1, 4000, 0},
    {"list-8", visits, 8, 2000, 0},
    {"list-8", visits, 8, 4000, 0},
    {"list-64", visits, 64, 2000, 0},
    {"list-64", visits, 64, 4000, 0},
    {"list-512", visits, 512, 2000, 0},
    {"list-512", visits, 512, 4000, 0},
    {"list-4000", visits, 4000, 2000, 0},
    {"list-4000", visits, 4000, 4000, 0},
    {"depth-1", at_depth, 1, 20000, 0},
    {"depth-1", at_depth, 1, 40000, 0},
    {"depth-16", at_depth, 16, 20000, 0},
    {"depth-16", at_depth, 16, 40000, 0},
    {"depth-256", at_depth, 256, 20000, 0},
    {"depth-256", at_depth, 256, 40000, 0},
    {"depth-4000", at_depth, 4000, 20000, 0},
    {"depth-4000", at_depth, 4000, 40000, 0},
    {0},
};

const struct workload recorded[] = {
    {"knit", knit, 64 * KIB, 128, 0},
    {"one-byte", one_byte, 1000, 6, 0},
    {"three-byte", three_byte, 32000, 0, 14},
    {"locks", bucket, 130, 50, 0},
    {0},
};

void write_workload(struct trace *t, const struct workload *w)
{
    t->length = 0;
    t->state = UINT64_C(0x9E3779B97F4A7C15);
    w->write(t, w->first, w->second);
}
