/* The bags as a stack of runs. Procedures are numbered as they begin, so the S-bag and the P-bag of an open procedure
   are two runs of numbers, one after the other: from its own number on, and from its join on. */
#include <stdbool.h>
#include <stddef.h>
#include <stdint.h>

#define INLINE static inline __attribute__((always_inline))

struct bags {
    uint32_t running, join; /* the top pair */
    uint32_t begun;
    size_t below; /* pairs below the top */
    uint32_t *restrict starts, *restrict joins;
};

struct bags_room {
    char none;
};

INLINE void bags_begin(struct bags *b, struct bags_room *room, uint32_t *starts, uint32_t *joins)
{
    (void)room;
    *b = (struct bags){.running = 0, .join = 1, .begun = 1, .below = 0, .starts = starts, .joins = joins};
}

INLINE uint32_t bags_running(const struct bags *b)
{
    return b->running;
}

INLINE bool bags_spawn(struct bags *b)
{
    if (b->begun == 4096)
        return false;
    b->starts[b->below] = b->running;
    b->joins[b->below] = b->join;
    b->below++;
    b->running = b->begun++;
    b->join = b->begun;
    return true;
}

INLINE void bags_sync(struct bags *b)
{
    b->join = b->begun;
}

INLINE bool bags_return(struct bags *b)
{
    if (b->below == 0)
        return false;
    b->below--;
    b->running = b->starts[b->below];
    b->join = b->joins[b->below];
    return true;
}

/* The same question about a procedure below the running one: down in steps that double, then by halves. */
INLINE bool parallel_below(const uint32_t *starts, const uint32_t *joins, size_t below, uint32_t procedure)
{
    size_t high = below, step = 1, low;
    for (;;) {
        if (step > high) {
            low = 0;
            break;
        }
        low = high - step;
        if (starts[low] <= procedure)
            break;
        high = low;
        step *= 2;
    }
    while (high - low > 1) {
        size_t middle = (low + high) / 2;
        if (starts[middle] <= procedure)
            low = middle;
        else
            high = middle;
    }
    return joins[low] <= procedure;
}

INLINE bool bags_parallel(const struct bags *b, uint32_t procedure)
{
    if (procedure >= b->running)
        return procedure >= b->join;
    return parallel_below(b->starts, b->joins, b->below, procedure);
}

#ifndef CHECK
#define CHECK runs_check
#endif
#include "by_hand.h"
