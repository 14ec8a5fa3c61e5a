/* The bags as the SP-bags of 002 in a disjoint-set forest, with union by rank and halving of paths. A bag is known by
   its root. A procedure leads to the one above it; the root has what is known of the bag: ROOT, twice the rank, and 1
   for a P-bag. */
#include <stdbool.h>
#include <stddef.h>
#include <stdint.h>

#define INLINE static inline __attribute__((always_inline))

#define ROOT UINT32_C(0x80000000)

enum { NO_BAG = 0xFFFF };

struct open_procedure {
    uint16_t procedure, s_bag, p_bag;
};

struct bags {
    uint32_t begun, running;
    uint32_t s_bag, p_bag; /* of the running procedure; NO_BAG for an empty P-bag */
    size_t below;          /* open procedures below the running one */
    uint32_t *above;
    struct open_procedure *open;
};

struct bags_room {
    struct open_procedure open[4096];
};

INLINE void bags_begin(struct bags *b, struct bags_room *room, uint32_t *starts, uint32_t *joins)
{
    (void)joins;
    *b = (struct bags){.begun = 1, .p_bag = NO_BAG, .above = starts, .open = room->open};
    b->above[0] = ROOT;
}

INLINE uint32_t bags_running(const struct bags *b)
{
    return b->running;
}

INLINE bool bags_spawn(struct bags *b)
{
    uint32_t child = b->begun;
    if (child == 4096)
        return false;
    b->open[b->below++] = (struct open_procedure){(uint16_t)b->running, (uint16_t)b->s_bag, (uint16_t)b->p_bag};
    b->above[child] = ROOT;
    b->begun = child + 1;
    b->running = child;
    b->s_bag = child;
    b->p_bag = NO_BAG;
    return true;
}

/* The root of two bags made one; 1 for a P-bag. */
INLINE uint32_t united(uint32_t *restrict above, uint32_t one, uint32_t other, uint32_t kind)
{
    uint32_t rank = above[one] >> 1, others = above[other] >> 1;
    if (rank < others) {
        above[one] = other;
        above[other] = others << 1 | kind;
        return other;
    }
    above[other] = one;
    above[one] = (rank + (rank == others)) << 1 | kind;
    return one;
}

INLINE void bags_sync(struct bags *b)
{
    if (b->p_bag != NO_BAG) {
        b->s_bag = united(b->above, b->s_bag, b->p_bag, 0);
        b->p_bag = NO_BAG;
    }
}

INLINE bool bags_return(struct bags *b)
{
    if (b->below == 0)
        return false;
    bags_sync(b);
    uint32_t child = b->s_bag;
    struct open_procedure parent = b->open[--b->below];
    b->running = parent.procedure;
    b->s_bag = parent.s_bag;
    if (parent.p_bag != NO_BAG) {
        b->p_bag = united(b->above, parent.p_bag, child, 1);
    } else {
        b->p_bag = child;
        b->above[child] |= 1;
    }
    return true;
}

INLINE bool bags_parallel(struct bags *b, uint32_t procedure)
{
    uint32_t *restrict above = b->above;
    uint32_t next = above[procedure];
    while (next < ROOT) {
        uint32_t after = above[next];
        if (after >= ROOT)
            return after & 1;
        above[procedure] = after;
        procedure = after;
        next = above[procedure];
    }
    return next & 1;
}

#ifndef CHECK
#define CHECK forest_check
#endif
#include "by_hand.h"
