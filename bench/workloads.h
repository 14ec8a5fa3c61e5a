/* The traces that are measured. */
#ifndef WORKLOADS_H
#define WORKLOADS_H

#include <stddef.h>
#include <stdint.h>

/* A trace as it is written. */
struct trace {
    uint8_t *bytes;
    size_t length, room;
    uint64_t state; /* of the source of random numbers */
};

struct workload {
    const char *name;
    void (*write)(struct trace *, uint32_t, uint32_t);
    uint32_t first, second; /* what `write` is given */
    uint32_t code;          /* what the trace has to get */
};

/* The rows of the checker's two tables, and what the writer's is made of. Each ends with a row without a name. Where a
   name stands twice in a row, what the second trace has more than the first is what is shown. */
extern const struct workload workloads[], growth[], recorded[];

/* Writes the trace of a row. */
void write_workload(struct trace *t, const struct workload *w);

/* A random number below n. */
uint32_t below(struct trace *t, uint32_t n);

#endif
