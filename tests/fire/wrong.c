/* Stands in the library's place to try caller.c: does one thing wrong, or none. The length of the report says what and
   where, as no byte of the trace could with the pages closed. */
#include <zobukwami.h>

#include <signal.h>
#include <stdlib.h>
#include <string.h>

/* What it does wrong, by the numbers that the tests know. The length of the report is sixteen times this, and where:
   which memory, if nothing else is said. */
enum {
    NOTHING,     /* and so with any number that is not here */
    READ_BEFORE, /* the byte right before what is lent */
    READ_FIRST,  /* the first one lent */
    READ_BEHIND, /* the byte right behind */
    WRITE_BEFORE,
    WRITE_FIRST,
    WRITE_BEHIND,
    RETURN_ANOTHER, /* where is which of the six numbers */
    GO_WILD,        /* a pointer leads nowhere */
    LOOP,
    EXIT, /* where is the status */
    RAISE /* where is the signal */
};

enum { WHERES = 16, MEMORIES = 9, FIRST_PIECE = 2 };

/* What is lent, as bytes, the trace too: volatile, so that they are touched. */
typedef struct memory {
    volatile uint8_t *first;
    size_t length;
    size_t width;
} memory;

static memory lent(const void *first, size_t length, size_t width)
{
    const memory all = {(volatile uint8_t *)(uintptr_t)first, length, width};
    return all;
}

/* A bit for each memory that is NULL. */
static uint64_t nulls(const memory *memories)
{
    uint64_t bits = 0;
    for (size_t i = 0; i < MEMORIES; i++)
        bits |= (uint64_t)(memories[i].first == NULL) << i;
    return bits;
}

/* As the library does, but for every trace the same: one entry, and six numbers of which no two are equal. To the
   visits it adds which memories are NULL. */
static zobukwami_answer do_right(const memory *memories, uint32_t *report, size_t report_length)
{
    static const uint32_t entry[ZOBUKWAMI_NUMBERS] = {7, 8, 9};
    const zobukwami_answer refused = {ZOBUKWAMI_ROOM_SHORT, 0, 0, 0, nulls(memories), 0};
    const zobukwami_answer answer = {ZOBUKWAMI_UNFINISHED, 2, 3, 1, ((uint64_t)5 << 32) + nulls(memories), 4};
    for (size_t piece = FIRST_PIECE; piece < MEMORIES; piece++)
        if (memories[piece].length < ZOBUKWAMI_PIECE)
            return refused;
    for (size_t piece = FIRST_PIECE; piece < MEMORIES; piece++)
        for (size_t byte = 0; byte < ZOBUKWAMI_PIECE * memories[piece].width; byte++)
            memories[piece].first[byte] = 0;
    if (report_length >= ZOBUKWAMI_NUMBERS)
        memcpy(report, entry, sizeof entry);
    return answer;
}

static void return_another(zobukwami_answer *answer, size_t number)
{
    answer->code += number == 0;
    answer->events += number == 1;
    answer->offset += number == 2;
    answer->races += number == 3;
    answer->visits += number == 4;
    answer->most += number == 5;
}

static void touch(volatile uint8_t *byte, size_t how)
{
    if (how < WRITE_BEFORE)
        (void)*byte;
    else
        *byte = (uint8_t)(*byte ^ 1);
}

static void touch_memory(const memory *touched, size_t how)
{
    if (how == READ_BEFORE || how == WRITE_BEFORE)
        touch(touched->first - 1, how);
    else if (how == READ_FIRST || how == WRITE_FIRST)
        touch(touched->first, how);
    else
        touch(touched->first + touched->length * touched->width, how);
}

static void do_wrong(size_t what, size_t where, const memory *memories, zobukwami_answer *answer)
{
    static volatile uintptr_t nowhere = 64;
    if (what >= READ_BEFORE && what <= WRITE_BEHIND)
        touch_memory(&memories[where], what);
    else if (what == RETURN_ANOTHER)
        return_another(answer, where);
    else if (what == GO_WILD)
        touch((volatile uint8_t *)nowhere, WRITE_FIRST);
    else if (what == LOOP)
        for (;;)
            ;
    else if (what == EXIT)
        exit((int)where);
    else if (what == RAISE)
        raise((int)where);
}

zobukwami_answer zobukwami_check(
    const uint8_t *trace, size_t trace_length,
    uint32_t *report, size_t report_length,
    uint32_t *heads, size_t heads_length,
    uint32_t *links, size_t links_length,
    uint32_t *events, size_t events_length,
    uint32_t *procedures, size_t procedures_length,
    uint64_t *sets, size_t sets_length,
    uint32_t *starts, size_t starts_length,
    uint32_t *joins, size_t joins_length)
{
    const memory memories[MEMORIES] = {
        lent(trace, trace_length, sizeof *trace),
        lent(report, report_length, sizeof *report),
        lent(heads, heads_length, sizeof *heads),
        lent(links, links_length, sizeof *links),
        lent(events, events_length, sizeof *events),
        lent(procedures, procedures_length, sizeof *procedures),
        lent(sets, sets_length, sizeof *sets),
        lent(starts, starts_length, sizeof *starts),
        lent(joins, joins_length, sizeof *joins),
    };
    zobukwami_answer answer = do_right(memories, report, report_length);
    do_wrong(report_length / WHERES, report_length % WHERES, memories, &answer);
    return answer;
}
