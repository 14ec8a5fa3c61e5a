/* Zobukwami: names every access of a recorded Cilk run that races with an earlier one, and writes such a record.

   Lend a trace, a report and working room to zobukwami_check, or all the room at once to zobukwami_check_in. A recorder
   writes its trace by zobukwami_write_event or zobukwami_write_events. None of them allocates memory, keeps anything
   between calls, or prints; calls that are lent different room, reports and buffers may run at once. What the calls
   promise is proved: CONTRACTS.md says what; ROOM.md says what is lent, and CODES.md what each code asks for. */
#ifndef ZOBUKWAMI_H
#define ZOBUKWAMI_H

#include <stddef.h>
#include <stdint.h>

#ifdef __cplusplus
extern "C" {
#endif

enum {
    ZOBUKWAMI_PIECE = 4096,          /* numbers in each piece of working room */
    ZOBUKWAMI_MOST_BYTES = 16777216, /* the longest trace, in bytes */
    ZOBUKWAMI_NUMBERS = 3,           /* numbers in an entry of the report: location, earlier event, later event */
    ZOBUKWAMI_EVENT_NUMBERS = 2,     /* numbers in an event of a list: kind, operand */
    ZOBUKWAMI_EVENT_BYTES = 3        /* the most bytes that an event takes */
};

/* The kinds of events. */
enum {
    ZOBUKWAMI_SPAWN = 0,  /* the operand is 0 */
    ZOBUKWAMI_RETURN = 1, /* the operand is 0 */
    ZOBUKWAMI_SYNC = 2,   /* the operand is 0 */
    ZOBUKWAMI_LOCK = 3,   /* the operand is a lock, 0 to 62 */
    ZOBUKWAMI_UNLOCK = 4, /* the operand is a lock, 0 to 62 */
    ZOBUKWAMI_READ = 5,   /* the operand is a location, 0 to 4,095 */
    ZOBUKWAMI_WRITE = 6   /* the operand is a location, 0 to 4,095 */
};

/* What a code says. The writer gives 0, 5, 6 and 15; the checker 0 to 14. */
enum {
    ZOBUKWAMI_ACCEPTED = 0,         /* every byte accepted and main has returned; every event written */
    ZOBUKWAMI_ROOM_SHORT = 1,       /* a piece of working room is too short */
    ZOBUKWAMI_TRACE_LONG = 2,       /* the trace is longer than ZOBUKWAMI_MOST_BYTES */
    ZOBUKWAMI_BYTES_END = 3,        /* the bytes end inside a number of fewer than three bytes */
    ZOBUKWAMI_FORM_LONG = 4,        /* a third byte has its top bit set, or the last of several groups is zero */
    ZOBUKWAMI_RESERVED = 5,         /* kind 7; of the writer, any kind above 6 */
    ZOBUKWAMI_OPERAND_LARGE = 6,    /* operand above the largest of its kind */
    ZOBUKWAMI_AFTER_MAIN = 7,       /* an event after main's return */
    ZOBUKWAMI_HOLDING = 8,          /* spawn, return or sync with a lock held */
    ZOBUKWAMI_HELD_ALREADY = 9,     /* lock already held */
    ZOBUKWAMI_NOT_HELD = 10,        /* unlock of a lock not held */
    ZOBUKWAMI_PROCEDURES_MANY = 11, /* spawn when 4,096 procedures have begun, main counted */
    ZOBUKWAMI_IN_NO_BAG = 12,       /* a kept entry's procedure is in no bag; never given */
    ZOBUKWAMI_ENTRIES_MANY = 13,    /* more than 4,096 entries would be kept in all */
    ZOBUKWAMI_UNFINISHED = 14,      /* the bytes end between events and main has not returned */
    ZOBUKWAMI_BUFFER_SHORT = 15     /* the bytes do not fit into the buffer, or the place lies past its end */
};

typedef struct zobukwami_answer {
    uint32_t code;   /* one of the above */
    uint32_t events; /* events accepted */
    size_t offset;   /* first byte not accepted, or the length */
    uint32_t races;  /* accesses reported, whether or not they fit into the report */
    uint64_t visits; /* kept entries looked at, in all */
    uint32_t most;   /* the largest number of locks held at one moment */
} zobukwami_answer;

/* Working room of the right sizes: 131,072 bytes, so rather static or on the heap than on a small stack. What it holds
   at entry does not matter; at exit it is all zero, or, after codes 1 and 2, untouched. */
typedef struct zobukwami_room {
    uint32_t heads[ZOBUKWAMI_PIECE];
    uint32_t links[ZOBUKWAMI_PIECE];
    uint32_t events[ZOBUKWAMI_PIECE];
    uint32_t procedures[ZOBUKWAMI_PIECE];
    uint64_t sets[ZOBUKWAMI_PIECE];
    uint32_t starts[ZOBUKWAMI_PIECE];
    uint32_t joins[ZOBUKWAMI_PIECE];
} zobukwami_room;

/* Checks a trace. Each pointer is followed by how many bytes or numbers it leads to; it may be NULL where that is 0.
   Nothing that is lent may overlap. Of each piece of room the first ZOBUKWAMI_PIECE numbers are used; a shorter one gets
   ZOBUKWAMI_ROOM_SHORT. The report takes as many entries as fit and may have any length. */
zobukwami_answer zobukwami_check(
    const uint8_t *trace, size_t trace_length,
    uint32_t *report, size_t report_length,
    uint32_t *heads, size_t heads_length,
    uint32_t *links, size_t links_length,
    uint32_t *events, size_t events_length,
    uint32_t *procedures, size_t procedures_length,
    uint64_t *sets, size_t sets_length,
    uint32_t *starts, size_t starts_length,
    uint32_t *joins, size_t joins_length);

/* The same call, in room of the right sizes. */
static inline zobukwami_answer zobukwami_check_in(
    zobukwami_room *room,
    const uint8_t *trace, size_t trace_length,
    uint32_t *report, size_t report_length)
{
    return zobukwami_check(
        trace, trace_length,
        report, report_length,
        room->heads, ZOBUKWAMI_PIECE,
        room->links, ZOBUKWAMI_PIECE,
        room->events, ZOBUKWAMI_PIECE,
        room->procedures, ZOBUKWAMI_PIECE,
        room->sets, ZOBUKWAMI_PIECE,
        room->starts, ZOBUKWAMI_PIECE,
        room->joins, ZOBUKWAMI_PIECE);
}

/* What the writer gives. */
typedef struct zobukwami_written {
    uint32_t code; /* ZOBUKWAMI_ACCEPTED, ZOBUKWAMI_RESERVED, ZOBUKWAMI_OPERAND_LARGE or ZOBUKWAMI_BUFFER_SHORT */
    size_t next;   /* the place after what was written; on a refusal the given one */
} zobukwami_written;

/* Writes one event into the buffer from a place on, in the one form that the checker accepts. A refusal leaves the buffer
   untouched; bytes outside those written keep what they had. The pointer may be NULL where the length is 0. */
zobukwami_written zobukwami_write_event(
    uint8_t *buffer, size_t buffer_length,
    size_t place,
    uint32_t kind, uint32_t operand);

/* Writes a list of events one after the other, or, where one of them is refused, none: the first refused decides the
   code. The list is lent as numbers, two to an event, kind and operand; a last kind without an operand is refused as
   if that were too large. An empty list is refused for its place alone. Either pointer may be NULL where its length is
   0; what they lead to may not overlap. */
zobukwami_written zobukwami_write_events(
    uint8_t *buffer, size_t buffer_length,
    size_t place,
    const uint32_t *events, size_t events_length);

/* An event of a list, as two numbers. */
typedef struct zobukwami_event {
    uint32_t kind;
    uint32_t operand;
} zobukwami_event;

/* The same call, for an array of so many events. */
static inline zobukwami_written zobukwami_write_list(
    uint8_t *buffer, size_t buffer_length,
    size_t place,
    const zobukwami_event *events, size_t count)
{
    return zobukwami_write_events(
        buffer, buffer_length,
        place,
        (const uint32_t *)(const void *)events, count * ZOBUKWAMI_EVENT_NUMBERS);
}

#ifdef __cplusplus
}
#endif

#endif
