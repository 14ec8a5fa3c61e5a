/* A recorder for a serial run, over the library's writer: each call records one event, and notes its kind and the line
   of the source it stands in, so that a race can be traced to two lines. Copy it, or put the writer under your own
   recorder. */
#ifndef RECORDER_H
#define RECORDER_H

#include <zobukwami.h>

typedef struct recorder_note {
    uint32_t kind;
    uint32_t line;
} recorder_note;

typedef struct recorder {
    uint8_t *bytes;        /* lent: the trace */
    size_t bytes_length;   /* how many bytes there are for it */
    recorder_note *notes;  /* lent: a note of each event */
    size_t notes_length;   /* how many notes there is room for */
    size_t next;           /* the place of the next event: the length of the trace */
    size_t events;         /* events recorded */
    uint32_t code;         /* 0, or the first refusal, after which nothing more is recorded */
    uint32_t refused_line; /* the line of what was refused */
} recorder;

/* A recorder at its start. For each event ZOBUKWAMI_EVENT_BYTES bytes are enough, and one note is needed. */
static inline recorder recorder_lent(uint8_t *bytes, size_t bytes_length, recorder_note *notes, size_t notes_length)
{
    recorder to = {bytes, bytes_length, notes, notes_length, 0, 0, ZOBUKWAMI_ACCEPTED, 0};
    return to;
}

/* Where there is no room for its note, an event gets ZOBUKWAMI_BUFFER_SHORT, whatever it is. */
static inline void recorder_event(recorder *to, uint32_t line, uint32_t kind, uint32_t operand)
{
    if (to->code != ZOBUKWAMI_ACCEPTED)
        return;
    zobukwami_written written = {ZOBUKWAMI_BUFFER_SHORT, to->next};
    if (to->events < to->notes_length)
        written = zobukwami_write_event(to->bytes, to->bytes_length, to->next, kind, operand);
    to->code = written.code;
    to->next = written.next;
    if (written.code == ZOBUKWAMI_ACCEPTED) {
        recorder_note *note = &to->notes[to->events++];
        note->kind = kind;
        note->line = line;
    } else {
        to->refused_line = line;
    }
}

static inline void recorder_spawn(recorder *to, uint32_t line)
{
    recorder_event(to, line, ZOBUKWAMI_SPAWN, 0);
}

static inline void recorder_return(recorder *to, uint32_t line)
{
    recorder_event(to, line, ZOBUKWAMI_RETURN, 0);
}

static inline void recorder_sync(recorder *to, uint32_t line)
{
    recorder_event(to, line, ZOBUKWAMI_SYNC, 0);
}

static inline void recorder_lock(recorder *to, uint32_t line, uint32_t lock)
{
    recorder_event(to, line, ZOBUKWAMI_LOCK, lock);
}

static inline void recorder_unlock(recorder *to, uint32_t line, uint32_t lock)
{
    recorder_event(to, line, ZOBUKWAMI_UNLOCK, lock);
}

static inline void recorder_read(recorder *to, uint32_t line, uint32_t location)
{
    recorder_event(to, line, ZOBUKWAMI_READ, location);
}

static inline void recorder_write(recorder *to, uint32_t line, uint32_t location)
{
    recorder_event(to, line, ZOBUKWAMI_WRITE, location);
}

/* The same calls, with the line they stand in. A program of several files can pass the functions another number in its
   place, such as one for each access of the source. */
#define RECORD_SPAWN(to) recorder_spawn((to), __LINE__)
#define RECORD_RETURN(to) recorder_return((to), __LINE__)
#define RECORD_SYNC(to) recorder_sync((to), __LINE__)
#define RECORD_LOCK(to, lock) recorder_lock((to), __LINE__, (lock))
#define RECORD_UNLOCK(to, lock) recorder_unlock((to), __LINE__, (lock))
#define RECORD_READ(to, location) recorder_read((to), __LINE__, (location))
#define RECORD_WRITE(to, location) recorder_write((to), __LINE__, (location))

#endif
