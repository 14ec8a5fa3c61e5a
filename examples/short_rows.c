/* The request's own case as a program: a short row generator splits the back of a bear, spawns the halves, and lets
   them share one row table under locks. It is run serially, as a Cilk program is when its trace is recorded, and the
   trace is checked. First comes a generator with a fault that can leave a row of length zero, then the corrected one.
   Run serially, both come out right. */
#include "recorder.h"

#include <inttypes.h>
#include <stdbool.h>
#include <stdio.h>
#include <string.h>

enum {
    ROWS = 40,     /* rows of the back */
    PIECE = 5,     /* so many rows are not split any further */
    BAND = 6,      /* so many rows have one lock */
    EVENTS = 1000, /* room for so many events, and for a race at each of them */
    BYTES = EVENTS * ZOBUKWAMI_EVENT_BYTES,
    NUMBERS = EVENTS * ZOBUKWAMI_NUMBERS
};

#define MISSING (-1) /* the length of a row that is not in the table yet */

static int table[ROWS];
static uint8_t bytes[BYTES];
static recorder_note notes[EVENTS];
static recorder run;

/* Every access to the row table is one of these two, which record it with the line they stand in. */
#define LENGTH(row) (RECORD_READ(&run, (row)), table[row])
#define PUT(row, length) (RECORD_WRITE(&run, (row)), (void)(table[row] = (length)))

/* A serial run need not wait for a lock, so taking it and letting go of it are only recorded. */
#define TAKE(lock) RECORD_LOCK(&run, (lock))
#define LET_GO(lock) RECORD_UNLOCK(&run, (lock))

static uint32_t lock_of(uint32_t row)
{
    return row / BAND;
}

/* Two stitches more with each row up to the middle of the back, and two fewer from there on. */
static int length_of(uint32_t row)
{
    uint32_t above = ROWS - 1 - row;
    return 20 + 2 * (int)(row < above ? row : above);
}

/* The faulty generator. The last row of a piece turns around the row above it, which is the other half's. Where that
   one is missing, it is put in with length zero, for the other half to fill: but under the lock of the last row. Within
   a band that is the right lock. For the first row of a band it is not, and the other half can fill the row after it
   was found missing and before the zero is put in. Then the zero stays, and the controller reads it as full width. */
static void faulty_row_above(uint32_t row)
{
    TAKE(lock_of(row - 1));
    if (LENGTH(row) == MISSING)
        PUT(row, 0);
    LET_GO(lock_of(row - 1));
}

static void faulty_own_row(uint32_t row)
{
    TAKE(lock_of(row));
    PUT(row, length_of(row));
    LET_GO(lock_of(row));
}

/* The corrected generator. Whichever half comes first puts the row in, with its length and under its own lock, and the
   other leaves it as it is. */
static void corrected_row(uint32_t row)
{
    TAKE(lock_of(row));
    if (LENGTH(row) == MISSING)
        PUT(row, length_of(row));
    LET_GO(lock_of(row));
}

typedef struct generator {
    const char *name;
    void (*own_row)(uint32_t row);
    void (*row_above)(uint32_t row);
} generator;

static const generator faulty = {"faulty", faulty_own_row, faulty_row_above};
static const generator corrected = {"corrected", corrected_row, corrected_row};

static void make_piece(const generator *by, uint32_t from, uint32_t end)
{
    for (uint32_t row = from; row < end; row++)
        by->own_row(row);
    if (end < ROWS)
        by->row_above(end);
}

/* In Cilk: cilk_spawn split(by, from, seam); cilk_spawn split(by, seam, end); cilk_sync; */
static void split(const generator *by, uint32_t from, uint32_t end)
{
    if (end - from > PIECE) {
        uint32_t seam = from + (end - from) / 2;
        RECORD_SPAWN(&run);
        split(by, from, seam);
        RECORD_SPAWN(&run);
        split(by, seam, end);
        RECORD_SYNC(&run);
    } else {
        make_piece(by, from, end);
    }
    RECORD_RETURN(&run);
}

/* Records a whole run, and gives the rows as it leaves them. */
static void make_back(const generator *by, int *rows)
{
    run = recorder_lent(bytes, BYTES, notes, EVENTS);
    for (uint32_t row = 0; row < ROWS; row++)
        PUT(row, MISSING);
    RECORD_SPAWN(&run);
    split(by, 0, ROWS);
    RECORD_SYNC(&run);
    for (uint32_t row = 0; row < ROWS; row++)
        rows[row] = LENGTH(row);
    RECORD_RETURN(&run);
}

static void print_rows(const char *name, const int *rows)
{
    int shortest = rows[0], longest = rows[0], stitches = 0;
    for (uint32_t row = 0; row < ROWS; row++) {
        shortest = rows[row] < shortest ? rows[row] : shortest;
        longest = rows[row] > longest ? rows[row] : longest;
        stitches += rows[row];
    }
    printf("%s: run serially, %d rows of %d to %d stitches, %d in all\n", name, ROWS, shortest, longest, stitches);
}

static const char *done_by(uint32_t event)
{
    return notes[event].kind == ZOBUKWAMI_WRITE ? "written" : "read";
}

static void print_race(uint32_t row, uint32_t earlier, uint32_t later)
{
    printf("  row %" PRIu32 ": %s at %s:%" PRIu32 " (event %" PRIu32 ")\n",
           row, done_by(earlier), __FILE__, notes[earlier].line, earlier);
    printf("    and %s at %s:%" PRIu32 " (event %" PRIu32 "), and no lock is held at both\n",
           done_by(later), __FILE__, notes[later].line, later);
}

/* Checks the recorded trace and prints every race. Is it accepted, and are there races or none, as is wanted? */
static bool check(const char *name, bool racing)
{
    static zobukwami_room room;
    static uint32_t report[NUMBERS];
    zobukwami_answer answer = zobukwami_check_in(&room, bytes, run.next, report, NUMBERS);
    printf("%s: %" PRIu32 " events, code %" PRIu32 ", races %" PRIu32 "\n",
           name, answer.events, answer.code, answer.races);
    for (uint32_t i = 0; i < answer.races; i++) {
        const uint32_t *race = report + i * ZOBUKWAMI_NUMBERS;
        print_race(race[0], race[1], race[2]);
    }
    return answer.code == ZOBUKWAMI_ACCEPTED && (answer.races > 0) == racing;
}

static bool save(const char *file_name)
{
    FILE *file = fopen(file_name, "wb");
    bool saved = file != NULL && fwrite(bytes, 1, run.next, file) == run.next;
    if (file != NULL && fclose(file) != 0)
        saved = false;
    if (!saved)
        perror(file_name);
    return saved;
}

/* Records and checks a run, and saves its trace where a file is named. Did all of it go as is wanted? */
static bool show(const generator *by, bool racing, int *rows, const char *file_name)
{
    make_back(by, rows);
    if (run.code != ZOBUKWAMI_ACCEPTED) {
        fprintf(stderr, "%s: event %zu, at %s:%" PRIu32 ", is refused with code %" PRIu32 "\n",
                by->name, run.events, __FILE__, run.refused_line, run.code);
        return false;
    }
    print_rows(by->name, rows);
    bool checked = check(by->name, racing);
    return (file_name == NULL || save(file_name)) && checked;
}

int main(int count, char **words)
{
    static int before[ROWS], after[ROWS];
    if (count != 1 && count != 3) {
        fprintf(stderr, "usage: short_rows [FILE FILE], where the faulty and the corrected trace are saved\n");
        return 1;
    }
    bool as_told = show(&faulty, true, before, count == 3 ? words[1] : NULL);
    as_told = show(&corrected, false, after, count == 3 ? words[2] : NULL) && as_told;
    bool same = memcmp(before, after, sizeof before) == 0;
    printf("run serially, the two give %s\n", same ? "the same rows" : "different rows");
    if (fflush(stdout) != 0 || ferror(stdout)) {
        perror("standard output");
        return 1;
    }
    return as_told && same ? 0 : 1;
}
