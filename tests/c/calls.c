/* Calls the library as a C program does, and holds what it returns and leaves against 01. */
#include <zobukwami.h>

#include <inttypes.h>
#include <stdio.h>
#include <string.h>

/* What the room and the report hold at entry, in every byte and in every number. */
enum { NOISE = 0xA5, NOISE_NUMBER = 0xA5A5A5 };

enum { PIECES = 7, REPORT_NUMBERS = 12 };

/* By name, since by order a field in the wrong place of the header would be wrong here too. */
#define ANSWER(c, e, o, r, v, m) {.code = c, .events = e, .offset = o, .races = r, .visits = v, .most = m}

typedef struct trial {
    const char *name;
    const char *bytes;
    size_t length;
    zobukwami_answer answer;
} trial;

#define BYTES(text) text, sizeof text - 1

/* A trace for each code that a short one gives. */
static const trial trials[] = {
    {"main returns", BYTES("\x01"), ANSWER(ZOBUKWAMI_ACCEPTED, 1, 1, 0, 0, 0)},
    {"ends inside a number", BYTES("\xFF\xFF"), ANSWER(ZOBUKWAMI_BYTES_END, 0, 0, 0, 0, 0)},
    {"third byte's top bit", BYTES("\xFF\xFF\xFF"), ANSWER(ZOBUKWAMI_FORM_LONG, 0, 0, 0, 0, 0)},
    {"second group zero", BYTES("\x80\x00"), ANSWER(ZOBUKWAMI_FORM_LONG, 0, 0, 0, 0, 0)},
    {"kind 7", BYTES("\x07"), ANSWER(ZOBUKWAMI_RESERVED, 0, 0, 0, 0, 0)},
    {"lock 63", BYTES("\xFB\x03"), ANSWER(ZOBUKWAMI_OPERAND_LARGE, 0, 0, 0, 0, 0)},
    {"event after main", BYTES("\x01\x01"), ANSWER(ZOBUKWAMI_AFTER_MAIN, 1, 1, 0, 0, 0)},
    {"spawn with a lock held", BYTES("\x03\x00"), ANSWER(ZOBUKWAMI_HOLDING, 1, 1, 0, 0, 1)},
    {"lock already held", BYTES("\x03\x03"), ANSWER(ZOBUKWAMI_HELD_ALREADY, 1, 1, 0, 0, 1)},
    {"unlock not held", BYTES("\x04"), ANSWER(ZOBUKWAMI_NOT_HELD, 0, 0, 0, 0, 0)},
    {"lock 62", BYTES("\xF3\x03"), ANSWER(ZOBUKWAMI_UNFINISHED, 1, 2, 0, 0, 1)},
    {"empty", BYTES(""), ANSWER(ZOBUKWAMI_UNFINISHED, 0, 0, 0, 0, 0)},
};

/* Six numbers that all differ. A body writes location 16 under lock 0 (event 2). Main, parallel with it, writes it
   twice and reads it (5, 6, 7), each in a race with 2; the lists visited are 2, then 2 5, then 2 6. Then it takes locks
   0 and 1, and 1 again. */
static const trial all_differ = {
    "six numbers that differ",
    BYTES("\x00\x03\x86\x01\x04\x01\x86\x01\x86\x01\x85\x01\x03\x0B\x0B"),
    ANSWER(ZOBUKWAMI_HELD_ALREADY, 10, 14, 3, 5, 2),
};
static const uint32_t all_differ_report[] = {16, 2, 5, 16, 2, 6, 16, 2, 7};

static zobukwami_room room;
static uint8_t long_trace[ZOBUKWAMI_MOST_BYTES + 1];
static unsigned calls;
static unsigned failures;

static void expect(const char *name, const char *what, uint64_t wanted, uint64_t got)
{
    if (got != wanted) {
        printf("%s: %s %" PRIu64 ", not %" PRIu64 "\n", name, what, got, wanted);
        failures++;
    }
}

static void expect_answer(const char *name, zobukwami_answer wanted, zobukwami_answer got)
{
    calls++;
    expect(name, "code", wanted.code, got.code);
    expect(name, "events", wanted.events, got.events);
    expect(name, "offset", wanted.offset, got.offset);
    expect(name, "races", wanted.races, got.races);
    expect(name, "visits", wanted.visits, got.visits);
    expect(name, "most", wanted.most, got.most);
}

/* The whole room holds this in every byte. */
static void expect_room(const char *name, uint8_t wanted)
{
    const uint8_t *bytes = (const uint8_t *)&room;
    size_t same = 0;
    while (same < sizeof room && bytes[same] == wanted)
        same++;
    expect(name, "bytes of room as they should be", sizeof room, same);
}

static void check(const char *name, const uint8_t *trace, size_t length, zobukwami_answer wanted)
{
    memset(&room, NOISE, sizeof room);
    expect_answer(name, wanted, zobukwami_check_in(&room, trace, length, NULL, 0));
    expect_room(name, wanted.code == ZOBUKWAMI_TRACE_LONG ? NOISE : 0);
}

static void check_trial(const trial *one)
{
    check(one->name, (const uint8_t *)one->bytes, one->length, one->answer);
}

/* The report takes the entries that fit, and the rest of it is kept. */
static void check_reports(void)
{
    const trial *one = &all_differ;
    for (size_t length = 0; length <= REPORT_NUMBERS; length++) {
        uint32_t report[REPORT_NUMBERS];
        for (size_t i = 0; i < REPORT_NUMBERS; i++)
            report[i] = NOISE_NUMBER;
        expect_answer(one->name, one->answer,
                      zobukwami_check_in(&room, (const uint8_t *)one->bytes, one->length, report, length));
        size_t fit = length / ZOBUKWAMI_NUMBERS;
        size_t written = (fit < one->answer.races ? fit : one->answer.races) * ZOBUKWAMI_NUMBERS;
        for (size_t i = 0; i < REPORT_NUMBERS; i++)
            expect(one->name, "report", i < written ? all_differ_report[i] : NOISE_NUMBER, report[i]);
    }
}

/* Pieces of these lengths: one that is too short gets code 1 and nothing is touched. */
static void check_pieces(const char *name, const size_t lengths[PIECES], zobukwami_room *lent)
{
    const zobukwami_answer wanted = ANSWER(ZOBUKWAMI_ROOM_SHORT, 0, 0, 0, 0, 0);
    memset(&room, NOISE, sizeof room);
    expect_answer(name, wanted,
                  zobukwami_check((const uint8_t *)all_differ.bytes, all_differ.length, NULL, 0,
                                  lent ? lent->heads : NULL, lengths[0],
                                  lent ? lent->links : NULL, lengths[1],
                                  lent ? lent->events : NULL, lengths[2],
                                  lent ? lent->procedures : NULL, lengths[3],
                                  lent ? lent->sets : NULL, lengths[4],
                                  lent ? lent->starts : NULL, lengths[5],
                                  lent ? lent->joins : NULL, lengths[6]));
    expect_room(name, NOISE);
}

static void check_short_pieces(void)
{
    for (size_t shorter = 0; shorter < PIECES; shorter++) {
        size_t lengths[PIECES];
        for (size_t i = 0; i < PIECES; i++)
            lengths[i] = i == shorter ? ZOBUKWAMI_PIECE - 1 : ZOBUKWAMI_PIECE;
        check_pieces("a piece one short", lengths, &room);
    }
    const size_t none[PIECES] = {0};
    check_pieces("no room at all", none, NULL);
}

/* The longest trace, syncs and main's return, and one byte more. */
static void check_lengths(void)
{
    const zobukwami_answer longest = ANSWER(ZOBUKWAMI_ACCEPTED, ZOBUKWAMI_MOST_BYTES, ZOBUKWAMI_MOST_BYTES, 0, 0, 0);
    const zobukwami_answer longer = ANSWER(ZOBUKWAMI_TRACE_LONG, 0, 0, 0, 0, 0);
    memset(long_trace, 0x02, sizeof long_trace);
    long_trace[ZOBUKWAMI_MOST_BYTES - 1] = 0x01;
    check("the longest", long_trace, ZOBUKWAMI_MOST_BYTES, longest);
    check("one byte longer", long_trace, sizeof long_trace, longer);
}

/* 4,096 spawns: main is a procedure too, so the last is one too many. */
static void check_procedures(void)
{
    const zobukwami_answer wanted = ANSWER(ZOBUKWAMI_PROCEDURES_MANY, 4095, 4095, 0, 0, 0);
    memset(long_trace, 0x00, 4096);
    check("4,096 spawns", long_trace, 4096, wanted);
}

static uint8_t *put_number(uint8_t *to, uint32_t number)
{
    for (; number >= 0x80; number >>= 7)
        *to++ = (uint8_t)(0x80 | (number & 0x7F));
    *to++ = (uint8_t)number;
    return to;
}

/* A write to each of the 4,096 locations keeps as many entries; then one under a lock would keep one more. Of the
   writes 16 take one byte, 2,032 two and 2,048 three, and the lock takes one. */
static void check_entries(void)
{
    const zobukwami_answer wanted = ANSWER(ZOBUKWAMI_ENTRIES_MANY, 4097, 16 + 2 * 2032 + 3 * 2048 + 1, 0, 0, 1);
    uint8_t *end = long_trace;
    for (uint32_t location = 0; location < 4096; location++)
        end = put_number(end, location * 8 + 6);
    *end++ = 0x03;
    *end++ = 0x06;
    check("4,097 entries", long_trace, (size_t)(end - long_trace), wanted);
}

int main(void)
{
    for (size_t i = 0; i < sizeof trials / sizeof *trials; i++)
        check_trial(&trials[i]);
    check_trial(&all_differ);
    check("no trace", NULL, 0, (zobukwami_answer)ANSWER(ZOBUKWAMI_UNFINISHED, 0, 0, 0, 0, 0));
    check_reports();
    check_short_pieces();
    check_lengths();
    check_procedures();
    check_entries();
    printf("%u calls, %u differences\n", calls, failures);
    return failures > 0;
}
