/* The header, with nothing before it and twice, in C and in C++. What the library returns and is lent is laid out as
   here; calls.c and writer.c see the library fill and read it. */
#include <zobukwami.h>
#include <zobukwami.h>

#include <assert.h>

extern zobukwami_answer answer;
extern zobukwami_written written;
extern zobukwami_event event;

#define FIELD(of, name, place, size) \
    static_assert(offsetof(zobukwami_##of, name) == (place) && sizeof of.name == (size), #of "." #name)

FIELD(answer, code, 0, 4);
FIELD(answer, events, 4, 4);
FIELD(answer, offset, 8, 8);
FIELD(answer, races, 16, 4);
FIELD(answer, visits, 24, 8);
FIELD(answer, most, 32, 4);
static_assert(sizeof answer == 40, "answer");
FIELD(written, code, 0, 4);
FIELD(written, next, 8, 8);
static_assert(sizeof written == 16, "written");
FIELD(event, kind, 0, 4);
FIELD(event, operand, 4, 4);
static_assert(sizeof event == 8, "event");
static_assert(sizeof event == ZOBUKWAMI_EVENT_NUMBERS * sizeof(uint32_t), "an event as numbers");
static_assert(sizeof(zobukwami_room) == 131072, "room");
static_assert(ZOBUKWAMI_EVENT_BYTES == 3, "the most bytes of an event");
static_assert(ZOBUKWAMI_SPAWN == 0 && ZOBUKWAMI_RETURN == 1 && ZOBUKWAMI_SYNC == 2 && ZOBUKWAMI_LOCK == 3 &&
                  ZOBUKWAMI_UNLOCK == 4 && ZOBUKWAMI_READ == 5 && ZOBUKWAMI_WRITE == 6,
              "the kinds");
static_assert(ZOBUKWAMI_ACCEPTED == 0 && ZOBUKWAMI_RESERVED == 5 && ZOBUKWAMI_OPERAND_LARGE == 6 &&
                  ZOBUKWAMI_BUFFER_SHORT == 15,
              "the codes of the writer");
static_assert(ZOBUKWAMI_IN_NO_BAG == 12, "the one code that no trace gives");
