/* The writer's calls of include/zobukwami.h, written by hand in C for speed, under the names EVENT and LIST. Bytes are
   put together in a word, in the order of x86-64, and stored at once. */
#include <stdbool.h>
#include <string.h>

#include "zobukwami.h"

#ifndef EVENT
#define EVENT by_hand_event
#define LIST by_hand_list
#endif

#define INLINE static inline __attribute__((always_inline))
#define RARE static __attribute__((noinline, cold))
#define UNLIKELY(so) __builtin_expect(!!(so), 0)

enum {
    TWO = 16,     /* the first operand of an event of two bytes, */
    THREE = 2048, /* and of three */
    MANY = 32,    /* numbers from which on a list is not short */
    PIECE = 1 << 20,
};

static const uint32_t largest[] = {0, 0, 0, 62, 62, 4095, 4095};

INLINE zobukwami_written giving(uint32_t code, size_t next)
{
    return (zobukwami_written){.code = code, .next = next};
}

INLINE uint32_t number_of(const uint32_t *event)
{
    return event[1] * 8 + event[0];
}

/* For an event that is refused: the code. */
RARE zobukwami_written refuse(size_t place, uint32_t kind, uint32_t operand)
{
    if (kind > ZOBUKWAMI_WRITE)
        return giving(ZOBUKWAMI_RESERVED, place);
    return giving(operand > largest[kind] ? ZOBUKWAMI_OPERAND_LARGE : ZOBUKWAMI_BUFFER_SHORT, place);
}

/* For a list: the code of the first event that is refused. */
RARE zobukwami_written refuse_list(size_t length, size_t place, const uint32_t *events, size_t count)
{
    size_t left = place > length ? 0 : length - place;
    for (size_t i = 0; i < count; i += 2) {
        uint32_t kind = events[i], operand = i + 1 < count ? events[i + 1] : UINT32_MAX;
        size_t size = operand < TWO ? 1 : operand < THREE ? 2 : 3;
        if (kind > ZOBUKWAMI_WRITE || operand > largest[kind] || size > left)
            return refuse(place, kind, operand);
        left -= size;
    }
    return giving(ZOBUKWAMI_BUFFER_SHORT, place);
}

/* Writes a number of two or three bytes. Added once more the second group moves up by a bit; then come the top bits.
   A third group is 1, and is taken off from the first two. */
INLINE void put_two(uint8_t *at, uint32_t number)
{
    uint16_t two = (uint16_t)(number + (number & 0x3F80) + 0x80);
    memcpy(at, &two, sizeof two);
}

INLINE void put_three(uint8_t *at, uint32_t number)
{
    uint16_t two = (uint16_t)(number + (number & 0x3F80) + 0x8080 - 0x4000);
    memcpy(at, &two, sizeof two);
    at[2] = 1;
}

zobukwami_written EVENT(uint8_t *buffer, size_t length, size_t place, uint32_t kind, uint32_t operand)
{
    if (UNLIKELY(kind > ZOBUKWAMI_WRITE) || UNLIKELY(operand > largest[kind]) || UNLIKELY(place >= length))
        return refuse(place, kind, operand);
    uint32_t number = operand * 8 + kind;
    if (operand < TWO) {
        buffer[place] = (uint8_t)number;
        return giving(ZOBUKWAMI_ACCEPTED, place + 1);
    }
    if (operand < THREE) {
        if (UNLIKELY(length - place < 2))
            return refuse(place, kind, operand);
        put_two(buffer + place, number);
        return giving(ZOBUKWAMI_ACCEPTED, place + 2);
    }
    if (UNLIKELY(length - place < 3))
        return refuse(place, kind, operand);
    put_three(buffer + place, number);
    return giving(ZOBUKWAMI_ACCEPTED, place + 3);
}

/* Adds the bytes that the events take beyond one each. False where an event is refused for its kind or operand. */
INLINE bool judge(const uint32_t *events, size_t count, size_t *size)
{
    for (size_t i = 0; i != count; i += 2) {
        uint32_t kind = events[i], operand = events[i + 1];
        if (UNLIKELY(kind > ZOBUKWAMI_WRITE) || UNLIKELY(operand > largest[kind]))
            return false;
        *size += operand >= TWO;
        *size += operand >= THREE;
    }
    return true;
}

/* The same without a branch or a table, so that compilers make vectors of it. What is below zero is refused. */
INLINE bool judge_many(const uint32_t *events, size_t count, size_t *size)
{
    int32_t all = 0, more = 0;
    for (size_t i = 0; i != count / 2; i++) {
        int32_t kind = (int32_t)events[2 * i], operand = (int32_t)events[2 * i + 1];
        int32_t most = (-(kind >= ZOBUKWAMI_LOCK) & 62) | (-(kind >= ZOBUKWAMI_READ) & 4095);
        all |= kind | operand | -(kind > ZOBUKWAMI_WRITE) | -(operand > most);
        more += (operand >= TWO) + (operand >= THREE);
    }
    *size += (uint32_t)more;
    return all >= 0;
}

/* Writes events, each with no byte beyond its own. */
INLINE void put(uint8_t *at, const uint32_t *events, size_t count)
{
    for (size_t i = 0; i != count; i += 2) {
        uint32_t number = number_of(events + i);
        if (number < TWO * 8) {
            *at++ = (uint8_t)number;
        } else if (number < THREE * 8) {
            put_two(at, number);
            at += 2;
        } else {
            put_three(at, number);
            at += 3;
        }
    }
}

/* What is to be added to a number to get its bytes, and above them how many they are, by its groups but the lowest. */
#define FORM(high)                                                                                                     \
    ((high) < 1     ? 0x01000000u                                                                                      \
     : (high) < 128 ? 0x02000080u + 128u * (high)                                                                      \
                    : 0x03018080u + 128u * (high) - 0x8000u)
#define FORM_4(high) FORM(high), FORM(high + 1), FORM(high + 2), FORM(high + 3)
#define FORM_16(high) FORM_4(high), FORM_4(high + 4), FORM_4(high + 8), FORM_4(high + 12)
#define FORM_64(high) FORM_16(high), FORM_16(high + 16), FORM_16(high + 32), FORM_16(high + 48)

static const uint32_t forms[] = {FORM_64(0), FORM_64(64), FORM_64(128), FORM_64(192)};

/* Writes an event that three others follow: four bytes, and those that are not its own are overwritten by theirs. */
INLINE uint8_t *put_ahead(uint8_t *at, const uint32_t *event)
{
    uint32_t number = number_of(event);
    uint32_t form = number + forms[number / 128];
    memcpy(at, &form, sizeof form);
    return at + (form >> 24);
}

/* Writes a list that is not short, or empty. */
static __attribute__((noinline)) zobukwami_written write_many(
    uint8_t *restrict buffer, size_t length, size_t place, const uint32_t *restrict events, size_t count)
{
    size_t size = count / 2;
    for (size_t i = 0; i < count - count % 2; i += PIECE) { /* so that 32 bits do for the sums */
        if (UNLIKELY(!judge_many(events + i, count - i < PIECE ? count - i : PIECE, &size)))
            return refuse_list(length, place, events, count);
    }
    if (UNLIKELY(count % 2 != 0) || UNLIKELY(place > length) || UNLIKELY(size > length - place))
        return refuse_list(length, place, events, count);
    if (count == 0)
        return giving(ZOBUKWAMI_ACCEPTED, place);
    uint8_t *at = buffer + place;
    size_t ahead = (count - 6) / 8 * 8; /* all but the last three, or a few more */
    for (size_t i = 0; i != ahead; i += 8) {
        at = put_ahead(at, events + i);
        at = put_ahead(at, events + i + 2);
        at = put_ahead(at, events + i + 4);
        at = put_ahead(at, events + i + 6);
    }
    put(at, events + ahead, count - ahead);
    return giving(ZOBUKWAMI_ACCEPTED, place + size);
}

zobukwami_written LIST(
    uint8_t *restrict buffer, size_t length, size_t place, const uint32_t *restrict events, size_t count)
{
    if (count - 1 >= MANY - 1) /* or none */
        return write_many(buffer, length, place, events, count);
    size_t size = count / 2;
    if (UNLIKELY(count % 2 != 0) || UNLIKELY(!judge(events, count, &size)) || UNLIKELY(place > length) ||
        UNLIKELY(size > length - place))
        return refuse_list(length, place, events, count);
    put(buffer + place, events, count);
    return giving(ZOBUKWAMI_ACCEPTED, place + size);
}
