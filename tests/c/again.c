/* Reads a trace on standard input, and writes the events of its accepted part again: they have to be the same bytes, and
   nothing beside them may change. Exit status 0 if they are, 1 if not, 2 if it could not be tried. */
#include <zobukwami.h>

#include <inttypes.h>
#include <stdio.h>
#include <string.h>

enum { NOISE = 0xA5, AROUND = 4 };

static uint8_t trace[ZOBUKWAMI_MOST_BYTES + 1];
static zobukwami_event events[ZOBUKWAMI_MOST_BYTES];
static uint8_t buffer[AROUND + ZOBUKWAMI_MOST_BYTES + AROUND];
static zobukwami_room room;

/* The events of so many bytes. */
static size_t read_events(size_t length)
{
    size_t count = 0;
    uint32_t number = 0;
    uint32_t weight = 1;
    for (size_t place = 0; place < length; place++) {
        number += trace[place] % 128 * weight;
        weight *= 128;
        if (trace[place] < 128) {
            events[count].kind = number % 8;
            events[count].operand = number / 8;
            count++;
            number = 0;
            weight = 1;
        }
    }
    return count;
}

static int differs(const char *what, size_t wanted, size_t got)
{
    if (got == wanted)
        return 0;
    printf("again: %s %zu, not %zu\n", what, got, wanted);
    return 1;
}

/* All but the bytes written is as it was. */
static size_t changed_around(size_t length)
{
    size_t changed = 0;
    for (size_t i = 0; i < AROUND; i++)
        changed += (buffer[i] != NOISE) + (size_t)(buffer[AROUND + length + i] != NOISE);
    return changed;
}

int main(void)
{
    const size_t length = fread(trace, 1, sizeof trace, stdin);
    if (ferror(stdin)) {
        perror("standard input");
        return 2;
    }
    const zobukwami_answer answer = zobukwami_check_in(&room, trace, length, NULL, 0);
    const size_t count = read_events(answer.offset);
    memset(buffer, NOISE, answer.offset + 2 * AROUND);
    const zobukwami_written written =
        zobukwami_write_list(buffer, answer.offset + 2 * AROUND, AROUND, events, count);
    int wrong = differs("events", answer.events, count);
    wrong |= differs("code", ZOBUKWAMI_ACCEPTED, written.code);
    wrong |= differs("next place", AROUND + answer.offset, written.next);
    wrong |= differs("bytes differ:", 0, memcmp(buffer + AROUND, trace, answer.offset) != 0);
    return wrong | differs("bytes changed around them:", 0, changed_around(answer.offset));
}
