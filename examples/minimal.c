/* Names the races of the trace on standard input, the first thousand of them. */
#include <inttypes.h>
#include <stdio.h>
#include <zobukwami.h>

enum { ENTRIES = 1000, NUMBERS = ENTRIES * ZOBUKWAMI_NUMBERS };

static uint8_t trace[ZOBUKWAMI_MOST_BYTES + 1];
static uint32_t report[NUMBERS];
static zobukwami_room room;

int main(void)
{
    size_t length = fread(trace, 1, sizeof trace, stdin);
    if (ferror(stdin)) {
        perror("standard input");
        return 2;
    }
    zobukwami_answer answer = zobukwami_check_in(&room, trace, length, report, NUMBERS);
    printf("code %" PRIu32 " races %" PRIu32 "\n", answer.code, answer.races);
    for (uint32_t i = 0; i < answer.races && i < ENTRIES; i++) {
        const uint32_t *race = report + i * ZOBUKWAMI_NUMBERS;
        printf("location %" PRIu32 ": event %" PRIu32 " races with event %" PRIu32 "\n", race[0], race[2], race[1]);
    }
    return answer.code != ZOBUKWAMI_ACCEPTED || answer.races > 0;
}
