/* The call of include/zobukwami.h, written by hand in C for speed. The file that includes this one has defined CHECK,
   the name of the call, and the bags:

       struct bags                                what is known of the open procedures
       struct bags_room                           room that they take beside what is lent
       bags_begin(&bags, &room, starts, joins)    main begins
       bags_running(&bags)                        the procedure that runs
       bags_spawn(&bags)                          false where 4,096 procedures have begun
       bags_sync(&bags)
       bags_return(&bags)                         false where it is main that returns
       bags_parallel(&bags, procedure)            is it in parallel with what runs? */
#include <stdbool.h>
#include <string.h>

#include "zobukwami.h"

enum { SPAWN, RETURN, SYNC, LOCK, UNLOCK, READ, WRITE };

#define NONE UINT32_MAX /* no slot */
#define NONE_BYTE 0xFF
#define REFUSED UINT32_MAX /* no number */

#define LIKELY(so) __builtin_expect(!!(so), 1)
#define UNLIKELY(so) __builtin_expect(!!(so), 0)

/* What need not stand in a register. */
struct state {
    struct bags bags;
    uint64_t held;          /* the locks held, */
    uint32_t holding, most; /* how many, and the most so far */
    uint32_t used, freed;   /* how many slots were ever used, and the one freed last, or NONE */
    uint32_t race;          /* the slot of the first entry that the access races with, or NONE */
    uint32_t races;
    uint64_t visits;
    size_t fit; /* how many entries the report takes */
    uint32_t *report;
    uint32_t *links, *events, *procedures;
    uint64_t *sets;
    uint32_t code;
};

/* How many bytes a number takes. */
static inline size_t bytes_of(uint32_t number)
{
    return number < 128 ? 1 : number < 16384 ? 2 : 3;
}

/* Reads any number. Where it is refused, whatever its kind, gives REFUSED and the code. */
static __attribute__((noinline, cold)) uint32_t read_slowly(const uint8_t *at, const uint8_t *end, uint32_t *code)
{
    uint32_t number = 0;
    for (uint32_t groups = 0; groups < 3; groups++) {
        if (at + groups == end) {
            *code = ZOBUKWAMI_BYTES_END;
            return REFUSED;
        }
        uint32_t byte = at[groups];
        number |= (byte & 127) << 7 * groups;
        if (byte >= 128)
            continue;
        if (groups > 0 && byte == 0)
            break;
        if (number <= 32767)
            return number;
        *code = number % 8 == 7 ? ZOBUKWAMI_RESERVED : ZOBUKWAMI_OPERAND_LARGE;
        return REFUSED;
    }
    *code = ZOBUKWAMI_FORM_LONG;
    return REFUSED;
}

/* The code that the bytes after main's return get. */
static __attribute__((noinline, cold)) uint32_t after_main(const uint8_t *at, const uint8_t *end)
{
    static const uint16_t largest[8] = {0, 0, 0, 62, 62, 4095, 4095, 0};
    uint32_t code;
    if (at == end)
        return ZOBUKWAMI_ACCEPTED;
    uint32_t number = read_slowly(at, end, &code);
    if (number == REFUSED)
        return code;
    if (number % 8 == 7)
        return ZOBUKWAMI_RESERVED;
    return number / 8 > largest[number % 8] ? ZOBUKWAMI_OPERAND_LARGE : ZOBUKWAMI_AFTER_MAIN;
}

/* Reports the race of an access. */
static __attribute__((noinline, cold)) void note(struct state *s, uint32_t location, uint32_t event)
{
    if (s->races < s->fit) {
        uint32_t *line = s->report + (size_t)s->races * ZOBUKWAMI_NUMBERS;
        line[0] = location;
        line[1] = s->events[s->race];
        line[2] = event;
    }
    s->races++;
    s->race = NONE;
}

/* Visits a list of several entries. Gives the link that is to lead to the access, or NULL where it is left out or has
   taken the place of the last entry. */
static __attribute__((noinline)) uint32_t *visit(struct state *s, uint32_t *link, uint64_t set, uint32_t event)
{
    uint32_t *restrict links = s->links;
    uint64_t *restrict sets = s->sets;
    uint32_t slot, seen = 0;
    bool omitted = false;
    while ((slot = *link) != NONE) {
        uint64_t theirs = sets[slot];
        uint64_t common = theirs & set;
        seen++;
        if (common == 0) {
            if (bags_parallel(&s->bags, s->procedures[slot])) {
                if (s->race == NONE)
                    s->race = slot;
                if (theirs == 0)
                    omitted = true;
            } else if (set == 0) {
                goto drop;
            }
        } else if (common == set) {
            if (!bags_parallel(&s->bags, s->procedures[slot])) {
            drop:;
                uint32_t after = links[slot];
                if (after == NONE && !omitted) {
                    sets[slot] = set;
                    s->events[slot] = event;
                    s->procedures[slot] = bags_running(&s->bags);
                    omitted = true;
                    break;
                }
                *link = after;
                links[slot] = s->freed;
                s->freed = slot;
                continue;
            }
            if (theirs == set)
                omitted = true;
        } else if (common == theirs && !omitted) {
            omitted = bags_parallel(&s->bags, s->procedures[slot]);
        }
        link = &links[slot];
    }
    s->visits += seen;
    return omitted ? NULL : link;
}

zobukwami_answer CHECK(
    const uint8_t *restrict trace, size_t trace_length,
    uint32_t *restrict report, size_t report_length,
    uint32_t *restrict heads, size_t heads_length,
    uint32_t *restrict links, size_t links_length,
    uint32_t *restrict events, size_t events_length,
    uint32_t *restrict procedures, size_t procedures_length,
    uint64_t *restrict sets, size_t sets_length,
    uint32_t *restrict starts, size_t starts_length,
    uint32_t *restrict joins, size_t joins_length)
{
    zobukwami_answer answer = {0};
    if (heads_length < ZOBUKWAMI_PIECE || links_length < ZOBUKWAMI_PIECE || events_length < ZOBUKWAMI_PIECE ||
        procedures_length < ZOBUKWAMI_PIECE || sets_length < ZOBUKWAMI_PIECE || starts_length < ZOBUKWAMI_PIECE ||
        joins_length < ZOBUKWAMI_PIECE) {
        answer.code = ZOBUKWAMI_ROOM_SHORT;
        return answer;
    }
    if (trace_length > ZOBUKWAMI_MOST_BYTES) {
        answer.code = ZOBUKWAMI_TRACE_LONG;
        return answer;
    }

    memset(heads, NONE_BYTE, ZOBUKWAMI_PIECE * sizeof *heads);
    struct bags_room room;
    struct state s = {.freed = NONE, .race = NONE};
    bags_begin(&s.bags, &room, starts, joins);
    s.fit = report_length / ZOBUKWAMI_NUMBERS;
    s.report = report;
    s.links = links;
    s.events = events;
    s.procedures = procedures;
    s.sets = sets;

    const uint8_t *at = trace; /* what is not read yet */
    const uint8_t *end = trace + trace_length;
    const uint8_t *sure = trace_length < 2 ? trace : end - 2; /* before it a number cannot reach the end */
    uint32_t event = 0;
    uint32_t code;

    for (;; event++) {
        uint32_t number;
        if (UNLIKELY(at >= sure)) {
            if (at == end) {
                code = ZOBUKWAMI_UNFINISHED;
                break;
            }
            goto slowly;
        }
        number = *at++;
        if (number >= 128) {
            uint32_t group = *at++ - 1u;
            number += group << 7;
            /* a third byte other than 1 gives an operand that is too large, if it gives one at all */
            if (group >= 127 && UNLIKELY(*at++ != 1 || group > 254)) {
                at -= 3;
            slowly:
                number = read_slowly(at, end, &s.code);
                if (number == REFUSED) {
                    code = s.code;
                    break;
                }
                at += bytes_of(number);
            }
        }

        uint32_t operand = number >> 3;
        if (LIKELY(((number + 3) & 6) == 0)) { /* READ or WRITE */
            uint64_t set = s.held | (uint64_t)number << 63; /* of the two only READ is odd */
            uint32_t *link = &heads[operand];
            uint32_t slot = *link;
            if (slot == NONE)
                goto append;
            if (LIKELY(links[slot] == NONE)) { /* a list of one */
                uint64_t theirs, common;
            last: /* no entry before it races with the access or leaves it out */
                theirs = sets[slot];
                s.visits++;
                if (theirs == set) {
                    if (!bags_parallel(&s.bags, procedures[slot]))
                        goto replace;
                    if (set != 0)
                        goto done;
                    s.race = slot;
                    goto reported;
                }
                common = theirs & set;
                if (common == 0) {
                    if (bags_parallel(&s.bags, procedures[slot])) {
                        s.race = slot;
                        if (theirs == 0)
                            goto reported;
                    } else if (set == 0) {
                        goto replace;
                    }
                } else if (common == set) {
                    if (!bags_parallel(&s.bags, procedures[slot]))
                        goto replace;
                } else if (common == theirs) {
                    if (bags_parallel(&s.bags, procedures[slot]))
                        goto done;
                }
                link = &links[slot];
                goto append;
            }
            if (links[links[slot]] == NONE) { /* the first of two */
                uint64_t theirs = sets[slot];
                uint64_t common = theirs & set;
                uint32_t after = links[slot];
                if (common == 0 || common == set || common == theirs) {
                    if (bags_parallel(&s.bags, procedures[slot])) {
                        if (common == 0 || common == theirs)
                            goto several;
                    } else if (common == set) {
                        *link = after;
                        links[slot] = s.freed;
                        s.freed = slot;
                    }
                }
                s.visits++;
                slot = after;
                goto last;
            }
        several:
            link = visit(&s, link, set, event);
            if (link == NULL)
                goto reported;
        append:
            if (s.freed != NONE) {
                slot = s.freed;
                s.freed = links[slot];
            } else {
                slot = s.used;
                if (UNLIKELY(slot == ZOBUKWAMI_PIECE)) { /* the access is refused, so its visits do not count */
                    for (slot = heads[operand]; slot != NONE; slot = links[slot])
                        s.visits--;
                    code = ZOBUKWAMI_ENTRIES_MANY;
                    goto refused;
                }
                s.used++;
            }
            links[slot] = NONE;
            *link = slot;
        replace:
            sets[slot] = set;
            events[slot] = event;
            procedures[slot] = bags_running(&s.bags);
        reported:
            if (UNLIKELY(s.race != NONE))
                note(&s, operand, event);
        } else if (((number + 5) & 6) == 0) { /* LOCK or UNLOCK */
            uint64_t lock = UINT64_C(1) << (operand & 63);
            if (UNLIKELY(operand > 62)) {
                code = ZOBUKWAMI_OPERAND_LARGE;
                goto refused;
            }
            s.held ^= lock;
            if (number & 1) { /* LOCK */
                if (UNLIKELY(!(s.held & lock))) {
                    code = ZOBUKWAMI_HELD_ALREADY;
                    goto refused;
                }
                if (++s.holding > s.most)
                    s.most = s.holding;
            } else {
                if (UNLIKELY(s.held & lock)) {
                    code = ZOBUKWAMI_NOT_HELD;
                    goto refused;
                }
                s.holding--;
            }
        } else if (UNLIKELY(number > SYNC)) {
            code = number % 8 == 7 ? ZOBUKWAMI_RESERVED : ZOBUKWAMI_OPERAND_LARGE;
            goto refused;
        } else if (UNLIKELY(s.held != 0)) {
            code = ZOBUKWAMI_HOLDING;
            goto refused;
        } else if (number == SPAWN) {
            if (UNLIKELY(!bags_spawn(&s.bags))) {
                code = ZOBUKWAMI_PROCEDURES_MANY;
                goto refused;
            }
        } else if (number == SYNC) {
            bags_sync(&s.bags);
        } else if (UNLIKELY(!bags_return(&s.bags))) {
            event++;
            code = after_main(at, end);
            break;
        }
    done:;
        continue;

    refused:
        at -= bytes_of(number);
        break;
    }

    memset(heads, 0, ZOBUKWAMI_PIECE * sizeof *heads);
    memset(links, 0, ZOBUKWAMI_PIECE * sizeof *links);
    memset(events, 0, ZOBUKWAMI_PIECE * sizeof *events);
    memset(procedures, 0, ZOBUKWAMI_PIECE * sizeof *procedures);
    memset(sets, 0, ZOBUKWAMI_PIECE * sizeof *sets);
    memset(starts, 0, ZOBUKWAMI_PIECE * sizeof *starts);
    memset(joins, 0, ZOBUKWAMI_PIECE * sizeof *joins);
    answer.code = code;
    answer.events = event;
    answer.offset = (size_t)(at - trace);
    answer.races = s.races;
    answer.visits = s.visits;
    answer.most = s.most;
    return answer;
}
