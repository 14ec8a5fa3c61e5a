/* Holds zobukwami_write_event and zobukwami_write_events against the rules of the trace, set down here a second time:
   the code, the next place and every byte. What is lent lies flush against pages that may not be touched, so a byte
   read or written outside it ends the call by a signal, and that is a difference too. Traces that were written
   go to the checker as well. Takes a seed for what is random, 1 where none is given. */
#define _DEFAULT_SOURCE

#include <zobukwami.h>

#include <inttypes.h>
#include <setjmp.h>
#include <signal.h>
#include <stdbool.h>
#include <stdio.h>
#include <stdlib.h>
#include <string.h>
#include <sys/mman.h>
#include <unistd.h>

#define COUNT(array) (sizeof(array) / sizeof *(array))

enum {
    KINDS = 7,
    MOST_EVENTS = 1024, /* in a list */
    MOST_BYTES = MOST_EVENTS * 3,
    MOST_FAILURES = 10,
    MOST_SHOWN = 32, /* numbers of a list, where it is shown */
    RANDOM_LISTS = 30000,
    ROUND_TRIPS = 2000
};

/* The rules. */

static const uint32_t largest[KINDS] = {0, 0, 0, 62, 62, 4095, 4095};

/* What is lent to a call. A single event is a list of two numbers. */
typedef struct lent {
    size_t length; /* of the buffer */
    size_t place;
    const uint32_t *numbers;
    size_t count; /* of the numbers */
} lent;

/* What the call should give, and the bytes that it should write from the place on. */
static struct {
    uint32_t code;
    size_t next;
    size_t size;
    uint8_t bytes[MOST_BYTES];
} wanted;

/* The bytes of a number. One group does below 128, two do below 128 * 128. */
static size_t form(uint32_t number, uint8_t bytes[3])
{
    if (number < 128) {
        bytes[0] = (uint8_t)number;
        return 1;
    }
    bytes[0] = (uint8_t)(128 + number % 128);
    if (number < 16384) {
        bytes[1] = (uint8_t)(number / 128);
        return 2;
    }
    bytes[1] = (uint8_t)(128 + number / 128 % 128);
    bytes[2] = (uint8_t)(number / 16384);
    return 3;
}

/* Adds an event to what is wanted, or gives the code that refuses it there. */
static uint32_t want_event(size_t length, uint32_t kind, uint32_t operand)
{
    uint8_t bytes[3];
    if (kind >= KINDS)
        return ZOBUKWAMI_RESERVED;
    if (operand > largest[kind])
        return ZOBUKWAMI_OPERAND_LARGE;
    size_t size = form(operand * 8 + kind, bytes);
    if (wanted.next > length || length - wanted.next < size)
        return ZOBUKWAMI_BUFFER_SHORT;
    memcpy(wanted.bytes + wanted.size, bytes, size);
    wanted.size += size;
    wanted.next += size;
    return ZOBUKWAMI_ACCEPTED;
}

static void want(const lent *what)
{
    wanted.code = what->count == 0 && what->place > what->length ? ZOBUKWAMI_BUFFER_SHORT : ZOBUKWAMI_ACCEPTED;
    wanted.next = what->place;
    wanted.size = 0;
    for (size_t i = 0; i < what->count / 2 && wanted.code == ZOBUKWAMI_ACCEPTED; i++)
        wanted.code = want_event(what->length, what->numbers[2 * i], what->numbers[2 * i + 1]);
    if (wanted.code == ZOBUKWAMI_ACCEPTED && what->count % 2 == 1)
        wanted.code = what->numbers[what->count - 1] >= KINDS ? ZOBUKWAMI_RESERVED : ZOBUKWAMI_OPERAND_LARGE;
    if (wanted.code != ZOBUKWAMI_ACCEPTED) {
        wanted.next = what->place;
        wanted.size = 0;
    }
}

/* Pages. */

typedef struct area {
    uint8_t *first;
    size_t size;
} area;

/* Two that hold lists, read only while they are lent; one that buffers are lent from; one that may not be touched; and
   what that of the buffers should hold. */
static area front_list, back_list, buffers, closed, image;

static void stop_unless(bool done, const char *what)
{
    if (!done) {
        perror(what);
        exit(2);
    }
}

static void allow(area pages, int rights)
{
    stop_unless(mprotect(pages.first, pages.size, rights) == 0, "mprotect");
}

static size_t page_size(void)
{
    return (size_t)sysconf(_SC_PAGESIZE);
}

/* Pages for so many bytes, between two that may never be touched. */
static area reserve(size_t bytes, int rights)
{
    const size_t page = page_size();
    const size_t size = (bytes + page - 1) / page * page;
    void *mapped = mmap(NULL, size + 2 * page, PROT_NONE, MAP_PRIVATE | MAP_ANONYMOUS | MAP_NORESERVE, -1, 0);
    stop_unless(mapped != MAP_FAILED, "mmap");
    const area pages = {(uint8_t *)mapped + page, size};
    allow(pages, rights);
    return pages;
}

static void reserve_all(void)
{
    const size_t list_bytes = MOST_EVENTS * 2 * sizeof(uint32_t);
    front_list = reserve(list_bytes, PROT_READ);
    back_list = reserve(list_bytes, PROT_READ);
    buffers = reserve(MOST_BYTES, PROT_READ | PROT_WRITE);
    closed = reserve(MOST_BYTES, PROT_NONE);
    image = reserve(buffers.size + 2 * page_size(), PROT_READ | PROT_WRITE);
}

/* Calls and differences. */

typedef enum way { EVENT, NUMBERS, LIST, WAYS } way;

static const char *const names[WAYS] = {"zobukwami_write_event", "zobukwami_write_events", "zobukwami_write_list"};

/* Where the buffer and the list lie. Of what may be written there every byte is looked at; it holds noise at first. */
typedef struct spot {
    const char *name;
    area open;
    uint8_t noise;
    uint8_t *buffer;
    const uint32_t *list;
} spot;

/* The call that is made, or was made last. What it was lent stands as long as it may have to be shown. */
static struct {
    way how;
    const lent *what;
    const spot *where;
} now;

static zobukwami_written got;
static unsigned long calls[WAYS];
static unsigned failures;

static sigjmp_buf before_call;
static volatile sig_atomic_t calling;
static volatile sig_atomic_t ended_by;

static void finish(void)
{
    printf("writer: %lu calls of %s, %lu of %s, %lu of %s, %u differences\n", calls[EVENT], names[EVENT],
           calls[NUMBERS], names[NUMBERS], calls[LIST], names[LIST], failures);
    exit(failures > 0);
}

static void show_call(void)
{
    printf("%s, a buffer of %zu bytes %s, place %zu, numbers", names[now.how], now.what->length, now.where->name,
           now.what->place);
    for (size_t i = 0; i < now.what->count && i < MOST_SHOWN; i++)
        printf(" %" PRIu32, now.what->numbers[i]);
    if (now.what->count > MOST_SHOWN)
        printf(" ... (%zu)", now.what->count);
}

static void expect(const char *what, uint64_t right, uint64_t seen)
{
    if (seen == right)
        return;
    show_call();
    printf(": %s %" PRIu64 ", not %" PRIu64 "\n", what, seen, right);
    failures++;
    if (failures == MOST_FAILURES)
        finish();
}

/* A signal ends the call that it comes from. From anywhere else it ends the program. */
static void on_signal(int number)
{
    if (calling) {
        calling = 0;
        ended_by = number;
        siglongjmp(before_call, 1);
    }
    signal(number, SIG_DFL);
    raise(number);
}

static void catch_signals(void)
{
    const int numbers[] = {SIGSEGV, SIGBUS, SIGILL, SIGFPE, SIGABRT};
    struct sigaction action;
    memset(&action, 0, sizeof action);
    action.sa_handler = on_signal;
    action.sa_flags = SA_NODEFER;
    for (size_t i = 0; i < COUNT(numbers); i++)
        stop_unless(sigaction(numbers[i], &action, NULL) == 0, "sigaction");
}

static zobukwami_written make(way how, const lent *what, const spot *where)
{
    if (how == EVENT)
        return zobukwami_write_event(where->buffer, what->length, what->place, what->numbers[0], what->numbers[1]);
    if (how == NUMBERS)
        return zobukwami_write_events(where->buffer, what->length, what->place, where->list, what->count);
    return zobukwami_write_list(where->buffer, what->length, what->place,
                                (const zobukwami_event *)(const void *)where->list, what->count / 2);
}

/* Makes the call; false where a signal ended it. */
static bool call(way how, const lent *what, const spot *where)
{
    now.how = how;
    now.what = what;
    now.where = where;
    calls[how]++;
    if (sigsetjmp(before_call, 0) != 0) {
        expect("ended by signal", 0, (uint64_t)ended_by);
        return false;
    }
    calling = 1;
    got = make(how, what, where);
    calling = 0;
    return true;
}

/* The bytes wanted stand at their place, and all else is the noise that it was. */
static void expect_bytes(const lent *what, const spot *where)
{
    const uint8_t *bytes = where->open.first;
    size_t same = 0;
    char name[40];
    memset(image.first, where->noise, where->open.size);
    if (wanted.size > 0)
        memcpy(image.first + (where->buffer + what->place - bytes), wanted.bytes, wanted.size);
    if (memcmp(bytes, image.first, where->open.size) == 0)
        return;
    while (bytes[same] == image.first[same])
        same++;
    snprintf(name, sizeof name, "byte %td of the buffer", bytes + same - where->buffer);
    expect(name, image.first[same], bytes[same]);
}

static void hold_at(way how, const lent *what, const spot *where)
{
    memset(where->open.first, where->noise, where->open.size);
    if (!call(how, what, where))
        return;
    expect("code", wanted.code, got.code);
    expect("next", wanted.next, got.next);
    expect_bytes(what, where);
}

/* Holds the call against what is wanted, with the buffer flush against the page before and the page behind. The noises
   differ in every bit, so that a byte written where none belongs is seen at one of the two. Where nothing is to be
   written, nothing may be touched. */
static void hold(way how, const lent *what, const uint32_t *front, const uint32_t *back)
{
    uint8_t *end = buffers.first + buffers.size;
    const spot at_front = {"at the front of its pages", buffers, 0xA5, buffers.first, front};
    const spot at_back = {"at the back of its pages", buffers, 0x5A, end - what->length, back};
    const spot untouchable = {"that may not be touched", buffers, 0xA5, closed.first, back};
    const spot null = {"at NULL", buffers, 0xA5, NULL, front};
    hold_at(how, what, &at_front);
    hold_at(how, what, &at_back);
    if (wanted.size == 0)
        hold_at(how, what, &untouchable);
    if (what->length == 0)
        hold_at(how, what, &null);
}

static void hold_event(size_t length, size_t place, uint32_t kind, uint32_t operand)
{
    const uint32_t numbers[] = {kind, operand};
    const lent what = {length, place, numbers, 2};
    want(&what);
    hold(EVENT, &what, NULL, NULL);
}

/* The list that is lent, flush against the page before and the page behind. */
static struct {
    const uint32_t *numbers;
    size_t count;
    const uint32_t *front;
    const uint32_t *back;
} list;

static const uint32_t *copy_into(area pages, size_t from)
{
    void *copy = pages.first + from;
    allow(pages, PROT_READ | PROT_WRITE);
    memcpy(copy, list.numbers, list.count * sizeof *list.numbers);
    allow(pages, PROT_READ);
    return copy;
}

static void lend_list(const uint32_t *numbers, size_t count)
{
    list.numbers = numbers;
    list.count = count;
    list.front = count == 0 ? NULL : copy_into(front_list, 0);
    list.back = copy_into(back_list, back_list.size - count * sizeof *numbers);
}

static void hold_list(size_t length, size_t place)
{
    const lent what = {length, place, list.numbers, list.count};
    want(&what);
    hold(NUMBERS, &what, list.front, list.back);
    if (list.count % 2 == 0)
        hold(LIST, &what, list.front, list.back);
}

/* Single events. */

/* Forms that were worked out by hand. */
static const struct {
    uint32_t kind;
    uint32_t operand;
    size_t size;
    const char *bytes;
} known[] = {
    {ZOBUKWAMI_SPAWN, 0, 1, "\x00"},
    {ZOBUKWAMI_RETURN, 0, 1, "\x01"},
    {ZOBUKWAMI_SYNC, 0, 1, "\x02"},
    {ZOBUKWAMI_LOCK, 0, 1, "\x03"},
    {ZOBUKWAMI_UNLOCK, 0, 1, "\x04"},
    {ZOBUKWAMI_READ, 0, 1, "\x05"},
    {ZOBUKWAMI_WRITE, 15, 1, "\x7E"},
    {ZOBUKWAMI_READ, 16, 2, "\x85\x01"},
    {ZOBUKWAMI_LOCK, 62, 2, "\xF3\x03"},
    {ZOBUKWAMI_UNLOCK, 62, 2, "\xF4\x03"},
    {ZOBUKWAMI_WRITE, 2047, 2, "\xFE\x7F"},
    {ZOBUKWAMI_READ, 2048, 3, "\x85\x80\x01"},
    {ZOBUKWAMI_WRITE, 4095, 3, "\xFE\xFF\x01"},
};

/* The rules set down here give these forms. */
static void check_rules(void)
{
    for (size_t i = 0; i < COUNT(known); i++) {
        uint8_t bytes[3];
        const size_t size = form(known[i].operand * 8 + known[i].kind, bytes);
        if (size == known[i].size && memcmp(bytes, known[i].bytes, size) == 0)
            continue;
        printf("kind %" PRIu32 ", operand %" PRIu32 ": not the form worked out by hand\n", known[i].kind,
               known[i].operand);
        failures++;
    }
}

/* Kinds that there are, and others, among them some whose lowest bits are those of a kind that there is. */
static const uint32_t kinds[] = {
    0,       1,          2,          3,          4,          5,          6,          7,          8,          9,
    13,      14,         15,         16,         255,        256,        261,        262,        263,        0x10000,
    0x10005, 0x40000000, 0x7FFFFFFF, 0x80000000, 0x80000005, 0x80000006, 0xFFFFFFF8, 0xFFFFFFFD, 0xFFFFFFFE, 0xFFFFFFFF,
};

/* Operands at either side of every limit, and large ones, among them some of which eight times is small again in 32
   bits, and some that are small in 16. */
static const uint32_t operands[] = {
    0,          1,          14,         15,         16,         17,         61,         62,         63,
    64,         127,        128,        255,        256,        318,        2046,       2047,       2048,
    2049,       4094,       4095,       4096,       4097,       8191,       8192,       0xFFFF,     0x10000,
    0x1003E,    0x10FFF,    0x1FFFFFFF, 0x20000000, 0x20000001, 0x2000003E, 0x20000FFF, 0x40000000, 0x60000FFF,
    0x7FFFFFFF, 0x80000000, 0x8000003E, 0xA0000010, 0xE0000000, 0xFFFFF000, 0xFFFFFFFE, 0xFFFFFFFF,
};

/* Places to which no buffer here reaches. With a few bytes more some are small again; some are small in 32 bits. */
static const size_t far_places[] = {
    SIZE_MAX,         SIZE_MAX - 1, SIZE_MAX - 2,           SIZE_MAX - 3,           SIZE_MAX / 2,
    SIZE_MAX / 2 + 1, UINT32_MAX,   UINT32_MAX + (size_t)1, UINT32_MAX + (size_t)2, UINT32_MAX + (size_t)4,
};

enum { ALL_OPERANDS = 4101, MOST_PAST = 3, LONGEST_BUFFER = 8 };

/* The places of a buffer, a few past its end, and the far ones: so many, and the one of this number. */
static size_t places(size_t length)
{
    return length + 1 + MOST_PAST + COUNT(far_places);
}

static size_t place_of(size_t number, size_t length)
{
    return number <= length + MOST_PAST ? number : far_places[number - length - 1 - MOST_PAST];
}

/* Every operand in turn, with less room than it takes, as much, and more. */
static void hold_operands(void)
{
    for (size_t i = 0; i < COUNT(kinds); i++)
        for (uint32_t operand = 0; operand < ALL_OPERANDS; operand++)
            for (size_t place = 0; place <= 2; place += 2)
                for (size_t room = 0; room <= 4; room++)
                    hold_event(place + room, place, kinds[i], operand);
}

/* Kinds and operands at every place of short buffers. */
static void hold_places(void)
{
    for (size_t length = 0; length <= LONGEST_BUFFER; length++)
        for (size_t number = 0; number < places(length); number++)
            for (size_t i = 0; i < COUNT(kinds); i++)
                for (size_t k = 0; k < COUNT(operands); k++)
                    hold_event(length, place_of(number, length), kinds[i], operands[k]);
}

/* Lists. */

enum { LONGEST = 12, ALL_BYTES = 20 };

/* Events of one byte, two and three, ALL_BYTES in all. */
static const zobukwami_event lawful[LONGEST] = {
    {ZOBUKWAMI_READ, 0},     {ZOBUKWAMI_WRITE, 16},  {ZOBUKWAMI_READ, 2048}, {ZOBUKWAMI_SPAWN, 0},
    {ZOBUKWAMI_WRITE, 4095}, {ZOBUKWAMI_LOCK, 62},   {ZOBUKWAMI_RETURN, 0},  {ZOBUKWAMI_UNLOCK, 15},
    {ZOBUKWAMI_SYNC, 0},     {ZOBUKWAMI_READ, 2047}, {ZOBUKWAMI_UNLOCK, 16}, {ZOBUKWAMI_WRITE, 15},
};

/* Events refused for their kind, for their operand, and for their kind though the operand would be refused too. */
static const zobukwami_event refused[] = {
    {7, 0},
    {8, 0},
    {261, 1},
    {UINT32_MAX, 0},
    {7, 4096},
    {ZOBUKWAMI_SPAWN, 1},
    {ZOBUKWAMI_SYNC, UINT32_MAX},
    {ZOBUKWAMI_LOCK, 63},
    {ZOBUKWAMI_READ, 4096},
    {ZOBUKWAMI_WRITE, 0x20000000},
};

/* One refused for its kind and one for its operand. */
static const zobukwami_event two_refused[] = {{UINT32_MAX, 63}, {ZOBUKWAMI_UNLOCK, 63}};

static const uint32_t last_kinds[] = {0, 1, 2, 3, 4, 5, 6, 7, 8, 256, 0x80000000, UINT32_MAX};

static void set_event(uint32_t *numbers, size_t position, zobukwami_event event)
{
    numbers[2 * position] = event.kind;
    numbers[2 * position + 1] = event.operand;
}

static void set_lawful(uint32_t numbers[2 * LONGEST])
{
    for (size_t i = 0; i < LONGEST; i++)
        set_event(numbers, i, lawful[i]);
}

/* Into buffers of every length up to more than the list takes: each event is once the first that does not fit. */
static void hold_lengths(const uint32_t *numbers, size_t count)
{
    lend_list(numbers, count);
    for (size_t place = 0; place <= 3; place += 3)
        for (size_t length = 0; length <= place + ALL_BYTES + 1; length++)
            hold_list(length, place);
}

/* An event as the second of a list, with from nothing to three bytes left for it. */
static void hold_second(uint32_t kind, uint32_t operand)
{
    const uint32_t numbers[] = {ZOBUKWAMI_READ, 16, kind, operand};
    lend_list(numbers, COUNT(numbers));
    for (size_t length = 2; length <= 5; length++)
        hold_list(length, 0);
}

static void hold_seconds(void)
{
    for (uint32_t kind = 0; kind < KINDS; kind++)
        for (uint32_t operand = 0; operand < ALL_OPERANDS; operand++)
            hold_second(kind, operand);
    for (size_t i = 0; i < COUNT(kinds); i++)
        for (size_t k = 0; k < COUNT(operands); k++)
            hold_second(kinds[i], operands[k]);
}

/* One event refused, at each position of lists of each length. */
static void hold_refused(void)
{
    uint32_t numbers[2 * LONGEST];
    for (size_t events = 1; events <= LONGEST; events++)
        for (size_t position = 0; position < events; position++)
            for (size_t i = 0; i < COUNT(refused); i++) {
                set_lawful(numbers);
                set_event(numbers, position, refused[i]);
                hold_lengths(numbers, 2 * events);
            }
}

/* Two events refused, at each two positions: the first decides. */
static void hold_two_refused(void)
{
    uint32_t numbers[2 * LONGEST];
    for (size_t later = 1; later < LONGEST; later++)
        for (size_t earlier = 0; earlier < later; earlier++)
            for (size_t i = 0; i < COUNT(two_refused); i++) {
                set_lawful(numbers);
                set_event(numbers, earlier, two_refused[i]);
                set_event(numbers, later, two_refused[1 - i]);
                hold_lengths(numbers, 2 * LONGEST);
            }
}

/* A last kind without an operand, after events of which one is refused, at each position, or none. */
static void hold_odd(void)
{
    uint32_t numbers[2 * LONGEST + 1];
    for (size_t events = 0; events <= LONGEST; events++)
        for (size_t position = 0; position <= events; position++)
            for (size_t i = 0; i < COUNT(last_kinds); i++) {
                set_lawful(numbers);
                if (position < events)
                    set_event(numbers, position, two_refused[i % COUNT(two_refused)]);
                numbers[2 * events] = last_kinds[i];
                hold_lengths(numbers, 2 * events + 1);
            }
}

/* Lists of no event, half an event, one and more, none of them refused for what it is, at every place. */
static void hold_list_places(void)
{
    uint32_t numbers[2 * LONGEST];
    set_lawful(numbers);
    for (size_t count = 0; count <= 2 * LONGEST; count++) {
        hold_lengths(numbers, count);
        for (size_t length = 0; length <= LONGEST_BUFFER; length++)
            for (size_t number = 0; number < places(length); number++)
                hold_list(length, place_of(number, length));
    }
}

/* What is random. */

static uint64_t state;

static uint32_t random_below(uint32_t limit)
{
    state = state * 6364136223846793005u + 1442695040888963407u;
    return (uint32_t)(state >> 33) % limit;
}

/* Of every size alike, rather than mostly of three bytes. */
static uint32_t random_location(void)
{
    return random_below(1u << random_below(13));
}

static zobukwami_event random_event(void)
{
    const uint32_t kind = random_below(KINDS);
    const zobukwami_event event = {kind, random_location() % (largest[kind] + 1)};
    return random_below(40) == 0 ? refused[random_below(COUNT(refused))] : event;
}

/* Where a list ends that is written from a place on with room enough; the place itself where it is refused. */
static size_t end_of(size_t place, const uint32_t *numbers, size_t count)
{
    const lent ample = {SIZE_MAX, place, numbers, count};
    want(&ample);
    return wanted.next;
}

/* Lists into buffers of about the length that they take; of any length where they are refused. */
static void hold_random(void)
{
    uint32_t numbers[4 * LONGEST];
    for (unsigned i = 0; i < RANDOM_LISTS; i++) {
        const size_t count = random_below(COUNT(numbers) + 1);
        const size_t place = random_below(6);
        for (size_t k = 0; k < COUNT(numbers) / 2; k++)
            set_event(numbers, k, random_event());
        const size_t end = end_of(place, numbers, count);
        const size_t length = end + random_below(end > place ? 4 : 3 * LONGEST);
        lend_list(numbers, count);
        hold_list(length == 0 ? 0 : length - 1, place);
    }
}

/* Places about 2^32 in a buffer that is longer. All of it may not be touched, but for two pages there. */
static void hold_far(void)
{
    const size_t page = page_size();
    const size_t about = UINT32_MAX + (size_t)1;
    const area all = reserve(about + page, PROT_NONE);
    const area open = {all.first + about - page, 2 * page};
    uint32_t numbers[2 * LONGEST];
    const spot where = {"of which little may be touched", open, 0x5A, all.first, numbers};
    allow(open, PROT_READ | PROT_WRITE);
    set_lawful(numbers);
    for (size_t i = 0; i < 2 * (ALL_BYTES + 4); i++) {
        const size_t place = (i % 2 == 0 ? about - ALL_BYTES - 1 : all.size - ALL_BYTES - 1) + i / 2;
        const lent whole = {all.size, place, numbers, 2 * LONGEST};
        want(&whole);
        hold_at(NUMBERS, &whole, &where);
        for (size_t k = 0; k < LONGEST; k++) {
            const lent one = {all.size, place, numbers + 2 * k, 2};
            want(&one);
            hold_at(EVENT, &one, &where);
        }
    }
}

/* Round trips. */

/* A run that is made up as it goes. */
typedef struct run {
    uint32_t numbers[2 * MOST_EVENTS];
    size_t events;
    uint32_t open;    /* procedures that have not returned, without main */
    uint32_t lock[3]; /* the locks that it uses */
    bool held[3];
} run;

static void add(run *made, uint32_t kind, uint32_t operand)
{
    const zobukwami_event event = {kind, operand};
    set_event(made->numbers, made->events, event);
    made->events++;
}

static void turn_lock(run *made, size_t which)
{
    add(made, made->held[which] ? ZOBUKWAMI_UNLOCK : ZOBUKWAMI_LOCK, made->lock[which]);
    made->held[which] = !made->held[which];
}

static void unlock_all(run *made)
{
    for (size_t i = 0; i < COUNT(made->lock); i++)
        if (made->held[i])
            turn_lock(made, i);
}

static void return_one(run *made)
{
    if (made->open > 0) {
        add(made, ZOBUKWAMI_RETURN, 0);
        made->open--;
    }
}

static void go_on(run *made)
{
    const uint32_t kind = random_below(KINDS);
    if (kind < ZOBUKWAMI_LOCK)
        unlock_all(made);
    if (kind == ZOBUKWAMI_RETURN) {
        return_one(made);
    } else if (kind == ZOBUKWAMI_LOCK || kind == ZOBUKWAMI_UNLOCK) {
        turn_lock(made, random_below(COUNT(made->lock)));
    } else {
        made->open += kind == ZOBUKWAMI_SPAWN;
        add(made, kind, kind < ZOBUKWAMI_LOCK ? 0 : random_location());
    }
}

/* A lawful run of so many events, or a few more. */
static void make_run(run *made, size_t events)
{
    memset(made, 0, sizeof *made);
    made->lock[0] = random_below(16);
    made->lock[1] = 16 + random_below(46);
    made->lock[2] = 62;
    while (made->events + made->open < events)
        go_on(made);
    unlock_all(made);
    while (made->open > 0)
        return_one(made);
    add(made, ZOBUKWAMI_RETURN, 0);
}

/* Reads the bytes back, each group times what it counts, and holds them against the run. */
static void expect_events(const run *made, const uint8_t *bytes, size_t size)
{
    size_t at = 0;
    for (size_t i = 0; i < made->events; i++) {
        uint32_t number = 0;
        uint32_t counts = 1;
        for (; at < size && bytes[at] >= 128; at++) {
            number += (bytes[at] - 128u) * counts;
            counts *= 128;
        }
        number += at < size ? bytes[at] * counts : 0;
        at++;
        expect("kind read back", made->numbers[2 * i], number % 8);
        expect("operand read back", made->numbers[2 * i + 1], number / 8);
    }
    expect("size read back", size, at);
}

/* Writes the run event by event; gives the place after the last. */
static size_t write_apart(const run *made, uint8_t *buffer)
{
    const spot where = {"written event by event", {NULL, 0}, 0, buffer, NULL};
    size_t place = 0;
    for (size_t i = 0; i < made->events; i++) {
        const lent one = {MOST_BYTES, place, made->numbers + 2 * i, 2};
        if (call(EVENT, &one, &where))
            expect("code", ZOBUKWAMI_ACCEPTED, got.code);
        place = got.next;
    }
    return place;
}

/* Writes the run as a list too, reads it back, and gives it to the checker. */
static void round_trip(const run *made)
{
    static uint8_t whole[MOST_BYTES];
    static uint8_t apart[MOST_BYTES];
    static zobukwami_room room;
    const lent what = {sizeof whole, 0, made->numbers, 2 * made->events};
    const spot where = {"given to the checker", {NULL, 0}, 0, whole, made->numbers};
    memset(whole, 0xA5, sizeof whole);
    memset(apart, 0x5A, sizeof apart);
    const size_t end = write_apart(made, apart);
    if (!call(NUMBERS, &what, &where))
        return;
    expect("code", ZOBUKWAMI_ACCEPTED, got.code);
    expect("next, unlike event by event,", end, got.next);
    if (got.next != end || end > sizeof whole)
        return;
    expect("bytes differ from event by event:", 0, memcmp(whole, apart, end) != 0);
    expect_events(made, whole, end);
    const zobukwami_answer answer = zobukwami_check_in(&room, whole, end, NULL, 0);
    expect("checker's code", ZOBUKWAMI_ACCEPTED, answer.code);
    expect("checker's events", made->events, answer.events);
    expect("checker's offset", end, answer.offset);
}

/* The run as a list into a buffer of the length that it takes, a longer one, and one a byte too short. */
static void hold_run(const run *made)
{
    const size_t end = end_of(0, made->numbers, 2 * made->events);
    lend_list(made->numbers, 2 * made->events);
    hold_list(end, 0);
    hold_list(end + 3, 0);
    hold_list(end - 1, 0);
}

/* The same with one event of it refused. */
static void hold_run_refused(run *made, size_t position)
{
    const zobukwami_event kept = {made->numbers[2 * position], made->numbers[2 * position + 1]};
    set_event(made->numbers, position, refused[random_below(COUNT(refused))]);
    lend_list(made->numbers, 2 * made->events);
    hold_list(MOST_BYTES, 0);
    set_event(made->numbers, position, kept);
}

/* Short runs, and now and then one that may be almost as long as a list can be. */
static void hold_runs(void)
{
    static run made;
    for (unsigned i = 0; i < ROUND_TRIPS; i++) {
        make_run(&made, random_below(i % 16 == 0 ? MOST_EVENTS - 8 : 64));
        hold_run(&made);
        hold_run_refused(&made, random_below((uint32_t)made.events));
        hold_run_refused(&made, made.events - 1);
        round_trip(&made);
    }
}

int main(int count, char **arguments)
{
    setvbuf(stdout, NULL, _IOLBF, BUFSIZ);
    state = count > 1 ? strtoull(arguments[1], NULL, 10) : 1;
    reserve_all();
    catch_signals();
    check_rules();
    hold_operands();
    hold_places();
    hold_seconds();
    hold_refused();
    hold_two_refused();
    hold_odd();
    hold_list_places();
    hold_random();
    hold_far();
    hold_runs();
    finish();
}
