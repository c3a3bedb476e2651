/* Calls each function of the archive with valid, damaged, empty, null, too long and short-buffer inputs.
   Sheets and buffers are allocated to the byte, so that valgrind tells an access past either. */
#include <stdint.h>
#include <stdio.h>
#include <stdlib.h>
#include <string.h>

#include "leastplan.h"
#include "expect.h"

enum { LONGEST = 4096, FILL = 0x5A, TEXT = 512, MOST = 24 };

/* A loop: its types (instances, latency), the type of each operation, its edges. */
typedef struct {
    int horizon, cap;
    int type_count, types[MOST][2];
    int op_count, kinds[MOST];
    int edge_count, edges[MOST][4];
} loop;

typedef int windows[MOST][2];
typedef int slots[MOST];

/* The text of a loop with these windows (lo, hi), or with that of the whole horizon for each operation, and with types
   that are busy for these slots, or for one slot each. */
static void put_busy(char *text, loop s, windows some, slots busy)
{
    text += sprintf(text, "horizon=%d\ncap=%d\ntypes=%d\n", s.horizon, s.cap, s.type_count);
    for (int k = 0; k < s.type_count; k++)
        text += sprintf(text, "type=%d,%d,%d\n", s.types[k][0], s.types[k][1], busy ? busy[k] : 1);
    text += sprintf(text, "ops=%d\n", s.op_count);
    for (int i = 0; i < s.op_count; i++) {
        int lo = some ? some[i][0] : 0, hi = some ? some[i][1] : s.horizon - 1;
        text += sprintf(text, "op=%d,%d,%d\n", s.kinds[i], lo, hi);
    }
    text += sprintf(text, "edges=%d\n", s.edge_count);
    for (int k = 0; k < s.edge_count; k++) {
        const int *e = s.edges[k];
        text += sprintf(text, "edge=%d,%d,%d,%d\n", e[0], e[1], e[2], e[3]);
    }
}

static void put_sheet(char *text, loop s, windows some)
{
    put_busy(text, s, some, NULL);
}

/* The cases of document 01, and one operation whose result just meets the horizon or comes late. */
static char A[TEXT], B[TEXT], NOT_MONOTONE[TEXT], SELF[TEXT], THREE[TEXT], ONE[TEXT], LATE[TEXT];

/* The second operation would have to start at -3 to end in time; an edge has it start two clocks before the first, in
   EARLY_NOT three. */
static char EARLY[TEXT], EARLY_NOT[TEXT];

/* Case B with windows. DUE: the last operation starts by clock 2. SETTLED: the first from clock 1 on, the last at 3.
   NEVER: the first from 1 on and the last by 2, which the operation between them forbids. */
static char DUE[TEXT], SETTLED[TEXT], NEVER[TEXT];

/* Case B with lo past hi in the second operation; with lo at the horizon too; after hi at the horizon in the first
   operation; and before an edge out of range. */
static char UPSIDE_DOWN[TEXT], PAST_TOO[TEXT], AFTER_PAST[TEXT], BEFORE_PAST[TEXT];

/* Two operations on one unit that each holds for two slots. AROUND: three on two units, at clocks 0, 2 and 4 for three
   slots each: where the interval is 5 or 6 each two of them meet, though no slot is held thrice. LONG: one operation
   that holds its unit for three slots, and one of an unlimited type. WRONG_BUSY: that with 33. */
static char BUSY[TEXT], AROUND[TEXT], LONG[TEXT], WRONG_BUSY[TEXT];

static const loop CASE_A = {3, 4, 2, {{1, 1}, {0, 1}}, 3, {0, 1, 0}, 3, {{0, 1, 0, 0}, {1, 2, 0, 0}, {2, 0, 0, 2}}};

static loop with_horizon(loop s, int horizon)
{
    s.horizon = horizon;
    return s;
}

static void plain_sheets(void)
{
    put_sheet(A, CASE_A, NULL);
    put_sheet(B, with_horizon(CASE_A, 4), NULL);
    put_sheet(NOT_MONOTONE, (loop){5, 5, 1, {{1, 1}}, 2, {0, 0}, 2, {{0, 1, 3, 0}, {1, 0, -5, 0}}}, NULL);
    put_sheet(SELF, (loop){1, 3, 1, {{0, 1}}, 1, {0}, 1, {{0, 0, 0, 0}}}, NULL);
    put_sheet(THREE, (loop){2, 2, 1, {{2, 1}}, 3, {0, 0, 0}, 0, {{0}}}, NULL);
    put_sheet(ONE, (loop){2, 1, 1, {{1, 2}}, 1, {0}, 0, {{0}}}, NULL);
    put_sheet(LATE, (loop){1, 1, 1, {{1, 2}}, 1, {0}, 0, {{0}}}, NULL);
    put_sheet(EARLY, (loop){1, 1, 2, {{0, 0}, {0, 4}}, 2, {0, 1}, 1, {{0, 1, -2, 0}}}, NULL);
    put_sheet(EARLY_NOT, (loop){1, 1, 2, {{0, 0}, {0, 4}}, 2, {0, 1}, 1, {{0, 1, -3, 0}}}, NULL);
}

static void windowed_sheets(void)
{
    loop b = with_horizon(CASE_A, 4);
    put_sheet(DUE, b, (windows){{0, 3}, {0, 3}, {0, 2}});
    put_sheet(SETTLED, b, (windows){{1, 3}, {0, 3}, {3, 3}});
    put_sheet(NEVER, b, (windows){{1, 3}, {0, 3}, {0, 2}});
    put_sheet(UPSIDE_DOWN, b, (windows){{0, 3}, {2, 1}, {0, 3}});
    put_sheet(PAST_TOO, b, (windows){{0, 3}, {4, 1}, {0, 3}});
    put_sheet(AFTER_PAST, b, (windows){{0, 4}, {2, 1}, {0, 3}});
    b.edges[2][3] = 9;
    put_sheet(BEFORE_PAST, b, (windows){{0, 3}, {2, 1}, {0, 3}});
}

static void busy_sheets(void)
{
    static const loop two = {6, 4, 1, {{1, 1}}, 2, {0, 0}, 0, {{0}}};
    static const loop three = {9, 8, 1, {{2, 1}}, 3, {0, 0, 0}, 0, {{0}}};
    static const loop apart = {6, 4, 2, {{1, 1}, {0, 1}}, 2, {0, 1}, 0, {{0}}};
    put_busy(BUSY, two, NULL, (slots){2});
    put_busy(AROUND, three, (windows){{0, 0}, {2, 2}, {4, 4}}, (slots){3});
    put_busy(LONG, apart, NULL, (slots){3, 32});
    put_busy(WRONG_BUSY, apart, NULL, (slots){3, 33});
}

static const char PLAN_A[] = "answer=0\ninterval=3\nat=0,0\nat=1,0\nat=2,0\n";
static const char PLAN_THREE[] = "answer=0\ninterval=2\nat=0,0\nat=0,1\nat=1,0\n";

/* A copy that is allocated to the byte. */
static void *copy_of(const void *bytes, size_t length)
{
    void *copy = malloc(length);
    memcpy(copy, bytes, length);
    return copy;
}

static int least_is(const char *text, size_t length, uint64_t answer, uint64_t interval)
{
    uint8_t *sheet = copy_of(text, length);
    leastplan_interval got = leastplan_least_interval(sheet, length);
    free(sheet);
    return got.answer == answer && got.interval == interval;
}

static int order_is(const char *text, uint64_t interval, uint64_t pair, uint64_t answer, uint64_t order)
{
    size_t length = strlen(text);
    uint8_t *sheet = copy_of(text, length);
    leastplan_order got = leastplan_slot_order(sheet, length, interval, pair);
    free(sheet);
    return got.answer == answer && got.order == order;
}

/* The answer in a buffer of this size; with 0 the text is written and the rest left, else all is left. */
static int written_is(leastplan_text got, const uint8_t *out, size_t room, uint64_t answer, const char *text)
{
    size_t written = answer == 0 ? strlen(text) : 0;
    int good = got.answer == answer && got.count == written;
    if (written) good = good && memcmp(out, text, written) == 0;
    for (size_t k = written; k < room; k++) good = good && out[k] == FILL;
    return good;
}

static int text_is(const char *text, size_t length, uint64_t interval, size_t room, uint64_t answer, const char *plan)
{
    uint8_t *sheet = copy_of(text, length), *out = malloc(room);
    memset(out, FILL, room);
    leastplan_text got = leastplan_plan_text(sheet, length, interval, out, room);
    int good = written_is(got, out, room, answer, plan);
    free(sheet);
    free(out);
    return good;
}

/* Starts and instances that are handed in; there is space for one more than a sheet may have operations. */
typedef struct {
    size_t start_count, starts[MOST + 1];
    size_t instance_count, instances[MOST + 1];
} places;

static int page_is(const char *text, uint64_t interval, places given, size_t room, uint64_t answer, const char *page)
{
    size_t length = strlen(text), start_count = given.start_count, instance_count = given.instance_count;
    uint8_t *sheet = copy_of(text, length), *out = malloc(room);
    size_t *starts = copy_of(given.starts, start_count * sizeof *starts);
    size_t *instances = copy_of(given.instances, instance_count * sizeof *instances);
    memset(out, FILL, room);
    leastplan_text got =
        leastplan_page(sheet, length, interval, starts, start_count, instances, instance_count, out, room);
    int good = written_is(got, out, room, answer, page);
    free(sheet);
    free(out);
    free(starts);
    free(instances);
    return good;
}

static void valid_sheets(void)
{
    EXPECT(least_is(A, strlen(A), 0, 3));
    EXPECT(least_is(B, strlen(B), 0, 2));
    EXPECT(least_is(NOT_MONOTONE, strlen(NOT_MONOTONE), 0, 3));
    EXPECT(least_is(SELF, strlen(SELF), 7, 0));
    EXPECT(least_is(THREE, strlen(THREE), 0, 2));
    EXPECT(least_is(ONE, strlen(ONE), 0, 1));
    EXPECT(least_is(LATE, strlen(LATE), 7, 0));
    EXPECT(text_is(A, strlen(A), 3, 100, 0, PLAN_A));
    EXPECT(text_is(A, strlen(A), 1, 100, 5, ""));
    EXPECT(text_is(A, strlen(A), 2, 100, 6, ""));
    EXPECT(text_is(THREE, strlen(THREE), 2, 100, 0, PLAN_THREE));
    EXPECT(text_is(LATE, strlen(LATE), 1, 100, 6, ""));
    EXPECT(text_is(NOT_MONOTONE, strlen(NOT_MONOTONE), 4, 100, 6, ""));
    EXPECT(text_is(NOT_MONOTONE, strlen(NOT_MONOTONE), 5, 100, 0, "answer=0\ninterval=5\nat=0,0\nat=4,0\n"));
}

/* DUE: at interval 2 the first and the last operation, on one unit, would have one slot. */
static void windows_decide(void)
{
    EXPECT(least_is(DUE, strlen(DUE), 0, 3));
    EXPECT(text_is(DUE, strlen(DUE), 1, 100, 5, ""));
    EXPECT(text_is(DUE, strlen(DUE), 2, 100, 6, ""));
    EXPECT(text_is(DUE, strlen(DUE), 3, 100, 0, PLAN_A));
    EXPECT(order_is(DUE, 2, 1, 6, 0));
    EXPECT(order_is(DUE, 3, 1, 0, 1));
    EXPECT(least_is(SETTLED, strlen(SETTLED), 0, 3));
    EXPECT(text_is(SETTLED, strlen(SETTLED), 2, 100, 6, ""));
    EXPECT(text_is(SETTLED, strlen(SETTLED), 3, 100, 0, "answer=0\ninterval=3\nat=1,0\nat=2,0\nat=3,0\n"));
    EXPECT(order_is(SETTLED, 3, 1, 0, 2));
    EXPECT(least_is(NEVER, strlen(NEVER), 7, 0));
    EXPECT(text_is(NEVER, strlen(NEVER), 1, 100, 5, ""));
    for (uint64_t interval = 2; interval <= 4; interval++) EXPECT(text_is(NEVER, strlen(NEVER), interval, 100, 6, ""));
}

/* Every call answers 16, before what it would say of interval, pair or room. 3 goes before it in the same line and in
   an earlier one, and 2 and 3 in a later one come after it. */
static void windows_refused(void)
{
    EXPECT(least_is(UPSIDE_DOWN, strlen(UPSIDE_DOWN), 16, 0));
    EXPECT(text_is(UPSIDE_DOWN, strlen(UPSIDE_DOWN), 2, 100, 16, ""));
    EXPECT(text_is(UPSIDE_DOWN, strlen(UPSIDE_DOWN), SIZE_MAX, 0, 16, ""));
    EXPECT(order_is(UPSIDE_DOWN, 0, SIZE_MAX, 16, 0));
    EXPECT(least_is(PAST_TOO, strlen(PAST_TOO), 3, 0));
    EXPECT(least_is(AFTER_PAST, strlen(AFTER_PAST), 3, 0));
    EXPECT(least_is(BEFORE_PAST, strlen(BEFORE_PAST), 16, 0));
    EXPECT(least_is(UPSIDE_DOWN, strlen(UPSIDE_DOWN) - 1, 16, 0));
}

/* K below the interval, equal to it and above. */
static void busy_units(void)
{
    EXPECT(least_is(BUSY, strlen(BUSY), 0, 4));
    for (uint64_t interval = 1; interval <= 3; interval++) EXPECT(text_is(BUSY, strlen(BUSY), interval, 100, 6, ""));
    EXPECT(text_is(BUSY, strlen(BUSY), 4, 100, 0, "answer=0\ninterval=4\nat=0,0\nat=2,0\n"));
    EXPECT(order_is(BUSY, 4, 0, 0, 1));
    EXPECT(least_is(AROUND, strlen(AROUND), 0, 7));
    EXPECT(text_is(AROUND, strlen(AROUND), 5, 100, 6, ""));
    EXPECT(text_is(AROUND, strlen(AROUND), 6, 100, 6, ""));
    EXPECT(text_is(AROUND, strlen(AROUND), 7, 100, 0, "answer=0\ninterval=7\nat=0,0\nat=2,1\nat=4,0\n"));
    EXPECT(least_is(LONG, strlen(LONG), 0, 3));
    EXPECT(text_is(LONG, strlen(LONG), 2, 100, 6, ""));
    EXPECT(text_is(LONG, strlen(LONG), 3, 100, 0, "answer=0\ninterval=3\nat=0,0\nat=0,0\n"));
    EXPECT(least_is(WRONG_BUSY, strlen(WRONG_BUSY), 3, 0));
    EXPECT(text_is(WRONG_BUSY, strlen(WRONG_BUSY), 0, 0, 3, ""));
    EXPECT(order_is(WRONG_BUSY, 0, SIZE_MAX, 3, 0));
}

static void intervals(void)
{
    EXPECT(text_is(A, strlen(A), 0, 100, 4, ""));
    EXPECT(text_is(A, strlen(A), 5, 100, 4, ""));
    EXPECT(text_is(A, strlen(A), SIZE_MAX, 100, 4, ""));
    EXPECT(order_is(A, 0, 1, 4, 0));
    EXPECT(order_is(A, SIZE_MAX, SIZE_MAX, 4, 0));
}

static void buffers(void)
{
    for (size_t room = 0; room < strlen(PLAN_A); room++) EXPECT(text_is(A, strlen(A), 3, room, 9, ""));
    EXPECT(text_is(A, strlen(A), 3, strlen(PLAN_A), 0, PLAN_A));
    EXPECT(text_is(A, strlen(A), 3, strlen(PLAN_A) + 1, 0, PLAN_A));
    EXPECT(text_is(A, strlen(A), 2, 0, 6, ""));
    EXPECT(leastplan_plan_text((const uint8_t *)A, strlen(A), 3, NULL, 0).answer == 9);
    EXPECT(leastplan_plan_text((const uint8_t *)A, strlen(A), 1, NULL, 0).answer == 5);
}

static void pairs(void)
{
    EXPECT(order_is(A, 3, 1, 0, 1));
    EXPECT(order_is(A, 3, 0, 15, 0));
    EXPECT(order_is(A, 3, 2, 15, 0));
    EXPECT(order_is(A, 3, 3, 14, 0));
    EXPECT(order_is(A, 3, SIZE_MAX, 14, 0));
    EXPECT(order_is(A, 1, 3, 5, 0));
    EXPECT(order_is(A, 2, 3, 6, 0));
    EXPECT(order_is(THREE, 2, 0, 0, 0));
    EXPECT(order_is(THREE, 2, 1, 0, 1));
    EXPECT(order_is(B, 2, 1, 0, 1));
    EXPECT(order_is(ONE, 1, 0, 14, 0));
    EXPECT(order_is(LATE, 1, 0, 6, 0));
}

static const places THREE_PLACES = {3, {0, 0, 1}, 3, {0, 1, 0}}, A_PLACES = {3, {2, 0, 1}, 3, {0}};
static const places ONE_PLACE = {1, {0}, 1, {0}}, NO_PLACES = {0};

static const char PAGE_THREE[] =
    "type    0                                   \n"
    "   0    0    1                              \n"
    "   1    2    -                              \n";

/* Of starts that break the dependences, and without the unlimited type. */
static const char PAGE_A[] =
    "type    0                                   \n"
    "   0    -                                   \n"
    "   1    2                                   \n"
    "   2    0                                   \n";

static void pages(void)
{
    for (size_t room = 0; room < strlen(PAGE_THREE); room++) EXPECT(page_is(THREE, 2, THREE_PLACES, room, 9, ""));
    EXPECT(page_is(THREE, 2, THREE_PLACES, strlen(PAGE_THREE), 0, PAGE_THREE));
    EXPECT(page_is(THREE, 2, THREE_PLACES, strlen(PAGE_THREE) + 1, 0, PAGE_THREE));
    EXPECT(page_is(A, 3, A_PLACES, 500, 0, PAGE_A));
    EXPECT(page_is(SELF, 1, ONE_PLACE, 0, 0, ""));
    EXPECT(page_is(SELF, 1, ONE_PLACE, 100, 0, ""));
}

/* Each held slot; at interval 3 LONG holds all of them, from whatever start on. */
static const char PAGE_BUSY[] =
    "type    0                                   \n"
    "   0    0                                   \n"
    "   1    1                                   \n"
    "   2    1                                   \n"
    "   3    0                                   \n";
static const char PAGE_LONG[] =
    "type    0                                   \n"
    "   0    0                                   \n"
    "   1    0                                   \n"
    "   2    0                                   \n";

static void busy_pages(void)
{
    static const places around = {2, {3, 5}, 2, {0}}, alone = {2, {0, 5}, 2, {0}}, later = {2, {4, 0}, 2, {0}};
    EXPECT(page_is(BUSY, 4, around, 500, 0, PAGE_BUSY));
    EXPECT(page_is(BUSY, 3, around, 500, 10, ""));
    EXPECT(page_is(BUSY, 1, around, 500, 10, ""));
    EXPECT(page_is(LONG, 3, alone, 500, 0, PAGE_LONG));
    EXPECT(page_is(LONG, 3, later, 500, 0, PAGE_LONG));
    EXPECT(page_is(LONG, 2, alone, 500, 10, ""));
    EXPECT(page_is(LONG, 2, alone, 0, 9, ""));
    EXPECT(page_is(WRONG_BUSY, 0, alone, 0, 3, ""));
}

static places with_place(places given, size_t i, size_t start, size_t instance)
{
    given.starts[i] = start;
    given.instances[i] = instance;
    return given;
}

static places with_counts(places given, size_t start_count, size_t instance_count)
{
    given.start_count = start_count;
    given.instance_count = instance_count;
    return given;
}

/* 10 for every other count, every number out of its range, and two operations in one slot on one unit. */
static void refused_places(void)
{
    for (size_t count = 0; count <= MOST + 1; count++) {
        if (count == 3) continue;
        EXPECT(page_is(THREE, 2, with_counts(THREE_PLACES, count, 3), 500, 10, ""));
        EXPECT(page_is(THREE, 2, with_counts(THREE_PLACES, 3, count), 500, 10, ""));
        EXPECT(page_is(THREE, 2, with_counts(THREE_PLACES, count, count), 500, 10, ""));
    }
    EXPECT(page_is(THREE, 2, with_place(THREE_PLACES, 2, 2, 0), 500, 10, ""));
    EXPECT(page_is(THREE, 2, with_place(THREE_PLACES, 2, SIZE_MAX, 0), 500, 10, ""));
    EXPECT(page_is(THREE, 2, with_place(THREE_PLACES, 2, 1, 2), 500, 10, ""));
    EXPECT(page_is(THREE, 2, with_place(THREE_PLACES, 2, 1, SIZE_MAX), 500, 10, ""));
    EXPECT(page_is(THREE, 2, with_place(THREE_PLACES, 1, 0, 0), 500, 10, ""));
    EXPECT(page_is(THREE, 1, THREE_PLACES, 500, 10, ""));
    EXPECT(page_is(A, 3, with_place(A_PLACES, 1, 0, 1), 500, 10, ""));
    EXPECT(page_is(A, 3, with_place(A_PLACES, 1, 3, 0), 500, 10, ""));
}

/* The sheet goes before the interval, that before the room, and that before the places. */
static void order_of_refusals(void)
{
    static char longer[LONGEST + 2];
    memset(longer, '\n', LONGEST + 1);
    EXPECT(page_is(longer, 0, NO_PLACES, 0, 1, ""));
    EXPECT(page_is("", 0, NO_PLACES, 0, 2, ""));
    EXPECT(page_is("horizon=129\n", 0, NO_PLACES, 0, 3, ""));
    EXPECT(page_is(UPSIDE_DOWN, SIZE_MAX, NO_PLACES, 0, 16, ""));
    EXPECT(page_is(THREE, 0, NO_PLACES, 0, 4, ""));
    EXPECT(page_is(THREE, 3, THREE_PLACES, 500, 4, ""));
    EXPECT(page_is(THREE, SIZE_MAX, NO_PLACES, 0, 4, ""));
    EXPECT(page_is(THREE, 2, NO_PLACES, strlen(PAGE_THREE) - 1, 9, ""));
    EXPECT(page_is(THREE, 2, NO_PLACES, strlen(PAGE_THREE), 10, ""));
}

static void null_pointers(void)
{
    const uint8_t *three = (const uint8_t *)THREE, *self = (const uint8_t *)SELF;
    const size_t *ones = ONE_PLACE.starts;
    uint8_t out[sizeof PAGE_THREE];
    EXPECT(leastplan_page(NULL, 0, 0, NULL, 0, NULL, 0, NULL, 0).answer == 2);
    EXPECT(leastplan_page(three, strlen(THREE), 2, NULL, 0, NULL, 0, NULL, 0).answer == 9);
    EXPECT(leastplan_page(three, strlen(THREE), 2, NULL, 0, NULL, 0, out, sizeof out).answer == 10);
    EXPECT(leastplan_page(self, strlen(SELF), 1, ones, 1, NULL, 0, NULL, 0).answer == 10);
    EXPECT(leastplan_page(self, strlen(SELF), 1, NULL, 0, ones, 1, NULL, 0).answer == 10);
    leastplan_text got = leastplan_page(self, strlen(SELF), 1, ones, 1, ones, 1, NULL, 0);
    EXPECT(got.answer == 0 && got.count == 0);
}

/* The largest page: 24 operations on 8 types of 8 units at interval 64. A line has the slot and a cell a unit. */
enum { TYPES = 8, UNITS = 8, SLOTS = 64, SLOT_WIDTH = 4, CELL = 5 };
enum { LINE = LEASTPLAN_PAGE_ROOM / (TYPES * (1 + SLOTS)) };

/* A page with nothing on it, then each operation in its cell. */
static void put_largest(char *page, places given)
{
    char *at = page, number[TEXT];
    for (int r = 0; r < TYPES; r++) {
        at += sprintf(at, "type%*d%*s\n", CELL, r, (UNITS - 1) * CELL, "");
        for (int slot = 0; slot < SLOTS; slot++)
            at += sprintf(at, "%*d    -    -    -    -    -    -    -    -\n", SLOT_WIDTH, slot);
    }
    for (int i = 0; i < MOST; i++) {
        size_t line = i % TYPES * (1 + SLOTS) + 1 + given.starts[i] % SLOTS;
        sprintf(number, "%*d", CELL, i);
        memcpy(page + line * LINE + SLOT_WIDTH + given.instances[i] * CELL, number, CELL);
    }
}

static void largest_page(void)
{
    static char page[LEASTPLAN_PAGE_ROOM + 1], sheet[TEXT];
    loop eight = {.horizon = 2 * SLOTS, .cap = SLOTS, .type_count = TYPES, .op_count = MOST};
    places given = {.start_count = MOST, .instance_count = MOST};
    for (int r = 0; r < TYPES; r++) eight.types[r][0] = UNITS;
    for (int i = 0; i < MOST; i++) {
        eight.kinds[i] = i % TYPES;
        given.starts[i] = eight.horizon - 1 - i;
        given.instances[i] = UNITS - 1 - i / TYPES;
    }
    put_sheet(sheet, eight, NULL);
    put_largest(page, given);
    EXPECT(strlen(page) == LEASTPLAN_PAGE_ROOM);
    EXPECT(page_is(sheet, SLOTS, given, LEASTPLAN_PAGE_ROOM, 0, page));
    EXPECT(page_is(sheet, SLOTS, given, LEASTPLAN_PAGE_ROOM - 1, 9, ""));
}

static void refused_sheets(void)
{
    static char longer[LONGEST + 1];
    char damaged[sizeof A];
    EXPECT(leastplan_least_interval(NULL, 0).answer == 2);
    EXPECT(leastplan_plan_text(NULL, 0, 1, NULL, 0).answer == 2);
    EXPECT(leastplan_slot_order(NULL, 0, 1, 0).answer == 2);
    EXPECT(least_is("", 0, 2, 0));
    for (size_t length = 0; length < strlen(A); length++) EXPECT(least_is(A, length, 2, 0));
    memset(longer, '\n', sizeof longer);
    memcpy(longer, A, strlen(A));
    EXPECT(least_is(longer, LONGEST, 2, 0));
    EXPECT(least_is(longer, LONGEST + 1, 1, 0));
    EXPECT(text_is(longer, LONGEST + 1, 0, 100, 1, ""));
    EXPECT(least_is("horizon=129\n", 12, 3, 0));
    EXPECT(text_is("horizon=129\n", 12, 0, 100, 3, ""));
    for (size_t k = 0; k < strlen(A); k++) {
        memcpy(damaged, A, sizeof A);
        damaged[k] = (char)0xFF;
        EXPECT(least_is(damaged, strlen(A), 2, 0));
    }
}

static int judged_is(const char *text, size_t length, const char *given, size_t given_length, uint64_t answer)
{
    uint8_t *sheet = copy_of(text, length), *lines = copy_of(given, given_length);
    uint64_t got = leastplan_judge(sheet, length, lines, given_length);
    free(sheet);
    free(lines);
    return got == answer;
}

static int judged(const char *text, const char *given, uint64_t answer)
{
    return judged_is(text, strlen(text), given, strlen(given), answer);
}

/* No plan of A at interval 2: the last operation comes two clocks after the first, and so in its slot. */
static const char DENIAL_A[] =
    "answer=6\ninterval=2\nsplit=0,0\nsplit=2,1\nlate=0,0,1\nclash=0,2\nlate=0,0,1\n";

/* Each two of three operations meet, so two units are not enough. */
#define SEATS                                                              \
    "seat=0,0\nseat=1,0\nclash=0,1\nseat=2,0\nclash=0,2\nclash=1,2\n" \
    "seat=1,0\nseat=2,0\nclash=1,2\nclash=0,2\nclash=0,1\n"

static void judged_plans(void)
{
    EXPECT(judged(A, PLAN_A, 0));
    EXPECT(judged(B, PLAN_A, 0));
    EXPECT(judged(DUE, PLAN_A, 0));
    EXPECT(judged(THREE, PLAN_THREE, 0));
    EXPECT(judged(THREE, "answer=0\ninterval=2\nat=1,1\nat=1,0\nat=0,1\n", 0));
    EXPECT(judged(BUSY, "answer=0\ninterval=4\nat=3,0\nat=5,0\n", 0));
    EXPECT(judged(SETTLED, PLAN_A, 19));
    EXPECT(judged(A, "answer=0\ninterval=2\nat=0,0\nat=1,0\nat=2,0\n", 19));
    EXPECT(judged(A, "answer=0\ninterval=3\nat=0,0\nat=1,1\nat=2,0\n", 19));
    EXPECT(judged(A, "answer=0\ninterval=3\nat=0,0\nat=1,0\nat=9999,9999\n", 19));
    EXPECT(judged(LATE, "answer=0\ninterval=1\nat=0,0\n", 19));
    EXPECT(judged(BUSY, "answer=0\ninterval=4\nat=3,0\nat=4,0\n", 19));
    EXPECT(judged(BUSY, "answer=0\ninterval=1\nat=3,0\nat=5,0\n", 19));
}

static void judged_denials(void)
{
    EXPECT(judged(A, "answer=5\ninterval=1\nloop=0,1,2\n", 0));
    EXPECT(judged(A, "answer=6\ninterval=1\nloop=2,0,1\n", 0));
    EXPECT(judged(A, "answer=5\ninterval=2\nloop=0,1,2\n", 19));
    EXPECT(judged(A, "answer=5\ninterval=1\nloop=0,1\n", 19));
    EXPECT(judged(SELF, "answer=5\ninterval=3\nloop=0\n", 0));
    EXPECT(judged(A, DENIAL_A, 0));
    EXPECT(judged(B, DENIAL_A, 19));
    EXPECT(judged(LATE, "answer=6\ninterval=1\nlate=0\n", 0));
    EXPECT(judged(ONE, "answer=6\ninterval=1\nlate=0\n", 19));
    EXPECT(judged(EARLY, "answer=6\ninterval=1\nlate=0,0\n", 0));
    EXPECT(judged(EARLY_NOT, "answer=6\ninterval=1\nlate=0,0\n", 19));
    EXPECT(judged(EARLY_NOT, "answer=6\ninterval=1\nlate=1\n", 0));
    EXPECT(judged(LONG, "answer=6\ninterval=2\nclash=0,0\n", 0));
    EXPECT(judged(LONG, "answer=6\ninterval=3\nclash=0,0\n", 19));
    EXPECT(judged(LONG, "answer=6\ninterval=2\nclash=1,1\n", 19));
    EXPECT(judged(AROUND, "answer=6\ninterval=6\n" SEATS, 0));
    EXPECT(judged(AROUND, "answer=6\ninterval=5\n" SEATS, 0));
    EXPECT(judged(AROUND, "answer=6\ninterval=7\n" SEATS, 19));
    EXPECT(judged(A, "answer=5\ninterval=1\nseat=0,9999\nloop=0,1,2\nloop=0,1,2\n", 0));
    EXPECT(judged(A, "answer=5\ninterval=1\nseat=1,0\nloop=0,1,2\nloop=0,1,2\n", 19));
}

/* 18, whatever the sheet has: parts of a text, more than a text, other bytes, names that the sheet lacks. */
static void malformed_answers(void)
{
    char damaged[sizeof DENIAL_A + 1];
    size_t whole = strlen(DENIAL_A);
    for (size_t length = 0; length < whole; length++) EXPECT(judged_is(A, strlen(A), DENIAL_A, length, 18));
    for (size_t length = 0; length < strlen(PLAN_A); length++) EXPECT(judged_is(A, strlen(A), PLAN_A, length, 18));
    for (size_t k = 0; k <= whole; k++) {
        memcpy(damaged, DENIAL_A, sizeof DENIAL_A);
        damaged[k] = (char)0xFF;
        EXPECT(judged_is(A, strlen(A), damaged, k < whole ? whole : whole + 1, 18));
    }
    EXPECT(judged_is(A, strlen(A), DENIAL_A, whole + 1, 18));
    EXPECT(judged(A, "answer=7\n", 18));
    EXPECT(judged(A, "answer=6\ninterval=2\n", 18));
    EXPECT(judged(THREE, "answer=6\ninterval=1\nloop=0\n", 18));
    EXPECT(judged(A, "answer=6\ninterval=2\nlate=3\n", 18));
    EXPECT(judged(A, "answer=6\ninterval=2\nlate=0,3\n", 18));
}

/* The sheet goes before the text, and of that 18 before 4, and 4 before 19. */
static void order_of_judging(void)
{
    static char longer[LONGEST + 2];
    memset(longer, '\n', LONGEST + 1);
    EXPECT(judged(longer, PLAN_A, 1));
    EXPECT(judged("", PLAN_A, 2));
    EXPECT(judged("horizon=129\n", "", 3));
    EXPECT(judged(WRONG_BUSY, PLAN_A, 3));
    EXPECT(judged(UPSIDE_DOWN, "", 16));
    EXPECT(judged(A, "answer=0\ninterval=0\nat=0,0\nat=1,0\nat=2,0\nx", 18));
    EXPECT(judged(A, "answer=0\ninterval=0\nat=0,0\nat=1,0\nat=2,0\n", 4));
    EXPECT(judged(A, "answer=0\ninterval=5\nat=9,9\nat=1,0\nat=2,0\n", 4));
    EXPECT(judged(A, "answer=5\ninterval=9999\nloop=0\n", 4));
    EXPECT(judged(A, "answer=6\ninterval=2\nsplit=0,0\nlate=0\nlate=0,0,1,\n", 18));
    EXPECT(leastplan_judge(NULL, 0, NULL, 0) == 2);
    EXPECT(leastplan_judge(NULL, 0, (const uint8_t *)PLAN_A, strlen(PLAN_A)) == 2);
    EXPECT(leastplan_judge((const uint8_t *)A, strlen(A), NULL, 0) == 18);
}

/* A loop below so many cuts, each of which leads to the last leaf. */
static void put_cuts(char *text, int cuts)
{
    text += sprintf(text, "answer=5\ninterval=1\n");
    for (int k = 0; k < cuts; k++) text += sprintf(text, k % 2 ? "seat=0,0\nloop=0,1,2\n" : "split=1,0\nloop=0,1,2\n");
    sprintf(text, "loop=0,1,2\n");
}

/* A tree of so many leaves, the same number of cuts above each or one more. */
static char *put_leaves(char *text, int leaves)
{
    if (leaves == 1) return text + sprintf(text, "loop=0,1,2\n");
    text = put_leaves(text + sprintf(text, "split=1,0\n"), leaves / 2);
    return put_leaves(text, leaves - leaves / 2);
}

/* 64 cuts above a leaf, 1,024 lines with the first two; a tree has an odd number of them. */
static void sizes_of_answers(void)
{
    static char text[1 << 15];
    for (int cuts = 0; cuts <= 66; cuts++) {
        put_cuts(text, cuts);
        EXPECT(judged(A, text, cuts > 64 ? 18 : 0));
    }
    for (int leaves = 509; leaves <= 513; leaves++) {
        put_leaves(text + sprintf(text, "answer=5\ninterval=1\n"), leaves);
        EXPECT(judged(A, text, leaves > 511 ? 18 : 0));
    }
}

int main(void)
{
    plain_sheets();
    windowed_sheets();
    busy_sheets();
    valid_sheets();
    windows_decide();
    windows_refused();
    busy_units();
    intervals();
    buffers();
    pairs();
    pages();
    busy_pages();
    refused_places();
    order_of_refusals();
    null_pointers();
    largest_page();
    refused_sheets();
    judged_plans();
    judged_denials();
    malformed_answers();
    order_of_judging();
    sizes_of_answers();
    if (!failures) printf("ok C calls (%d checks)\n", checks);
    return failures != 0;
}
