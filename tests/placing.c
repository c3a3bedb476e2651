/* Keeps a placing table over placements and refusals through leastplan_place_into, and compares the whole table after
   each with what is worked out by hand. The table is allocated to the byte, so that valgrind tells an access past
   it. */
#include <stdio.h>
#include <stdlib.h>
#include <string.h>

#include "leastplan_placing.h"
#include "expect.h"

enum { MOST = 4 };

/* A loop: its types (instances, latency), the type of each operation, its edges. */
typedef struct {
    size_t horizon, cap;
    size_t type_count, types[MOST][2];
    size_t op_count, kinds[MOST];
    size_t edge_count;
    leastplan_edge edges[MOST];
} loop;

/* The sheet of a loop, with the window of the whole horizon for each operation and types that are busy for one slot. */
static leastplan_sheet plain_sheet(loop s)
{
    leastplan_sheet sheet = {.horizon = s.horizon, .cap = s.cap};
    sheet.type_count = s.type_count;
    for (size_t k = 0; k < s.type_count; k++)
        sheet.types[k] = (leastplan_type){.instances = s.types[k][0], .latency = s.types[k][1], .busy = 1};
    sheet.op_count = s.op_count;
    for (size_t i = 0; i < s.op_count; i++)
        sheet.ops[i] = (leastplan_operation){.resource = s.kinds[i], .lo = 0, .hi = s.horizon - 1};
    sheet.edge_count = s.edge_count;
    for (size_t k = 0; k < s.edge_count; k++) sheet.edges[k] = s.edges[k];
    return sheet;
}

/* Operations 0, 1 and 3 are rivals with two instances, 2 is of an unlimited type; starts 0 to 3, intervals 1 to 3. The
   result of 2 comes after the horizon at any start: so the sheet has no plan, but a table may hold the operation. */
static const loop RIVALS = {4, 3, 2, {{2, 1}, {0, 9}}, 4, {0, 0, 1, 0}, 1, {{0, 1, 1, 0}}};
static leastplan_sheet FOUR;

/* The table that is kept, and what it is to hold. */
static leastplan_table *kept, due;

static bool as_due(void)
{
    for (int i = 0; i < LEASTPLAN_MOST_OPERATIONS; i++) {
        const leastplan_placement *a = &kept->entries[i], *b = &due.entries[i];
        if (a->placed != b->placed || a->start != b->start || a->instance != b->instance) return false;
    }
    return true;
}

/* A placement: the operation gets this instance, and no other entry is altered. */
static bool placed_of(leastplan_sheet sheet, size_t interval, size_t op, size_t start, size_t instance)
{
    leastplan_placed got = leastplan_place_into(kept, sheet, interval, op, start);
    due.entries[op] = (leastplan_placement){true, start, instance};
    return got.answer == 0 && got.instance == instance && as_due();
}

static bool placed(size_t interval, size_t op, size_t start, size_t instance)
{
    return placed_of(FOUR, interval, op, start, instance);
}

/* A refusal: the instance is 0, and the table holds what it held. */
static bool refused(leastplan_sheet sheet, size_t interval, size_t op, size_t start, size_t answer)
{
    leastplan_placed got = leastplan_place_into(kept, sheet, interval, op, start);
    return got.answer == answer && got.instance == 0 && as_due();
}

static void placements(void)
{
    EXPECT(placed(2, 0, 1, 0));
    EXPECT(placed(2, 1, 3, 1));
    EXPECT(refused(FOUR, 2, 3, 1, 13));
    EXPECT(refused(FOUR, 2, 3, 3, 13));
    EXPECT(placed(2, 2, 1, 0));
    EXPECT(placed(2, 3, 2, 0));
}

/* With operations 0, 1 and 3 at starts 1, 3 and 2 on instances 0, 1 and 0. */
static void refusals(void)
{
    leastplan_sheet wrong = FOUR;
    wrong.horizon = 129;
    EXPECT(refused(wrong, 2, 0, 0, 3));
    wrong.horizon = SIZE_MAX;
    EXPECT(refused(wrong, SIZE_MAX, SIZE_MAX, SIZE_MAX, 3));
    EXPECT(refused(FOUR, 0, 0, 0, 4));
    EXPECT(refused(FOUR, 4, 0, 0, 4));
    EXPECT(refused(FOUR, SIZE_MAX, 0, 0, 4));
    EXPECT(refused(FOUR, 1, 0, 0, 10));
    EXPECT(refused(FOUR, 1, 4, 4, 10));
    EXPECT(refused(FOUR, 2, 4, 0, 11));
    EXPECT(refused(FOUR, 2, 0, 4, 11));
    EXPECT(refused(FOUR, 2, SIZE_MAX, 0, 11));
    EXPECT(refused(FOUR, 2, 0, SIZE_MAX, 11));
    EXPECT(refused(FOUR, 2, 0, 0, 12));
    EXPECT(refused(FOUR, 3, 3, 3, 12));
    wrong = FOUR;
    wrong.op_count = 3;
    EXPECT(refused(wrong, 2, 0, 0, 10));
}

/* One entry of the table is another for a call, by the caller's hand. */
static bool refused_with(size_t i, leastplan_placement entry)
{
    leastplan_placement before = due.entries[i];
    bool good;
    kept->entries[i] = due.entries[i] = entry;
    good = refused(FOUR, 2, 3, 2, 10);
    kept->entries[i] = due.entries[i] = before;
    return good;
}

static void handed_in(void)
{
    kept->entries[3] = due.entries[3] = (leastplan_placement){false, 0, 0};
    EXPECT(refused_with(0, (leastplan_placement){true, 4, 0}));
    EXPECT(refused_with(0, (leastplan_placement){true, SIZE_MAX, 0}));
    EXPECT(refused_with(0, (leastplan_placement){true, 1, 2}));
    EXPECT(refused_with(0, (leastplan_placement){true, 1, 1}));
    EXPECT(refused_with(2, (leastplan_placement){true, 1, 1}));
    EXPECT(refused_with(3, (leastplan_placement){false, 2, 0}));
    EXPECT(refused_with(3, (leastplan_placement){false, 0, 1}));
    EXPECT(refused_with(4, (leastplan_placement){true, 0, 0}));
    EXPECT(refused_with(23, (leastplan_placement){false, 0, SIZE_MAX}));
    EXPECT(placed(2, 3, 0, 0));
}

static leastplan_sheet with_window(leastplan_sheet sheet, size_t op, size_t lo, size_t hi)
{
    sheet.ops[op].lo = lo;
    sheet.ops[op].hi = hi;
    return sheet;
}

/* The lines of the sheet in their order: within one 3 goes before 16, and an earlier one decides. */
static void windows_refused(void)
{
    leastplan_sheet wrong = with_window(FOUR, 1, 3, 2);
    EXPECT(refused(wrong, 2, 0, 0, 16));
    EXPECT(refused(wrong, SIZE_MAX, SIZE_MAX, SIZE_MAX, 16));
    EXPECT(refused(with_window(FOUR, 1, 4, 3), 2, 0, 0, 3));
    EXPECT(refused(with_window(FOUR, 1, 0, 4), 2, 0, 0, 3));
    EXPECT(refused(with_window(FOUR, 3, SIZE_MAX, 0), 2, 0, 0, 3));
    EXPECT(refused(with_window(FOUR, 3, 0, SIZE_MAX), 2, 0, 0, 3));
    EXPECT(refused(with_window(wrong, 2, 4, 4), 2, 0, 0, 16));
    EXPECT(refused(with_window(wrong, 0, 4, 4), 2, 0, 0, 3));
    wrong.edges[0].distance = 9;
    EXPECT(refused(wrong, 2, 0, 0, 16));
    wrong.ops[1].resource = 2;
    EXPECT(refused(wrong, 2, 0, 0, 3));
    wrong = with_window(FOUR, 1, 3, 2);
    wrong.cap = 65;
    EXPECT(refused(wrong, 2, 0, 0, 3));
}

/* A window plays no part in a placement, nor in what a table may hold; past the operations it is no part of the
   sheet. */
static void outside_windows(void)
{
    leastplan_sheet narrow = with_window(with_window(FOUR, 3, 1, 1), 4, 3, 2);
    kept->entries[3] = due.entries[3] = (leastplan_placement){false, 0, 0};
    EXPECT(placed_of(narrow, 2, 3, 2, 0));
    kept->entries[3] = due.entries[3] = (leastplan_placement){false, 0, 0};
    narrow = with_window(with_window(narrow, 0, 0, 0), 1, 0, 0);
    EXPECT(placed_of(narrow, 2, 3, 0, 0));
    EXPECT(refused(narrow, 2, 3, 0, 12));
}

static leastplan_sheet with_busy(leastplan_sheet sheet, size_t type, size_t busy)
{
    sheet.types[type].busy = busy;
    return sheet;
}

static void emptied(void)
{
    memset(kept, 0, sizeof *kept);
    memset(&due, 0, sizeof due);
}

/* Operations 0, 1 and 3 hold an instance for two slots each; 2 holds nothing. With the table that is made at interval 3
   another interval finds two on one instance, or an operation that meets itself. */
static void busy_units(void)
{
    leastplan_sheet busy = with_busy(with_busy(FOUR, 0, 2), 1, 32);
    emptied();
    EXPECT(refused(busy, 1, 0, 0, 13));
    EXPECT(placed_of(busy, 1, 2, 3, 0));
    EXPECT(placed_of(busy, 3, 0, 2, 0));
    EXPECT(placed_of(busy, 3, 1, 0, 1));
    EXPECT(refused(busy, 3, 3, 0, 13));
    EXPECT(refused(busy, 3, 3, 1, 13));
    EXPECT(refused(busy, 3, 3, 2, 13));
    EXPECT(refused(busy, 1, 3, 0, 10));
    EXPECT(placed_of(with_busy(busy, 0, 1), 3, 3, 1, 0));
    EXPECT(refused(busy, 3, 2, 0, 10));
    emptied();
    EXPECT(placed_of(busy, 2, 0, 3, 0));
    EXPECT(placed_of(busy, 2, 1, 0, 1));
    EXPECT(refused(busy, 2, 3, 1, 13));
}

/* K out of its range, of a limited type and of an unlimited one; past the types it is no part of the sheet. */
static void busy_refused(void)
{
    EXPECT(refused(with_busy(FOUR, 0, 0), 2, 3, 0, 3));
    EXPECT(refused(with_busy(FOUR, 0, 33), 2, 3, 0, 3));
    EXPECT(refused(with_busy(FOUR, 1, 33), 2, 3, 0, 3));
    EXPECT(refused(with_busy(FOUR, 1, SIZE_MAX), SIZE_MAX, SIZE_MAX, SIZE_MAX, 3));
    EXPECT(refused(with_busy(with_window(FOUR, 1, 3, 2), 1, 33), 2, 0, 0, 3));
    EXPECT(refused(with_busy(FOUR, 0, 32), 2, 2, 0, 10));
    emptied();
    EXPECT(refused(with_busy(FOUR, 0, 32), 2, 0, 0, 13));
    EXPECT(placed_of(with_busy(FOUR, 2, 33), 2, 0, 0, 0));
}

int main(void)
{
    FOUR = plain_sheet(RIVALS);
    kept = malloc(sizeof *kept);
    memset(kept, 0, sizeof *kept);
    placements();
    refusals();
    handed_in();
    windows_refused();
    outside_windows();
    busy_units();
    busy_refused();
    free(kept);
    if (!failures) printf("ok placing into a table kept by C (%d checks)\n", checks);
    return failures != 0;
}
