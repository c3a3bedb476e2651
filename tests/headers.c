/* Compiled as C and as C++, never run: each header stands twice, the layouts are those that it tells, and each call has
   C's name, since C++ refuses to declare a call again with another linkage. */
#include "leastplan.h"
#include "leastplan_placing.h"
#include "leastplan.h"
#include "leastplan_placing.h"

#ifdef __cplusplus
#define SAME(a, b) static_assert((a) == (b), #a)
#define CALL extern "C"
#else
#define SAME(a, b) _Static_assert((a) == (b), #a)
#define CALL extern
#endif

SAME(sizeof(leastplan_interval), 16);
SAME(sizeof(leastplan_text), 16);
SAME(sizeof(leastplan_order), 16);
SAME(LEASTPLAN_PAGE_ROOM, 8 * (1 + 64) * 45);

SAME(sizeof(leastplan_type), 24);
SAME(offsetof(leastplan_type, busy), 16);
SAME(sizeof(leastplan_operation), 24);
SAME(offsetof(leastplan_operation, lo), 8);
SAME(offsetof(leastplan_operation, hi), 16);
SAME(sizeof(leastplan_edge), 32);
SAME(offsetof(leastplan_edge, delay), 16);
SAME(offsetof(leastplan_edge, distance), 24);
SAME(sizeof(leastplan_sheet), 3880);
SAME(offsetof(leastplan_sheet, types), 24);
SAME(offsetof(leastplan_sheet, op_count), 216);
SAME(offsetof(leastplan_sheet, ops), 224);
SAME(offsetof(leastplan_sheet, edge_count), 800);
SAME(offsetof(leastplan_sheet, edges), 808);
SAME(sizeof(leastplan_placement), 24);
SAME(offsetof(leastplan_placement, start), 8);
SAME(offsetof(leastplan_placement, instance), 16);
SAME(sizeof(leastplan_table), 576);
SAME(sizeof(leastplan_placed), 16);
SAME(sizeof(bool), 1);

CALL leastplan_interval leastplan_least_interval(const uint8_t *, size_t);
CALL leastplan_text leastplan_plan_text(const uint8_t *, size_t, size_t, uint8_t *, size_t);
CALL leastplan_order leastplan_slot_order(const uint8_t *, size_t, size_t, size_t);
CALL leastplan_text leastplan_page(
    const uint8_t *, size_t, size_t, const size_t *, size_t, const size_t *, size_t, uint8_t *, size_t);
CALL leastplan_placed leastplan_place_into(leastplan_table *, leastplan_sheet, size_t, size_t, size_t);
