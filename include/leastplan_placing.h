/* Placing into a table that a host program in C keeps. Link libplacing.a, a copy of out/libplacing_c.a, which `rt lib`
   in crates/placing_c/ builds; it may be linked beside libhost.a (leastplan.h).

   The placing table (modulo reservation table) is kept for one sheet and one interval: it says which operations are
   placed, at which start and on which instance. A new table is all zero bytes. The sheet goes by value, as numbers;
   entries past its counts are no part of it. Dependences are not considered. Nothing is kept between calls.
   A call takes stack: less than 40 KB in every measurement.

   The structs are laid out as C lays them out on x86-64: a uint64_t has 8 bytes and stands at a multiple of 8, and the
   bytes between fields have no meaning. Sizes: type 24, operation 24, edge 32, sheet 3,880, placement 24, table
   576, placed 16. */
#ifndef LEASTPLAN_PLACING_H
#define LEASTPLAN_PLACING_H

#include <stdbool.h>
#include <stddef.h>
#include <stdint.h>

#ifdef __cplusplus
extern "C" {
#endif

enum { LEASTPLAN_MOST_TYPES = 8, LEASTPLAN_MOST_OPERATIONS = 24, LEASTPLAN_MOST_EDGES = 96 };

/* A type: its instances, 0 to 8 with 0 for unlimited, its latency in clocks, 0 to 32, and for how many slots an
   operation of it holds its instance (its occupancy), 1 to 32. */
typedef struct { uint64_t instances; uint64_t latency; uint64_t busy; } leastplan_type;

/* An operation: the number of its type, below the count of types, and its window, the first and the last clock at which
   a plan may start it: both below the horizon, lo at most hi. A placement need not keep the window. */
typedef struct { uint64_t resource; uint64_t lo; uint64_t hi; } leastplan_operation;

/* An edge between two operations below their count (they may be equal): its delay, -64 to 64, and its distance in
   iterations, 0 to 8. */
typedef struct { uint64_t from; uint64_t to; int32_t delay; uint64_t distance; } leastplan_edge;

/* A loop sheet: starts are 0 to horizon - 1 (horizon 1 to 128), intervals 1 to cap (cap 1 to 64); then 1 to 8 types,
   1 to 24 operations and 0 to 96 edges, each numbered from 0. In a plan start plus latency is at most horizon; a
   placement need not keep that. */
typedef struct {
    uint64_t horizon;
    uint64_t cap;
    uint64_t type_count;
    leastplan_type types[LEASTPLAN_MOST_TYPES];
    uint64_t op_count;
    leastplan_operation ops[LEASTPLAN_MOST_OPERATIONS];
    uint64_t edge_count;
    leastplan_edge edges[LEASTPLAN_MOST_EDGES];
} leastplan_sheet;

/* Where an operation is placed: whether it is, its start and its instance. Both numbers are 0 where it is not. The byte
   of `placed` must be 0 or 1: with any other, what the call does is undefined. */
typedef struct { bool placed; uint64_t start; uint64_t instance; } leastplan_placement;

/* A placing table: entry i is that of operation i. */
typedef struct { leastplan_placement entries[LEASTPLAN_MOST_OPERATIONS]; } leastplan_table;

/* The answer of a placing, and the instance that the operation got; that is 0 with every answer but 0. */
typedef struct { uint64_t answer; uint64_t instance; } leastplan_placed;

/* Places an operation at a start: it gets the lowest instance that no placed operation of its type holds in a slot that
   it would hold, or 0 of an unlimited type. (An operation of a limited type holds as many slots as its type is busy:
   the remainders by the interval of its start and of the clocks after it.) Its entry of the table then says so, and no
   other entry is altered. With any answer but 0 the table holds what it held.
   The table must not be null: with a null table, what the call does is undefined. It is written with a refusal too, so
   no other thread may use it during the call. Every number may be any number. The first of these that holds is the
   answer:
     3   a number of the sheet is out of its range
     16  the lo of an operation exceeds its hi; 3 or 16, whichever comes first in the order of the lines of a sheet:
         horizon, cap, types, operations, edges
     4   the interval is not in 1 to the cap
     10  the table is not one of this sheet at this interval: a start is not below the horizon, an instance is not one
         of the operation's type, a number is not 0 where nothing is placed, something is placed past the sheet's
         operations, two placed operations of one limited type hold one instance in one slot, or a placed operation of
         a limited type would hold more slots than the interval has
     11  the operation is not below the sheet's count of them, or the start is not below the horizon
     12  the operation is placed already
     13  no instance is free in every slot that the operation would hold, or those are more than the interval has
     0   the operation is placed */
leastplan_placed leastplan_place_into(
    leastplan_table *table, leastplan_sheet sheet, size_t interval, size_t op, size_t start);

#ifdef __cplusplus
}
#endif

#endif
