/* Calls of leastplan for host programs in C. Link crates/host/out/libhost.a, which `rt lib` in
   crates/host/ builds. Placing into a table that the host keeps is in leastplan_placing.h.

   Each call takes the bytes of a loop sheet and their count; a null pointer with count 0 is an empty sheet (2).
   Each returns an answer and one number, which is 0 with every answer but 0; leastplan_judge returns an answer alone.
   Nothing is kept between calls. The buffer must not overlap the sheet, the starts or the instances. Calls take stack:
   0.49 MB was the most measured, 0.7 MB is the most by the shape of the code (docs/PERFORMANCE.md); a thread with less
   may overflow its stack.

   Answers of every call, put in this order:
     0  the number is what was asked for
     1  the sheet has more than 4,096 bytes
     2  a line is missing, malformed or under another key, or something follows the last line
     3  a number of the sheet is out of its range
     16 an operation's window is empty: its lo exceeds its hi
   The lines are gone through in their order: the first that is refused by 2, 3 or 16 answers, and within a line 2 comes
   before 3, and 3 before 16.
   Further answers stand at each call. */
#ifndef LEASTPLAN_H
#define LEASTPLAN_H

#include <stddef.h>
#include <stdint.h>

#ifdef __cplusplus
extern "C" {
#endif

typedef struct { uint64_t answer; uint64_t interval; } leastplan_interval;
typedef struct { uint64_t answer; uint64_t count; } leastplan_text;
typedef struct { uint64_t answer; uint64_t order; } leastplan_order;

/* The least interval, from 1 to the sheet's cap, that has a plan.
     7  no interval up to the cap has one */
leastplan_interval leastplan_least_interval(const uint8_t *sheet, size_t sheet_length);

/* The text of the first plan at the interval, as leastplan prints it, at the front of the buffer; the number is its
   count of bytes. No zero byte is added. With answer 0 the bytes past the text are as they were; with any other
   answer the whole buffer is. A null pointer with room 0 takes no text (9).
     4  the interval is not in 1 to the cap
     5  no starts meet the dependences at this interval
     6  no plan exists at this interval
     9  the buffer does not take the whole text */
leastplan_text leastplan_plan_text(
    const uint8_t *sheet, size_t sheet_length, size_t interval, uint8_t *buffer, size_t room);

/* Which operation of a rival pair starts in the smaller slot in the first plan at the interval. The operations i < j
   are pair j * (j - 1) / 2 + i. The number is 0 for the same slot, 1 if i has the smaller one, 2 if j has.
     4, 5, 6  as above
     14  no such pair: the number is not below N * (N - 1) / 2
     15  the two operations are not of one limited type */
leastplan_order leastplan_slot_order(const uint8_t *sheet, size_t sheet_length, size_t interval, size_t pair);

/* Room for any page: a heading and 64 slots for each of 8 types, 45 bytes each. */
#define LEASTPLAN_PAGE_ROOM 23400

/* The page of a plan for the cabinet door: its reservation table, for each limited type a heading and a line for each
   slot with the operations that hold its instances there, at the front of the buffer; the number is its count of bytes,
   (L + 1) * 45 for each limited type at interval L. Operation i starts at starts[i] on instance instances[i];
   dependences, windows and the end of the frame are not judged. The bytes past the text, and null pointers, are as with
   the plan text.
     4   as above
     9   the buffer does not take the whole page; this is asked before 10
     10  there is not one start and one instance for each operation, a start is not below the horizon, an instance is
         not one of its type's (0 for an unlimited type), two operations of one limited type hold the same instance in
         the same slot, or an operation of a limited type would hold more slots than the interval has */
leastplan_text leastplan_page(
    const uint8_t *sheet, size_t sheet_length, size_t interval, const size_t *starts, size_t start_count,
    const size_t *instances, size_t instance_count, uint8_t *buffer, size_t room);

/* What the answer of another supplier is judged: a plan, in the lines that leastplan prints (answer=0, interval=L, one
   line at=t,u for each operation), or a denial (answer=5 or answer=6, interval=L, and a tree, one line a node; see
   docs/FORMAT.md). Returns the number alone; a null pointer with length 0 is an empty text (18). 133,120 bytes are the
   most that a text which is passed can have.
     0   passed: the plan keeps every rule, or the tree shows that there is no plan at that interval
     18  the text is no plan and no denial of this sheet: a malformed line, another answer, not one line at= for each
         operation, a tree cut short or followed by more lines, an operation or an edge that the sheet lacks, more than
         1,024 lines, 64 splits and seats above a leaf, or 24 edges in a walk or a chain
     4   the text is in order, but its interval is not in 1 to the cap
     19  the plan breaks a rule, a leaf of the tree is not so, or a seat cuts an operation of an unlimited type
   1, 2, 3 and 16 come first, then these in the order 18, 4, 19: the whole text is read before 4 and 19 are asked. */
uint64_t leastplan_judge(const uint8_t *sheet, size_t sheet_length, const uint8_t *answer, size_t answer_length);

#ifdef __cplusplus
}
#endif

#endif
