"""Answers of another supplier, judged by hand: (name, sheet, text, answer, line at fault), the line 0 where the text
passes. One or more for each reading of slip 7 of document 02."""

import reference as ref
from reference import plain_sheet, with_busy, with_windows


def text_of(*rows):
    return ref.lines_of(rows)


def with_row(rows, line, *others):
    """The rows with these in place of the line of that number, counted from 1."""
    return [*rows[: line - 1], *others, *rows[line:]]


# ---- case A: horizon 3, cap 4; operations 0 and 2 share one unit, 1 is of an unlimited type. The totals of the edges
# 0 to 1, 1 to 2 and 2 to 0 are 1, 1 and 1 - 2L; starts are 0 to 2.

A = plain_sheet(3, 4, [(1, 1), (0, 1)], [0, 1, 0], [(0, 1, 0, 0), (1, 2, 0, 0), (2, 0, 0, 2)])
PLAN = ["answer=0", "interval=3", "at=0,0", "at=1,0", "at=2,0"]
LOOP = ["answer=5", "interval=1", "loop=0,1,2"]

# At interval 2: operation 2 comes two clocks after operation 0, so they are at 2 and 0 and in one slot.
DENIAL = ["answer=6", "interval=2", "split=0,0", "split=2,1", "late=0,0,1", "clash=0,2", "late=0,0,1"]


def plans():
    yield "a plan", PLAN, 0, 0
    yield "the plan at the cap", with_row(PLAN, 2, "interval=4"), 0, 0
    yield "answer 5 with the lines of a plan", with_row(PLAN, 1, "answer=5"), 18, 3
    yield "answer 6 with the lines of a plan", with_row(PLAN, 1, "answer=6"), 18, 3
    yield "answer 0 with a tree", with_row(DENIAL, 1, "answer=0"), 18, 3
    yield "a place less", PLAN[:-1], 18, 5
    yield "no place", PLAN[:2], 18, 3
    yield "a place more", PLAN + ["at=2,0"], 18, 6
    yield "a place of one number", with_row(PLAN, 4, "at=1"), 18, 4
    yield "a place of three numbers", with_row(PLAN, 4, "at=1,0,0"), 18, 4
    yield "a plan and an empty line", PLAN + [""], 18, 6
    yield "a plan at interval 0", with_row(PLAN, 2, "interval=0"), 4, 2
    yield "a plan past the cap", with_row(PLAN, 2, "interval=5"), 4, 2
    yield "a plan at the greatest number", with_row(PLAN, 2, "interval=9999"), 4, 2
    yield "4 before a rule broken", with_row(with_row(PLAN, 2, "interval=5"), 3, "at=9999,9999"), 4, 2
    yield "18 before 4", with_row(PLAN, 2, "interval=5") + ["at=2,0"], 18, 6
    yield "18 before 19 above it", with_row(with_row(PLAN, 3, "at=9,9"), 5, "at=02,0"), 18, 5
    yield "a start past the last", with_row(PLAN, 5, "at=3,0"), 19, 5
    yield "the greatest start", with_row(PLAN, 3, "at=9999,0"), 19, 3
    yield "an instance past the last", with_row(PLAN, 5, "at=2,1"), 19, 5
    yield "an instance of an unlimited type", with_row(PLAN, 4, "at=1,1"), 19, 4
    yield "an edge to a later operation", with_row(PLAN, 4, "at=0,0"), 19, 4
    yield "two rules broken, the first", with_row(with_row(PLAN, 4, "at=1,1"), 5, "at=3,0"), 19, 4
    yield "one slot", with_row(PLAN, 2, "interval=2"), 19, 5
    yield "an edge to an earlier operation", with_row(PLAN, 2, "interval=1"), 19, 5


def forms():
    """Lines that are malformed, in the text of a denial of seven lines."""
    yield "a denial", DENIAL, 0, 0
    yield "the same with 5", with_row(DENIAL, 1, "answer=5"), 0, 0
    for answer in (1, 2, 3, 4, 7, 8, 18, 19, 50, 60, 9999):
        yield "answer %d" % answer, with_row(DENIAL, 1, "answer=%d" % answer), 18, 1
    yield "answer 05", with_row(DENIAL, 1, "answer=05"), 18, 1
    yield "two answers", with_row(DENIAL, 1, "answer=5,6"), 18, 1
    yield "no first line", DENIAL[1:], 18, 1
    yield "the first two exchanged", [DENIAL[1], DENIAL[0], *DENIAL[2:]], 18, 1
    yield "no interval", with_row(DENIAL, 2), 18, 2
    yield "an interval without a number", with_row(DENIAL, 2, "interval="), 18, 2
    yield "two intervals", with_row(DENIAL, 2, "interval=2", "interval=2"), 18, 3
    yield "a blank line before it", ["", *DENIAL], 18, 1
    for row in MALFORMED:
        yield "line %r" % row, with_row(DENIAL, 4, row), 18, 4
    yield "a place in a tree", with_row(DENIAL, 6, "at=0,2"), 18, 6
    yield "an answer in a tree", with_row(DENIAL, 6, "answer=6"), 18, 6
    yield "a leaf that is malformed", with_row(DENIAL, 7, "late=0,0,1,"), 18, 7
    yield "a malformed leaf after one that is not so", with_row(with_row(DENIAL, 5, "late=0"), 7, "late=-0"), 18, 7
    yield "one that is not so and 4", with_row(with_row(DENIAL, 5, "late=0"), 2, "interval=5"), 4, 2
    for interval in (0, 5, 9999):
        yield "interval %d" % interval, with_row(DENIAL, 2, "interval=%d" % interval), 4, 2
    yield "two faults, the first", with_row(with_row(DENIAL, 3, "split=3,0"), 7, "x"), 18, 3


MALFORMED = ["", "split", "split=", "split=2", "split=2,", "split=,1", "split=2,,1", "split=2,1,", "split=2,1,1"]
MALFORMED += ["split=02,1", "split=2,01", "split=2,00", "split=2,-1", "split=2,-0", "split=-2,1", "split=2,+1"]
MALFORMED += ["split=2,10000", "split=2,1 ", " split=2,1", "split=2, 1", "split=2,1\r", "split=2,1\0", "split=2;1"]
MALFORMED += ["Split=2,1", "SPLIT=2,1", "spli=2,1", "splits=2,1", "split 2,1", "split==2,1", "split=2,\u0661", "#"]
MALFORMED += ["seat=0", "seat=0,0,0", "clash=0", "clash=0,2,0", "clash=", "loop=", "late=", "late=0,", "loop=0,"]
MALFORMED += ["leaf=0", "loop=-1", "late=0,-1", "clash=0,-2", "loop=00", "late=0,00", "loop=10000"]


def bytes_at_the_ends():
    """Texts as bytes."""
    denial = text_of(*DENIAL)
    yield "no text", b"", 18, 1
    yield "a line feed alone", b"\n", 18, 1
    yield "no line feed after the first line", b"answer=6", 18, 1
    yield "the first line alone", b"answer=6\n", 18, 2
    yield "the first two alone", b"answer=6\ninterval=2\n", 18, 3
    yield "no last line feed", denial[:-1], 18, 7
    yield "no last line feed of a plan", text_of(*PLAN)[:-1], 18, 5
    yield "half of the last line", denial[:-4], 18, 7
    yield "a line feed more", denial + b"\n", 18, 8
    yield "a byte more", denial + b"x", 18, 8
    yield "a byte 0 more", denial + b"\0", 18, 8
    yield "the same again", denial + denial, 18, 8
    yield "line ends of two bytes", denial.replace(b"\n", b"\r\n"), 18, 1
    yield "line ends of another byte", denial.replace(b"\n", b"\r"), 18, 1
    yield "a byte past 127", denial.replace(b"clash", b"cl\xe1sh"), 18, 6
    yield "200,000 bytes in a line", b"1" * 200000, 18, 1
    yield "200,000 bytes after it", denial + b"loop=0\n" * 28571, 18, 8
    yield "200,000 bytes in the last line", denial[:-1] + b",0" * 100000 + b"\n", 18, 7


def trees():
    """The shape of a tree, and what it names."""
    yield "a tree cut short", DENIAL[:-1], 18, 7
    yield "a cut without subtrees", DENIAL[:3], 18, 4
    yield "a leaf after the tree", DENIAL + ["late=0,0,1"], 18, 8
    yield "a cut after the tree", DENIAL + ["split=0,0"], 18, 8
    yield "two leaves for one", with_row(LOOP, 3, "loop=0,1,2", "loop=0,1,2"), 18, 4
    yield "an operation past the last, in split", with_row(DENIAL, 4, "split=3,1"), 18, 4
    yield "in seat", with_row(DENIAL, 4, "seat=3,0"), 18, 4
    yield "in late", with_row(DENIAL, 5, "late=3"), 18, 5
    yield "first in clash", with_row(DENIAL, 6, "clash=3,2"), 18, 6
    yield "second in clash", with_row(DENIAL, 6, "clash=0,3"), 18, 6
    yield "an edge past the last, in late", with_row(DENIAL, 7, "late=0,0,3"), 18, 7
    yield "in loop", with_row(LOOP, 3, "loop=0,1,3"), 18, 3
    yield "the greatest edge", with_row(LOOP, 3, "loop=9999"), 18, 3
    yield "an edge past the last and 4", with_row(with_row(LOOP, 3, "loop=3"), 2, "interval=0"), 18, 3
    yield "a cut of any number", [*LOOP[:2], "split=1,9999", "loop=0,1,2", "loop=0,1,2"], 0, 0
    yield "a seat of any number", [*LOOP[:2], "seat=0,9999", "loop=0,1,2", "loop=0,1,2"], 0, 0
    yield "a seat of an unlimited operation", [*LOOP[:2], "seat=1,0", "loop=0,1,2", "loop=0,1,2"], 19, 3
    yield "that below a leaf that is not so", [*LOOP[:2], "split=0,0", "loop=0", "seat=1,0", *2 * LOOP[2:]], 19, 4
    yield "that above a leaf that is not so", [*LOOP[:2], "seat=1,0", "loop=0", "loop=0,1,2"], 19, 3
    yield "that and 4", ["answer=6", "interval=5", "seat=1,0", "loop=0,1,2", "loop=0,1,2"], 4, 2


def loops():
    """At interval 1 the edges 0, 1 and 2 sum to 1, at interval 2 to -1."""
    yield "a loop", LOOP, 0, 0
    yield "a loop with 6", with_row(LOOP, 1, "answer=6"), 0, 0
    yield "a loop from another operation", with_row(LOOP, 3, "loop=1,2,0"), 0, 0
    yield "a loop twice round", with_row(LOOP, 3, "loop=2,0,1,2,0,1"), 0, 0
    yield "a loop that does not chain", with_row(LOOP, 3, "loop=0,2,1"), 19, 3
    yield "a loop that is not closed", with_row(LOOP, 3, "loop=0,1"), 19, 3
    yield "a loop whose sum is below 0", with_row(LOOP, 2, "interval=2"), 19, 3
    yield "a loop of 24 edges", with_row(LOOP, 3, "loop=" + ",".join(["0,1,2"] * 8)), 0, 0
    yield "a loop of 25 edges", with_row(LOOP, 3, "loop=" + ",".join(["0,1,2"] * 8 + ["0"])), 18, 3
    yield "24 edges and a comma", with_row(LOOP, 3, "loop=" + "0,1,2," * 8), 18, 3
    yield "late by 24 edges", with_row(LOOP, 3, "late=0," + ",".join(["0,1,2"] * 8)), 0, 0
    yield "late by 25 edges", with_row(LOOP, 3, "late=0," + ",".join(["0,1,2"] * 8 + ["0"])), 18, 3


def lates():
    """Beside the cuts of DENIAL: operation 0 at 0 and operation 2 up to 1; then operation 0 from 1 on."""
    yield "late, not from that operation", with_row(DENIAL, 5, "late=1,0,1"), 19, 5
    yield "late, not chained", with_row(DENIAL, 5, "late=0,1,0"), 19, 5
    yield "late, just not", with_row(DENIAL, 5, "late=1,1"), 19, 5
    yield "late by nothing, just not", with_row(DENIAL, 5, "late=0"), 19, 5
    yield "a cut one higher, pinned no more", with_row(DENIAL, 3, "split=0,1"), 19, 6
    yield "a cut one higher, late no more", with_row(DENIAL, 4, "split=2,2"), 19, 5
    yield "parts exchanged", [*DENIAL[:3], DENIAL[6], *DENIAL[3:6]], 19, 4
    past = ["answer=6", "interval=1", "split=0,9999", "late=0,0,1,2,0,1", "late=0"]
    yield "nothing above a cut past the range", past, 0, 0
    yield "all below it", [*past[:3], "late=0", "late=0"], 19, 4
    yield "up to a number does not widen", [*DENIAL[:3], "split=0,2", *DENIAL[3:6], "late=0", DENIAL[6]], 0, 0
    higher = [*LOOP[:2], "split=0,1", "loop=0,1,2", "split=0,0", "late=0", "late=0,0"]
    yield "above a number does not widen", higher, 0, 0
    yield "it is not above the second number alone", with_row(higher, 3, "split=0,0"), 19, 7


# ---- other sheets


def rules():
    """What a plan has to keep, each rule alone; the line is that of the later operation."""
    back = plain_sheet(3, 1, [(0, 1)], [0, 0], [(1, 0, 0, 1)])
    yield "an edge back, kept", back, ["answer=0", "interval=1", "at=1,0", "at=1,0"], 0, 0
    yield "an edge back, not kept", back, ["answer=0", "interval=1", "at=0,0", "at=1,0"], 19, 4
    itself = plain_sheet(1, 1, [(0, 1)], [0, 0], [(0, 0, 0, 0)])
    yield "an edge to itself", itself, ["answer=0", "interval=1", "at=0,0", "at=0,0"], 19, 3
    frame = with_windows(plain_sheet(6, 4, [(0, 3)], [0], []), [(1, 4)])
    for start, answer in ((0, 19), (1, 0), (3, 0), (4, 19), (5, 19), (6, 19)):
        due = answer, 3 if answer else 0
        yield "a start of %d, results at 6" % start, frame, ["answer=0", "interval=1", "at=%d,0" % start], *due
    window = with_windows(frame, [(1, 2)])
    yield "a start after hi", window, ["answer=0", "interval=1", "at=3,0"], 19, 3
    busy = with_busy(plain_sheet(6, 4, [(1, 1)], [0, 0], []), [2])
    for start, answer in ((0, 19), (1, 19), (2, 0), (3, 19), (4, 19)):
        due = answer, 4 if answer else 0
        yield "held slots, 0 and %d" % start, busy, ["answer=0", "interval=4", "at=0,0", "at=%d,0" % start], *due
    yield "K above the interval", busy, ["answer=0", "interval=1", "at=0,0", "at=2,0"], 19, 3
    units = plain_sheet(2, 2, [(2, 1)], [0] * 3, [])
    yield "not the first plan", units, ["answer=0", "interval=2", "at=1,1", "at=1,0", "at=0,1"], 0, 0
    yield "one unit in one slot", units, ["answer=0", "interval=2", "at=1,1", "at=1,0", "at=1,1"], 19, 5


def before_the_first_clock():
    """The results of operation 1 come three clocks after the horizon: its highest start is -3."""
    rows = ["answer=6", "interval=1", "late=0,0"]
    for delay, answer in ((-1, 0), (-2, 0), (-3, 19), (-4, 19)):
        sheet = plain_sheet(1, 1, [(0, 0), (0, 4)], [0, 1], [(0, 1, delay, 0)])
        yield "a sum of %d, a highest start of -3" % delay, sheet, rows, answer, 3 if answer else 0
        yield "a highest start of -3 alone, beside %d" % delay, sheet, [*rows[:2], "late=1"], 0, 0
    sheet = plain_sheet(1, 1, [(0, 0), (0, 4)], [0, 1], [(0, 1, -2, 0)])
    yield "up to 0 it is still -3", sheet, [*rows[:2], "split=1,0", "late=0,0", "late=1"], 0, 0


# Horizon 9: latency, window, and the ends of the starts by hand: hi, H - 1 or H - D is the least.
ENDS = [(2, (2, 5), 2, 5), (0, (1, 8), 1, 8), (3, (0, 8), 0, 6), (9, (0, 8), 0, 0), (1, (4, 8), 4, 8)]


def ends_of_starts():
    """Operation 1 has an edge to itself that cannot be kept, which closes the other part."""
    for latency, window, lowest, highest in ENDS:
        plain = plain_sheet(9, 1, [(0, latency)], [0, 0], [(1, 1, 1, 0)])
        sheet, name = with_windows(plain, [window, (0, 8)]), "latency %d, window %d to %d" % (latency, *window)
        above = ["answer=5", "interval=1", "split=0,%d" % highest, "loop=0", "late=0"]
        yield name + ", nothing above the highest", sheet, above, 0, 0
        if highest > lowest:
            yield name + ", the highest", sheet, with_row(above, 3, "split=0,%d" % (highest - 1)), 19, 5
        below = ["answer=5", "interval=1", "split=0,%d" % lowest, "late=0", "loop=0"]
        yield name + ", the lowest", sheet, below, 19, 4
        if lowest > 0:
            yield name + ", nothing below the lowest", sheet, with_row(below, 3, "split=0,%d" % (lowest - 1)), 0, 0


def free_loops():
    free = plain_sheet(1, 3, [(0, 0)], [0], [(0, 0, 0, 0), (0, 0, 1, 1)])
    yield "a loop whose sum is 0", free, ["answer=5", "interval=1", "loop=0"], 19, 3
    yield "both edges, sum 0", free, ["answer=5", "interval=1", "loop=0,1"], 19, 3
    yield "an edge past the last of two", free, ["answer=5", "interval=1", "loop=2"], 18, 3
    bare = plain_sheet(1, 3, [(0, 0)], [0], [])
    yield "an edge where there are none", bare, ["answer=5", "interval=1", "loop=0"], 18, 3


# ---- clashes

# K, interval, the clocks of two rivals on one unit, whether they share a held slot.
MEETINGS = [(1, 2, 0, 2, True), (1, 2, 0, 3, False), (1, 1, 0, 5, True), (1, 4, 5, 1, True), (1, 4, 2, 2, True)]
MEETINGS += [(2, 4, 0, 1, True), (2, 4, 0, 2, False), (2, 4, 0, 3, True), (2, 4, 5, 3, False), (2, 4, 4, 3, True)]
MEETINGS += [(3, 3, 0, 1, True), (3, 2, 0, 1, True), (3, 6, 0, 3, False), (3, 6, 5, 3, True), (3, 7, 0, 4, False)]


def pair_at(busy, window, other, instances=1):
    """Two rivals with these windows."""
    sheet = with_busy(plain_sheet(6, 8, [(instances, 1)], [0, 0], []), [busy])
    return with_windows(sheet, [window, other])


def meetings():
    for busy, interval, clock, other, meet in MEETINGS:
        sheet, name = pair_at(busy, (clock, clock), (other, other)), "K %d at interval %d" % (busy, interval)
        for leaf in ("clash=0,1", "clash=1,0"):
            rows = ["answer=6", "interval=%d" % interval, leaf]
            yield "%s, %d and %d, %s" % (name, clock, other, leaf), sheet, rows, *((0, 0) if meet else (19, 3))


def clashes_alone():
    """clash=i,i: K above the interval, at any start."""
    free = with_busy(plain_sheet(6, 4, [(2, 1), (0, 1)], [0, 1], []), [3, 32])
    for interval, answer in ((1, 0), (2, 0), (3, 19), (4, 19), (5, 4)):
        line = {0: 0, 19: 3, 4: 2}[answer]
        yield "K 3 alone at %d" % interval, free, ["answer=6", "interval=%d" % interval, "clash=0,0"], answer, line
    yield "K 32 of an unlimited type", free, ["answer=6", "interval=1", "clash=1,1"], 19, 3
    below = ["answer=6", "interval=2", "split=1,3", "clash=0,0", "seat=0,0", "clash=0,0", "clash=0,0"]
    yield "K above the interval below cuts", free, below, 0, 0
    yield "a clash with an operation of another type", free, ["answer=6", "interval=2", "clash=0,1"], 19, 3


def clashes_not_so():
    rows = ["answer=6", "interval=1", "clash=0,1"]
    yield "clash, one with two starts", pair_at(1, (0, 1), (2, 2)), rows, 19, 3
    yield "clash, the other with two starts", pair_at(1, (2, 2), (0, 1)), rows, 19, 3
    yield "clash, two instances", pair_at(1, (0, 0), (2, 2), 2), rows, 19, 3
    one = [*rows[:2], "seat=0,0", "seat=1,0", "clash=0,1", "clash=0,1", "clash=0,1"]
    yield "clash, one instance, then another", pair_at(1, (0, 0), (2, 2), 2), one, 19, 6
    yield "clash, one of them not pinned", pair_at(1, (0, 0), (2, 2), 2), [*rows[:2], "seat=0,0", *2 * rows[2:]], 19, 4
    lower = [*rows[:2], "seat=0,0", "seat=1,0", "clash=0,1", "seat=1,0", "clash=0,1"]
    yield "18 though an earlier leaf is not so", pair_at(1, (0, 0), (2, 2), 2), lower, 18, 8
    types = with_windows(plain_sheet(6, 4, [(1, 1), (1, 1)], [0, 1], []), [(0, 0), (0, 0)])
    yield "clash of two types", types, rows, 19, 3
    unlimited = with_windows(plain_sheet(6, 4, [(0, 1)], [0, 0], []), [(0, 0), (0, 0)])
    yield "clash of an unlimited type", unlimited, rows, 19, 3
    empty = pair_at(1, (5, 5), (5, 5))
    yield "clash in the last clock", empty, rows, 0, 0
    late = with_windows(plain_sheet(6, 4, [(1, 2)], [0, 0], []), [(5, 5), (5, 5)])
    yield "clash where no start is left", late, rows, 19, 3
    yield "late where no start is left", late, [*rows[:2], "late=1"], 0, 0


# Three operations in one clock on two units.
CROWD = plain_sheet(1, 2, [(2, 1)], [0] * 3, [])
LOWER = ["seat=1,0", "clash=0,1", "seat=2,0", "clash=0,2", "clash=1,2"]  # operation 0 on unit 0
UPPER = ["seat=1,0", "seat=2,0", "clash=1,2", "clash=0,2", "clash=0,1"]  # and on unit 1
SEATS = ["answer=6", "interval=1", "seat=0,0", *LOWER, *UPPER]


def seats():
    yield "three on two units", CROWD, SEATS, 0, 0
    yield "at another interval of one clock", CROWD, with_row(SEATS, 2, "interval=2"), 0, 0
    yield "a seat one higher", CROWD, with_row(SEATS, 3, "seat=0,1"), 19, 5
    yield "parts exchanged below a seat", CROWD, [*SEATS[:3], *UPPER, *LOWER], 19, 7
    yield "a seat for a split", CROWD, with_row(SEATS, 3, "split=0,0"), 19, 5
    more = plain_sheet(1, 2, [(3, 1)], [0] * 3, [])
    yield "the same on three units", more, SEATS, 19, 8
    for leaf in ("late=0", "clash=0,0", "clash=1,2", "clash=0,1"):
        past = ["answer=6", "interval=1", "seat=0,7", *SEATS[2:], leaf]
        yield "no instance left and " + leaf, CROWD, past, 19, 15
    yield "a tree of seats cut short", CROWD, SEATS[:-1], 18, 13
    head, alone = SEATS[:2], "clash=0,0"  # K 2 at interval 1 closes every part
    higher = [*head, "seat=0,1", alone, "seat=0,0", alone, "seat=1,1", alone, "clash=0,1"]
    yield "above an instance does not widen", pair_at(2, (0, 0), (2, 2), 3), higher, 0, 0
    yield "both on the last of four no more", pair_at(2, (0, 0), (2, 2), 4), higher, 19, 9
    lower = [*head, "seat=0,0", "seat=0,1", "seat=1,0", "clash=0,1", alone, alone, alone]
    yield "up to an instance does not widen", pair_at(2, (0, 0), (2, 2), 3), lower, 0, 0
    yield "both on the first of three no more", pair_at(2, (0, 0), (2, 2), 3), with_row(lower, 3, "seat=0,1"), 19, 6


# ---- sizes, at interval 1 of case A, where a leaf may be the loop

LEAF = "loop=0,1,2"


def balanced(leaves):
    """A tree of so many leaves with few cuts above each."""
    if leaves == 1:
        return [LEAF]
    return ["split=1,1", *balanced(leaves // 2), *balanced(leaves - leaves // 2)]


def rows_of_sizes():
    head = LOOP[:2]
    for cuts, first, last in ((64, 0, 0), (65, 67, 131), (66, 67, 131), (500, 67, 131)):
        answer = 18 if last else 0
        yield "%d cuts above the first leaf" % cuts, [*head, *["split=0,0"] * cuts, *[LEAF] * (cuts + 1)], answer, first
        yield "%d cuts above the last leaf" % cuts, [*head, *["seat=0,0", LEAF] * cuts, LEAF], answer, last
    mixed = ["split=0,0", "seat=0,1"] * 32
    yield "64 cuts of both kinds", [*head, *mixed, *[LEAF] * 65], 0, 0
    yield "65 cuts of both kinds", [*head, *mixed, "seat=2,0", *[LEAF] * 66], 18, 67
    yield "65 cuts and nothing more", [*head, *mixed, "seat=2,0"], 18, 67
    yield "64 cuts and nothing more", [*head, *mixed], 18, 67
    yield "1,021 lines", [*head, *balanced(510)], 0, 0
    yield "1,023 lines", [*head, *balanced(511)], 0, 0
    yield "1,023 lines, the last not so", [*head, *balanced(511)[:-1], "loop=0"], 19, 1023
    yield "1,024 lines, the last too many", [*head, *balanced(511), LEAF], 18, 1024
    yield "1,024 lines, one too few", [*head, *balanced(512)[:-1]], 18, 1025
    yield "1,025 lines", [*head, *balanced(512)], 18, 1025
    yield "1,025 lines at no interval", [LOOP[0], "interval=0", *balanced(512)], 18, 1025
    yield "3,000 lines", [*head, *balanced(1500)], 18, 1025
    yield "3,000 lines of a plan", PLAN + ["at=0,0"] * 3000, 18, 6


# ---- all


def on_case_a():
    for part in (plans, forms, trees, loops, lates, rows_of_sizes):
        yield from ((name, A, rows, *due) for name, rows, *due in part())


def cases():
    parts = [on_case_a, rules, before_the_first_clock, ends_of_starts, free_loops]
    parts += [meetings, clashes_alone, clashes_not_so, seats]
    for part in parts:
        yield from ((name, sheet, text_of(*rows), *due) for name, sheet, rows, *due in part())
    yield from ((name, A, *rest) for name, *rest in bytes_at_the_ends())


def refused_sheets():
    """(name, bytes of a sheet, answer): before what is said of the text."""
    good = ref.sheet_text(A)
    yield "4,097 bytes", good + b"\n" * (4097 - len(good)), 1
    yield "no sheet", b"", 2
    yield "a sheet and a line feed", good + b"\n", 2
    yield "horizon 129", good.replace(b"horizon=3", b"horizon=129"), 3
    yield "an empty window", good.replace(b"op=1,0,2", b"op=1,2,1"), 16
