#!/usr/bin/env python3
"""Makes the stored inputs and outputs of leastplan, ask, test_sheet, test_plan, test_placing and test_order, and among
the examples the page of commands and a page for the cabinet door.

They come from the reference. Those of leastplan and ask are case A of document 01, that of test_order has a case a
line. The others are runs of pieces, each a line bytes=N and N bytes: a sheet, and for test_placing a sheet and a script
by turns; the outputs have a line -- before the answer to each sheet. As a program:  stored.py   writes the files anew.
"""

import os
import re

import orders
import placings
import reference as ref
import sheets
from reference import plain_sheet, with_busy, with_horizon, with_windows

ROOT = os.path.join(os.path.dirname(os.path.abspath(__file__)), "..")
LONGEST = ref.SHEET_BYTES + 1  # what leastplan reads at most
INPUT = 524288  # what the programs over many pieces read at most

BASE = plain_sheet(
    20,
    6,
    [(1, 1), (0, 2), (2, 0)],
    [0, 1, 2, 0],
    [(0, 1, 0, 0), (1, 2, -3, 1), (3, 3, 0, 1), (2, 0, -12, 0)],
)
BASE_TEXT = ref.sheet_text(BASE)


# ---- pieces


def framed(pieces):
    return b"".join(b"bytes=%d\n%s" % (len(p), p) for p in pieces)


def one_input(pieces):
    """The pieces as the input of one run; they must fit."""
    data = framed(pieces)
    assert len(data) <= INPUT
    return data


def runs(pieces):
    """The pieces in runs that fit the input of a program."""
    run, size = [], 0
    for piece in pieces:
        if size + len(framed([piece])) > INPUT:
            yield run
            run, size = [], 0
        run.append(piece)
        size += len(framed([piece]))
    yield run


def marked(answers):
    return b"".join(b"--\n" + a for a in answers)


def read_answer(piece):
    """What test_sheet prints for a piece: the answer, the text written back, the writer's 9 in a short buffer."""
    answer, sheet = ref.read_sheet(piece)
    return b"answer=%d\n" % answer + (b"" if answer else b"written=0\n" + ref.sheet_text(sheet) + b"written=9\n")


# ---- sheets for the reader


def lines_of(text):
    return text.split(b"\n")[:-1]


def with_line(k, line, text=BASE_TEXT):
    rows = lines_of(text)
    rows[k] = line
    return b"\n".join(rows) + b"\n"


def line_kinds(text=BASE_TEXT):
    """The index of one line of each kind; of a kind that has several the first and the last."""
    keys = [row.split(b"=")[0] for row in lines_of(text)]
    for key in dict.fromkeys(keys):
        yield keys.index(key)
        if keys.count(key) > 1:
            yield len(keys) - 1 - keys[::-1].index(key)


def field_values(key, field):
    """Values at both sides of both ends of a field."""
    limits = {
        (b"horizon", 0): (1, 128),
        (b"cap", 0): (1, 64),
        (b"types", 0): (1, 8),
        (b"type", 0): (0, 8),
        (b"type", 1): (0, 32),
        (b"type", 2): (1, 32),
        (b"ops", 0): (1, 24),
        (b"op", 0): (0, len(BASE.types) - 1),
        (b"op", 1): (0, BASE.horizon - 1),
        (b"op", 2): (0, BASE.horizon - 1),
        (b"edges", 0): (0, 96),
        (b"edge", 0): (0, len(BASE.ops) - 1),
        (b"edge", 1): (0, len(BASE.ops) - 1),
        (b"edge", 2): (-64, 64),
        (b"edge", 3): (0, 8),
    }
    low, high = limits[key, field]
    return [low - 1, low, low + 1, high - 1, high, high + 1, 999, 1000, 9999, 10000, -1, -9999, -10000]


def boundaries():
    for k in line_kinds():
        key, rest = lines_of(BASE_TEXT)[k].split(b"=")
        numbers = rest.split(b",")
        for field in range(len(numbers)):
            for value in field_values(key, field):
                changed = numbers[:field] + [b"%d" % value] + numbers[field + 1 :]
                yield with_line(k, key + b"=" + b",".join(changed))


def counted(types, n, e):
    """A sheet with these counts, so that a count at its end is followed by as many lines."""
    edges = [(k % n, (k * 7) % n, -64 + k, k % 9) for k in range(e)]
    sheet = plain_sheet(128, 64, [(8, 32)] * types, [k % types for k in range(n)], edges)
    return ref.sheet_text(with_busy(sheet, range(32, 32 - types, -1)))


def counts():
    for types, n, e in [(1, 1, 0), (8, 24, 96), (7, 23, 95), (2, 2, 1), (8, 1, 96), (1, 24, 0)]:
        yield counted(types, n, e)
    yield ref.sheet_text(plain_sheet(1, 1, [(0, 0)], [0], []))
    longest = with_busy(plain_sheet(128, 64, [(8, 32)] * 8, [7] * 24, [(23, 23, -64, 8)] * 96), [32] * 8)
    yield ref.sheet_text(longest)
    yield ref.sheet_text(with_windows(longest, [(100 + k, 127) for k in range(24)]))
    for text in (counted(8, 24, 96), counted(1, 1, 0)):
        rows = lines_of(text)
        yield b"\n".join(rows[:-1]) + b"\n"
        yield b"\n".join(rows + rows[-1:]) + b"\n"


NUMBERS = [b"", b"-0", b"00", b"01", b"+1", b"-1", b"--1", b"1-", b"-", b" 1", b"1 ", b"1.", b"0x1"]
NUMBERS += [b"00000", b"12345", b"\xb1", b"1\x00"]


def malformations(text=BASE_TEXT):
    """At every kind of line: spellings of its numbers, counts of numbers, keys, ends of line, strange bytes; the line
    lost or doubled, and the text cut before and after it."""
    rows = lines_of(text)
    for k in line_kinds(text):
        for line in malformed_lines(rows[k]):
            yield with_line(k, line, text)
        yield b"\n".join(rows[:k] + rows[k + 1 :]) + b"\n"
        yield b"\n".join(rows[: k + 1] + rows[k:]) + b"\n"
        yield b"\n".join(rows[:k]) + (b"\n" if k else b"")
        yield b"\n".join(rows[: k + 1])


def malformed_lines(line):
    key, rest = line.split(b"=")
    numbers = rest.split(b",")
    for field in range(len(numbers)):
        for odd in NUMBERS:
            yield key + b"=" + b",".join(numbers[:field] + [odd] + numbers[field + 1 :])
    yield line + b","
    yield line + b",1"
    yield key + b"=," + rest
    yield key + b"=" + b",".join(numbers[:-1])
    yield key + b"=" + b",,".join(numbers + [b"1"])
    yield key + b"==" + rest
    yield key + rest
    yield key + b" =" + rest
    yield key.upper() + b"=" + rest
    yield key[:-1] + b"=" + rest
    yield key + b"s=" + rest
    yield b"x" + line
    yield b" " + line
    yield b""
    yield line + b"\r"
    yield line + b" "
    yield line + b"\n"
    yield line + b"\x80"
    yield bytes([line[0] | 0x80]) + line[1:]


def several_faults():
    """2 before 3 within a line; between lines the earlier one decides; what follows the last line comes last."""
    yield with_line(4, b"type=9,00,1")
    yield with_line(4, b"type=9,33,1")
    yield with_line(0, b"horizon=129").replace(b"cap=6", b"cap=x")
    yield with_line(0, b"horizon=x").replace(b"cap=6", b"cap=65")
    yield b"horizon=129\nrubbish"
    yield b"horizon=129"
    yield b"horizon=12\n"
    rows = lines_of(BASE_TEXT)
    for last in (b"edge=2,0,-12,9", b"edge=2,0,-65,0", b"edge=4,0,0,0", b"edge=2,0,-12,0"):
        for after in (b"", b"x", b"\n", b"edge=0,0,0,0\n", b"\x00"):
            yield b"\n".join(rows[:-1] + [last]) + b"\n" + after
    yield b"\n".join(rows[:-1] + [b"edge=9,9,-0,9"]) + b"\n"
    yield BASE_TEXT.replace(b"\n", b"\r\n")
    yield BASE_TEXT.replace(b"\n", b"\r")
    yield BASE_TEXT[:-1]
    yield BASE_TEXT + BASE_TEXT
    yield b"\xef\xbb\xbf" + BASE_TEXT


def frames():
    """Another horizon: windows that are all of it, and those of the base as they are, which go by its own."""
    for horizon in (1, 2, 19, 20, 21, 127, 128):
        yield ref.sheet_text(with_horizon(BASE, horizon))
        yield with_line(0, b"horizon=%d" % horizon)


def with_op_lines(*lines):
    """The base with other lines of its first operations."""
    first = lines_of(BASE_TEXT).index(b"ops=%d" % len(BASE.ops)) + 1
    rows = lines_of(BASE_TEXT)
    return b"\n".join(rows[:first] + list(lines) + rows[first + len(lines) :]) + b"\n"


def windows():
    """16 in a line, beside 2 and 3 in it, and beside 2, 3 and 16 in lines before and after it; windows of one clock."""
    inside = [(0, 0), (19, 19), (18, 19), (19, 18), (1, 0), (19, 0), (7, 7), (8, 7)]
    for window in inside + [(20, 19), (20, 20), (19, 20), (21, 20)]:
        yield with_op_lines(b"op=0,%d,%d" % window)
    for rest in (b"3,5,4", b"3,20,4", b"0,5,04", b"00,5,4", b"0,5,-4", b"0,5", b"0,5,4,", b"0,5,4,3"):
        yield with_op_lines(b"op=" + rest)
    faults = [b"op=0,5,4", b"op=3,0,19", b"op=0,20,0", b"op=0,0,20", b"op=00,0,19", b"op=0,0", b"op=0,6,6"]
    for first in faults:
        for second in faults:
            yield with_op_lines(first, second)
    yield with_op_lines(b"op=0,5,4").replace(b"edge=2,0,-12,0\n", b"edge=2,0,-65,0\n")
    yield with_op_lines(b"op=0,5,4").replace(b"edges=4\n", b"edges=97\n")
    yield with_op_lines(b"op=0,5,4").replace(b"edges=4\n", b"edges=x\n")
    yield with_op_lines(b"op=0,5,4").replace(b"cap=6\n", b"cap=65\n")
    yield with_op_lines(b"op=0,5,4").replace(b"type=2,0,1\n", b"type=2,00,1\n")
    yield with_op_lines(b"op=0,5,4") + b"x"
    yield with_op_lines(b"op=0,5,4").split(b"op=1")[0]
    yield with_op_lines(b"op=0,5,4").split(b"\nop=1")[0]
    yield with_op_lines(*[b"op=0,0,19"] * 3, b"op=0,1,0")
    yield with_op_lines(*[b"op=0,0,19"] * 3, b"op=0,1,0").split(b"edges=")[0]


def with_type_lines(*lines):
    """The base with other lines of its first types."""
    first = lines_of(BASE_TEXT).index(b"types=%d" % len(BASE.types)) + 1
    rows = lines_of(BASE_TEXT)
    return b"\n".join(rows[:first] + list(lines) + rows[first + len(lines) :]) + b"\n"


def busy_types():
    """K in a line, of a limited type and of an unlimited one, beside 2 and 3 in it and in lines before and after it;
    none, and more numbers than there are."""
    spelt = [b"0", b"1", b"2", b"31", b"32", b"33", b"34", b"64", b"9999", b"10000", b"01", b"032", b"-1", b"-0", b"+1"]
    for k in spelt + [b"", b" 1", b"1 ", b"1,", b"1,1", b"32,1,1"]:
        yield with_type_lines(b"type=1,1," + k)
        yield with_type_lines(b"type=0,1," + k)
        yield with_type_lines(*[b"type=1,1,1"] * 2, b"type=8,32," + k)
    for rest in (b"1,1", b"1", b"9,1,0", b"1,33,0", b"9,33,33", b"1,00,33", b"00,1,0"):
        yield with_type_lines(b"type=" + rest)
    faults = [b"type=1,1,0", b"type=1,1,33", b"type=1,1,01", b"type=1,1", b"type=9,1,1", b"type=1,1,32"]
    for first in faults:
        for second in faults:
            yield with_type_lines(first, second)
    yield with_type_lines(b"type=1,1,33").replace(b"cap=6\n", b"cap=65\n")
    yield with_type_lines(b"type=1,1,33").replace(b"cap=6\n", b"cap=x\n")
    yield with_type_lines(b"type=1,1,33").replace(b"ops=4\n", b"ops=x\n")
    yield with_type_lines(b"type=1,1,33").replace(b"op=0,0,19\n", b"op=0,19,0\n", 1)
    yield with_type_lines(b"type=1,1,33") + b"x"
    yield with_type_lines(b"type=1,1,33").split(b"ops=")[0]
    yield with_type_lines(b"type=1,1,33").split(b"\ntype=0")[0]


def sizes():
    yield b""
    yield b"\n"
    yield bytes(4096)
    yield bytes(4097)
    yield b"\xff" * 4096
    yield BASE_TEXT + b"\n" * (4096 - len(BASE_TEXT))
    yield BASE_TEXT + b"\n" * (4097 - len(BASE_TEXT))
    yield b"horizon=" + b"1" * 4088
    yield b"horizon=" + b"1" * 4089


def random_reads(rng, rounds):
    for _ in range(rounds):
        makers = [sheets.wide_sheet, sheets.small_sheet, sheets.narrow_sheet, sheets.busy_sheet]
        text = sheets.text_of(rng.choice(makers), rng)
        yield text
        yield sheets.damaged(rng, text)[:LONGEST]
        yield sheets.damaged(rng, sheets.text_of(sheets.narrow_sheet, rng))[:LONGEST]


def reader_pieces():
    parts = [boundaries(), frames(), counts(), malformations(), several_faults(), windows(), busy_types(), sizes()]
    pieces = [BASE_TEXT]
    for part in parts + [random_reads(sheets.seeded(3), 120)]:
        pieces += part
    return list(dict.fromkeys(pieces))


# ---- sheets for leastplan


def paper_cases():
    """Every case of document 01 that is a sheet."""
    a = plain_sheet(3, 4, [(1, 1), (0, 1)], [0, 1, 0], [(0, 1, 0, 0), (1, 2, 0, 0), (2, 0, 0, 2)])
    yield ref.sheet_text(a)
    yield ref.sheet_text(with_horizon(a, 4))
    yield ref.sheet_text(plain_sheet(5, 5, [(1, 1)], [0, 0], [(0, 1, 3, 0), (1, 0, -5, 0)]))
    yield ref.sheet_text(plain_sheet(1, 3, [(1, 1)], [0], [(0, 0, 0, 0)]))
    yield ref.sheet_text(plain_sheet(1, 3, [(1, 0)], [0], [(0, 0, 0, 0)]))
    yield ref.sheet_text(plain_sheet(1, 1, [(2, 1)], [0, 0, 0], []))
    yield ref.sheet_text(plain_sheet(2, 2, [(2, 1)], [0, 0, 0], []))
    yield ref.sheet_text(plain_sheet(1, 1, [(1, 2)], [0], []))
    text = ref.sheet_text(a)
    yield b""
    yield text + b"\n" * (4097 - len(text))
    yield text.replace(b"op=0", b"op=00", 1)
    yield text.replace(b"horizon=3", b"horizon=129")
    yield text.replace(b"edge=0,1,0,", b"edge=0,1,-65,")
    yield text.replace(b"edge=0,1,0,", b"edge=0,1,-0,")


def odd_plans():
    """Ends of the ranges that enumeration can still do."""
    yield ref.sheet_text(plain_sheet(128, 64, [(1, 32)], [0, 0], [(0, 1, 64, 0)]))
    yield ref.sheet_text(plain_sheet(128, 64, [(0, 32)], [0, 0], [(0, 1, 64, 0), (1, 0, -64, 8)]))
    yield ref.sheet_text(plain_sheet(128, 64, [(1, 0)], [0] * 2, []))
    yield ref.sheet_text(plain_sheet(1, 64, [(8, 1)], [0] * 8, []))
    yield ref.sheet_text(plain_sheet(1, 9, [(8, 1)], [0] * 9, []))
    yield ref.sheet_text(plain_sheet(1, 1, [(0, 1)], [0] * 24, []))
    yield ref.sheet_text(plain_sheet(2, 2, [(8, 1)], [0] * 16, []))
    yield ref.sheet_text(plain_sheet(4, 3, [(0, 1)], [0, 0], [(0, 1, -1, 0), (1, 0, -1, 0)]))
    edges = [(2, 1, 0, 0), (1, 2, 0, 0), (0, 0, 3, 1), (0, 0, 4, 1)]
    yield ref.sheet_text(plain_sheet(4, 3, [(0, 1)], [0, 0, 0], edges))
    yield ref.sheet_text(plain_sheet(2, 2, [(0, 1)], [0], [(0, 0, -2, 0)] * 10 + [(0, 0, 2, 1), (0, 0, 3, 1)]))


def ends_of_frames():
    """Results at the horizon and a clock past it; latency 0, which still asks for a start below the horizon."""
    for horizon in (128, 127):
        yield ref.sheet_text(plain_sheet(horizon, 64, [(0, 32)], [0, 0], [(0, 1, 64, 0)]))
    for horizon, latency in ((32, 32), (31, 32), (1, 1), (1, 32), (1, 0), (2, 0), (3, 2), (3, 3)):
        yield ref.sheet_text(plain_sheet(horizon, 3, [(1, latency)], [0, 0], []))
    for horizon in (5, 6, 7):
        yield ref.sheet_text(plain_sheet(horizon, 4, [(1, 1), (0, 4)], [0, 0, 1], [(1, 2, 0, 0)]))


def binding_windows():
    """Windows that decide at either end: the start of a plan, its interval, or that there is none."""
    alone = plain_sheet(4, 3, [(1, 2)], [0], [])
    yield from each_with(alone, [[(0, 0)], [(2, 2)], [(1, 3)], [(3, 3)], [(0, 3)]])
    rivals = plain_sheet(6, 4, [(1, 1)], [0, 0], [])
    yield from each_with(rivals, [[(3, 3)] * 2, [(3, 3), (0, 3)], [(2, 5), (0, 0)], [(5, 5)] * 2, [(0, 1), (1, 2)]])
    chain = plain_sheet(6, 3, [(0, 2)], [0, 0], [(0, 1, 0, 0)])
    yield from each_with(chain, [[(2, 5), (0, last)] for last in (5, 4, 3)])
    yield from each_with(chain, [[(3, 5), (0, 5)], [(0, 0), (2, 2)], [(1, 5), (0, 2)]])
    ring = plain_sheet(8, 5, [(1, 1)], [0, 0], [(0, 1, 2, 0), (1, 0, 0, 1)])
    yield from each_with(ring, [[(4, 7), (0, 7)], [(0, 7), (0, 2)], [(4, 4), (7, 7)], [(5, 5), (7, 7)]])
    longest = plain_sheet(128, 64, [(1, 32)], [0, 0], [(0, 1, 64, 0)])
    yield from each_with(longest, [[(0, 0), (96, 96)], [(1, 127), (0, 127)], [(0, 127), (96, 127)]])
    yield from each_with(longest, [[(0, 0), (0, 95)], [(0, 0), (97, 127)]])


def each_with(sheet, lists):
    """The text of the sheet with each of these lists of windows."""
    return [ref.sheet_text(with_windows(sheet, windows)) for windows in lists]


def refused_windows():
    """Case A with another window of its first operation, alone and with another of its second."""
    text = next(paper_cases())
    for line in (b"op=0,1,0", b"op=0,2,1", b"op=0,3,2", b"op=0,0,3", b"op=0,2,3", b"op=2,2,1", b"op=0,2,01"):
        yield text.replace(b"op=0,0,2", line, 1)
        yield text.replace(b"op=0,0,2", line, 1).replace(b"op=1,0,2", b"op=1,1,0")
        yield text.replace(b"op=1,0,2", line.replace(b"op=0", b"op=1")).replace(b"edge=2,0,0,2", b"edge=2,0,0,9")


def busy_units():
    """Units that stay busy: K below the interval, equal to it and above; dividing it and not; of one unit and several;
    as many operations as there is room for, and one more; and of types that are unlimited or have no operations."""
    one = plain_sheet(9, 8, [(1, 1)], [0, 0], [])
    yield from each_busy(one, [[1], [2], [3], [4], [5], [8], [9], [32]])
    yield from each_busy(plain_sheet(1, 5, [(1, 1)], [0], []), [[4], [5], [6]])
    yield from each_busy(plain_sheet(7, 7, [(2, 1)], [0] * 5, []), [[1], [2], [3]])
    yield from each_busy(plain_sheet(6, 6, [(1, 1)], [0] * 3, []), [[2], [3]])
    yield from each_busy(plain_sheet(7, 7, [(1, 1)], [0] * 4, []), [[2]])
    yield from each_busy(plain_sheet(3, 3, [(1, 1), (0, 2)], [0, 1, 1], [(0, 1, 0, 0)]), [[1, 32], [2, 32], [3, 1]])
    yield from each_busy(plain_sheet(3, 3, [(1, 1), (2, 1)], [0, 0], []), [[1, 32], [2, 32]])
    yield from each_busy(plain_sheet(33, 64, [(1, 1)], [0, 0], []), [[31], [32]])
    longest = plain_sheet(128, 64, [(1, 32), (8, 0)], [0, 0, 1], [(0, 1, 64, 0)])
    yield from each_busy(longest, [[32, 32], [32, 1], [1, 32]])
    chain = plain_sheet(9, 6, [(1, 4), (1, 1)], [0, 1, 0], [(0, 1, 0, 0), (1, 2, 0, 0), (2, 0, 0, 2)])
    yield from each_busy(chain, [[1, 1], [2, 1], [3, 1], [4, 1], [3, 3]])


def counts_not_enough():
    """Starts by windows; at some interval no slot is held more often than there are instances, and yet none exist."""
    around = with_busy(plain_sheet(12, 9, [(2, 1)], [0] * 3, []), [3])
    yield from each_with(around, [[(0, 0), (2, 2), (4, 4)], [(0, 0), (2, 2), (4, 5)], [(0, 1), (8, 8), (10, 10)]])
    five = with_busy(plain_sheet(5, 6, [(2, 0)], [0] * 5, []), [2])
    yield from each_with(five, [[(i, i) for i in range(5)], [(2 * i % 5, 2 * i % 5) for i in range(5)]])
    four = with_busy(plain_sheet(8, 9, [(3, 1)], [0] * 5, []), [5])
    yield from each_with(four, [[(0, 0), (2, 2), (4, 4), (6, 6), (7, 7)], [(0, 1), (2, 3), (4, 5), (6, 6), (7, 7)]])


def each_busy(sheet, lists):
    """The text of the sheet with each of these lists of K."""
    return [ref.sheet_text(with_busy(sheet, busy)) for busy in lists]


def refused_busy():
    """Case A with another line of its first type, alone and with another of its second."""
    text = next(paper_cases())
    for line in (b"type=1,1,0", b"type=1,1,33", b"type=1,1", b"type=1,1,01", b"type=1,1,1,1", b"type=9,1,0"):
        yield text.replace(b"type=1,1,1", line)
        yield text.replace(b"type=1,1,1", line).replace(b"type=0,1,1", b"type=0,1,x")
        yield text.replace(b"type=0,1,1", line.replace(b"=1", b"=0")).replace(b"edge=2,0,0,2", b"edge=2,0,0,9")


def texts(make, seed, count):
    rng = sheets.seeded(seed)
    return [sheets.text_of(make, rng) for _ in range(count)]


def plan_pieces():
    pieces = list(paper_cases()) + list(odd_plans()) + texts(sheets.small_sheet, 4, 400)
    pieces += list(ends_of_frames()) + texts(sheets.late_sheet, 8, 200)
    pieces += list(binding_windows()) + list(refused_windows())
    pieces += texts(sheets.windowed_sheet, 9, 200) + texts(sheets.narrow_sheet, 10, 100)
    pieces += list(busy_units()) + list(counts_not_enough()) + list(refused_busy())
    pieces += texts(sheets.busy_sheet, 19, 300) + texts(sheets.crowded_sheet, 20, 200)
    pieces += texts(sheets.seated_sheet, 27, 150)
    pieces += texts(sheets.held_sheet, 40, 40) + texts(sheets.tiled_sheet, 62, 10)
    return list(dict.fromkeys(pieces))


# ---- commands

ASKED = ["separations", "interval=3"]  # of case A, by the program ask

PAGE_HEAD = """\
Each command with its output, typed in the root folder of the repository. What follows a line that begins with $ is the
output, byte for byte, up to an empty line. tests/stored.py makes this page by tests/reference.py, not by the program;
tests/check_commands types all of it again.
"""

# The words of each command on the page, the sheet among the examples, and the second file, if any: a plan, a script or
# another supplier's answer.
PAGE = [
    ("bounds", "phase_locked_loop.sheet"),
    ("bounds", "no_register.sheet"),
    ("bounds", "divider.sheet"),
    ("starts interval=3", "sample_deadline.sheet"),
    ("starts interval=1", "both_bounds_low.sheet"),
    ("starts interval=4", "horizon_too_short.sheet"),
    ("starts interval=3", "sensor_settles.sheet"),
    ("separations interval=5", "clarke_park.sheet"),
    ("plan interval=4", "three_phases.sheet"),
    ("plan interval=2", "both_bounds_low.sheet"),
    ("plan interval=2", "frame_end.sheet"),
    ("plan interval=6", "counts_fit.sheet"),
    ("plan interval=4", "busier_than_interval.sheet"),
    ("order interval=3 pair=0", "sample_deadline.sheet"),
    ("page interval=3", "three_phases.sheet"),
    ("page interval=3", "three_phases.sheet", "three_phases.plan"),
    ("page interval=1", "both_bounds_low.sheet"),
    ("page interval=7", "counts_fit.sheet"),
    ("page interval=4", "never_idle.sheet"),
    ("page interval=4", "never_idle.sheet", "never_idle.plan"),
    ("table interval=3", "three_phases.sheet", "three_phases.script"),
    ("table interval=8", "divider.sheet", "divider.script"),
    ("judge", "three_phases.sheet", "three_phases.plan"),
    ("judge", "both_bounds_low.sheet", "both_bounds_low.denial"),
    ("judge", "counts_fit.sheet", "counts_fit.denial"),
    ("judge", "earliest_slot_full.sheet", "both_bounds_low.denial"),
    ("judge", "both_bounds_low.sheet", "three_phases.plan"),
    ("check", "sample_deadline.sheet"),
    ("check", "leading_zero.sheet"),
    ("check", "window_reversed.sheet"),
    ("write", "both_bounds_low.sheet"),
]


def bytes_of(path):
    with open(path, "rb") as source:
        return source.read()


def example(name):
    return bytes_of(os.path.join(ROOT, "examples", name))


def command_page():
    blocks = [PAGE_HEAD]
    for words, *names in PAGE:
        command, *arguments = words.split()
        sheet, *second = map(example, names)
        asked = [ref.PAGE_OF_PLAN if second and command == "page" else command, *arguments]
        output = ref.ask(asked, sheet, second=b"".join(second)).decode()
        paths = " ".join("examples/" + name for name in names)
        blocks.append("$ ./leastplan %s %s\n%s" % (words, paths, output))
    return "\n".join(blocks).encode()


def stored_plans(answers):
    """The plan at each interval of an answer of leastplan, as plan_at gives it."""
    plans = {}
    for block in re.findall(r"answer=(\d+)\ninterval=(\d+)\n((?:loop=.*\n|at=.*\n)*)", answers):
        numbers = [[int(v) for v in line.split(",")] for line in re.findall(r"=(.*)\n", block[2])]
        loop = numbers[0] if block[0] == "5" else []
        places = [] if loop else numbers
        plans[int(block[1])] = int(block[0]), [t for t, _ in places], [u for _, u in places], loop
    return plans


def door_page(name):
    """The page of an example at its least interval, by the plan of its stored answer."""
    _, sheet = ref.read_sheet(example(name + ".sheet"))
    interval, (_, starts, units, _) = list(stored_plans(example(name + ".answer").decode()).items())[-1]
    return ref.page(sheet, interval, starts, units, ref.page_length(sheet, interval))[1]


# ---- files


def stored_files():
    """(path, content) of each stored file."""
    reads, plans, case_a = reader_pieces(), plan_pieces(), next(paper_cases())
    pieces, answers = placings.stored()
    pairs, verdicts = orders.stored()
    yield "crates/leastplan/stdin", case_a
    yield "crates/leastplan/stdout", ref.leastplan(case_a)
    yield "crates/ask/args", ref.lines_of(ASKED)
    yield "crates/ask/stdin", case_a
    yield "crates/ask/stdout", ref.ask(ASKED, case_a)
    yield "examples/commands.txt", command_page()
    yield "examples/current_loop.page", door_page("current_loop")
    yield "crates/test_sheet/stdin", one_input(reads)
    yield "crates/test_sheet/stdout", marked(read_answer(p) for p in reads)
    yield "crates/test_placing/stdin", one_input(pieces)
    yield "crates/test_placing/stdout", marked(answers)
    yield "crates/test_order/stdin", pairs
    yield "crates/test_order/stdout", verdicts
    yield "crates/test_plan/stdin", one_input(plans)
    yield "crates/test_plan/stdout", marked(ref.leastplan(p) for p in plans)


def main():
    for path, content in stored_files():
        folder = os.path.join(ROOT, os.path.dirname(path))
        os.makedirs(folder, exist_ok=True)
        with open(os.path.join(ROOT, path), "wb") as out:
            out.write(content)


if __name__ == "__main__":
    main()
