#!/usr/bin/env python3
"""How long a page takes beside reading its sheet:  pages.py

For the largest page and for that of examples/current_loop.sheet: the call leastplan_page, a page that is refused by 9
(all but the table and the text), and the call leastplan_slot_order at interval 0, which reads the sheet and no more.
The least of some rounds that take turns; processor time, in microseconds.
"""

import ctypes
import functools
import os
import sys
import time

HERE = os.path.dirname(os.path.abspath(__file__))
sys.path.insert(0, os.path.join(HERE, "..", "tests"))

import host
import pages
import reference as ref
import stored

ROUNDS, CALLS = 30, 50


def largest():
    """8 types of 8 instances at interval 64, and 24 operations in different slots."""
    return ref.sheet_text(pages.WIDEST), pages.WIDEST.cap, list(range(24)), [0] * 24


def current_loop():
    plans = stored.stored_plans(stored.example("current_loop.answer").decode())
    _, starts, units, _ = plans[max(plans)]
    return stored.example("current_loop.sheet"), max(plans), starts, units


def least(calls):
    """The least time of each call, over rounds in which they take turns."""
    best = [None] * len(calls)
    for _ in range(ROUNDS):
        for k, call in enumerate(calls):
            began = time.process_time_ns()
            for _ in range(CALLS):
                call()
            took = (time.process_time_ns() - began) / CALLS / 1000
            best[k] = took if best[k] is None else min(best[k], took)
    return best


def page_call(library, text, interval, starts, units, room):
    """The call with its arguments made, so that making them does not count."""
    given = *host.counted(text), host.SIZE(interval), *host.numbers(starts), *host.numbers(units)
    buffer = host.counted(ctypes.create_string_buffer(room))
    return functools.partial(library.leastplan_page, *given, *buffer)


def read_call(library, text):
    """Likewise."""
    return functools.partial(library.leastplan_slot_order, *host.counted(text), host.SIZE(0), host.SIZE(0))


def main():
    library = host.Host()
    for name, (text, *plan) in (("largest", largest()), ("current_loop", current_loop())):
        answer, page = library.page(text, *plan, ref.LONGEST_PAGE)
        assert answer == 0
        calls = [page_call(library.library, text, *plan, len(page) - short) for short in (0, 1)]
        times = least(calls + [read_call(library.library, text)])
        row = (name, len(page), *times, times[0] / times[2])
        print("%-13s %6d bytes  page %7.1f  refused by 9 %6.1f  read %6.1f  page/read %.1f" % row)


main()
