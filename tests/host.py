"""The C calls of include/leastplan.h through ctypes, with Python's types."""

import ctypes

import product

SIZE = ctypes.c_size_t


class Answer(ctypes.Structure):
    """An answer and the number that comes with it."""

    _fields_ = [("answer", SIZE), ("value", SIZE)]


def counted(array):
    """An array and its count, as two arguments."""
    return array, SIZE(len(array))


def numbers(values):
    return counted((SIZE * len(values))(*values))


def written(call, room):
    """(answer, text) of a call that is given a buffer and its room; raises where the buffer past the text, or any of it
    with a refusal, is altered."""
    before = (bytes(range(251)) * (room // 251 + 1))[:room]
    out = ctypes.create_string_buffer(before, room) if room else (ctypes.c_char * 1)()
    got = call(out, SIZE(room))
    after = out.raw[:room]
    if after[got.value :] != before[got.value :] or (got.answer and got.value):
        raise RuntimeError("the buffer was altered past the text")
    return got.answer, after[: got.value]


class Host:
    def __init__(self):
        self.library = product.library("host")
        for name in ("least_interval", "plan_text", "slot_order", "page"):
            getattr(self.library, "leastplan_" + name).restype = Answer
        self.library.leastplan_judge.restype = ctypes.c_uint64

    def least_interval(self, sheet):
        got = self.library.leastplan_least_interval(*counted(sheet))
        return got.answer, got.value

    def plan_text(self, sheet, interval, room):
        given = *counted(sheet), SIZE(interval)
        return written(lambda *buffer: self.library.leastplan_plan_text(*given, *buffer), room)

    def slot_order(self, sheet, interval, pair):
        got = self.library.leastplan_slot_order(*counted(sheet), SIZE(interval), SIZE(pair))
        return got.answer, got.value

    def page(self, sheet, interval, starts, units, room):
        given = *counted(sheet), SIZE(interval), *numbers(starts), *numbers(units)
        return written(lambda *buffer: self.library.leastplan_page(*given, *buffer), room)

    def judge(self, sheet, answer):
        return self.library.leastplan_judge(*counted(sheet), *counted(answer))
