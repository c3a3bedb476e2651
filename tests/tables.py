"""Scripts of the command table: random steps, the most lines there may be, and texts that are none; and what is said of
those."""

import placings
import reference as ref
import sheets
import stored
from sheets import HUGE

# The sheet with the longest page, at interval 64, and 24 operations that may all be rivals of one another.
WIDEST = ref.plain_sheet(128, 64, [(8, 1)] * 8, [0] * ref.MOST_OPERATIONS, [])


def told(line):
    """What is said on standard error of a script whose line of this number is none."""
    wrong = b"not offer=op,start, book=op,start,instance or place=op,start"
    if ref.MOST_STEPS < line:
        wrong = b"past the 1,024 lines that it may have"
    return b"leastplan: line %d of the script is %s; try --help\n" % (line, wrong)


def lines_of(steps):
    return b"".join(b"%s=%s\n" % (key.encode(), b",".join(b"%d" % n for n in numbers)) for key, *numbers in steps)


def random_script(rng, sheet, interval):
    """No step, one, or some for each operation."""
    count = rng.choice([0, 1, len(sheet.ops), 3 * len(sheet.ops), 5 * len(sheet.ops)])
    return lines_of(placings.random_steps(rng, sheet, interval, count))


def longest_scripts(rng, sheet, interval):
    """1,024 lines, of any steps, with the most digits, and with the longest answer each."""
    yield lines_of(placings.random_steps(rng, sheet, interval, ref.MOST_STEPS))
    yield lines_of([("book", HUGE, HUGE, HUGE)] * ref.MOST_STEPS)
    offers = [("book", op, interval - 1, op) for op in range(ref.MOST_INSTANCES - 1)]
    yield lines_of(offers + [("offer", 23, interval - 1)] * (ref.MOST_STEPS - len(offers)))


# Two of each kind, for case A at interval 3.
SCRIPT = b"offer=0,1\nbook=0,1,0\nplace=2,4\nbook=1,2,0\nplace=2,2\noffer=2,2\n"


def strange_scripts(rng, text=SCRIPT):
    """Beside what may be wrong with the lines of any text: what goes before a line, follows it or stands for its end,
    other lines, lengths, great numbers, and damage."""
    yield from stored.malformations(text)
    for other in (b"\n", b" ", b"x", b"\0", b"\r", b"place=0,0", b"entry=1,0,0\n", b"answer=0\n", b"table=0\n", b"#\n"):
        yield text + other
        yield other + text
        yield other
    for byte in (b"\r\n", b"\r", b"\0", b"\n\n", b" \n", b";"):
        yield text.replace(b"\n", byte)
    yield text.replace(b",", b", ")
    for most in (2**31, 2**32, 2**63, 2**64):
        yield text + b"book=0,0,%d\n" % most
    for count in (ref.MOST_STEPS - 1, ref.MOST_STEPS, ref.MOST_STEPS + 1, 5000):
        for line in (b"offer=0,0\n", b"book=9999,9999,9999\n", b"place=0,0\n", b"\n", b"x"):
            yield line * count
            yield line * count + b"offer=0"
    for _ in range(60):
        yield sheets.damaged(rng, text)
