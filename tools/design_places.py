#!/usr/bin/env python3
"""Counts in src/ the places that docs/DESIGN-PASS.md is about, point by point; with --list it prints each.

Run it at the top of a checkout. It reads text alone, so a row counts places to look at: the page says which of them stay.
"""

import argparse
import collections
import pathlib
import re
import shutil
import subprocess
import tempfile

CRATES = pathlib.Path("crates")
FLAG = re.compile(r"^    (?:pub )?(ok|bad|yes|over|done|fault|strange|found|placed): (?:bool|usize),", re.M)
ANSWER = re.compile(r"^    (?:pub )?answer: usize,", re.M)
REFUSING = re.compile(r"^(?:pub )?fn \w*(?:answer|asked|refusal|lines|judge|fault)\w*\([^)]*\) -> usize", re.M)
KIND = re.compile(r"^(?:pub )?const ([A-Z_]+): usize = (\d+);$", re.M)
ENUM = re.compile(r"^(?:pub )?enum (\w+) \{\n(.*?)^\}", re.M | re.S)
STRUCT = re.compile(r"^(?:pub )?struct (\w+)[^{;]*\{\n(.*?)^\}", re.M | re.S)
COUNTED = re.compile(r"^ +(?:while|loop)\b", re.M)
LADDER = re.compile(r"^    if [^\n]* \{\n        return (?:true|false);\n    \}", re.M)
CHOICE = re.compile(r"\bif [^{}\n]+ \{ (?:true|false|\w+) \} else \{ (?:true|false|\w+) \}")
REQUIRES = re.compile(r"^    requires \{ (.*) \}$", re.M)
COUNT = re.compile(r"^    (?:pub )?(?:\w+_)?(?:count|length|ops): (?:usize|u8),", re.M)
ARRAY = re.compile(r"^    (?:pub )?\w+: \[.*; ([A-Z_]+)\],", re.M)
FUNCTION = re.compile(r"\bfn (\w+)(?:<[^>]*>)?\(([^)]*)\)")
SWITCH = re.compile(r"\bmatch (?:step|kind|key|field|which)\b|\bdyn |\bfn\(")


def sources():
    for path in sorted(CRATES.glob("*/src/**/*.rt")):
        yield path, path.read_text(encoding="utf-8")


def line_of(text, at):
    return text.count("\n", 0, at) + 1


def found(pattern):
    return [f"{path}:{line_of(text, it.start())}: {it.group(0).strip().splitlines()[0]}"
            for path, text in sources() for it in pattern.finditer(text)]


def option_enums():
    """Enums of two variants, one of them without a value: the shape of Option."""
    rows = []
    for path, text in sources():
        for it in ENUM.finditer(text):
            variants = re.findall(r"^    (\w+)(\(.*\))?,", it.group(2), re.M)
            bare = [name for name, values in variants if not values]
            if len(variants) in (2, 3) and len(bare) == 1:
                rows.append(f"{path}:{line_of(text, it.start())}: {it.group(1)}")
    return rows


def kinds():
    """Constants 0, 1, 2 .. one after another: numbers for kinds."""
    rows = []
    for path, text in sources():
        due = 0
        run = []
        for it in list(KIND.finditer(text)) + [None]:
            value = int(it.group(2)) if it else -1
            if value != due:
                rows += run if len(run) > 1 else []
                due, run = 0, []
            if value == due:
                run.append(f"{path}:{line_of(text, it.start())}: {it.group(1)}")
                due += 1
    return rows


def facts():
    """Facts in the `requires` of three functions or more, each with how many."""
    count = collections.Counter()
    for _, text in sources():
        for it in REQUIRES.finditer(text):
            count.update({part.strip().removeprefix("(").removesuffix(")") for part in it.group(1).split("×")})
    return [f"{many}: {fact}" for fact, many in count.most_common() if many >= 3]


def travellers():
    """Pairs of parameters that ten functions or more take together."""
    count = collections.Counter()
    for _, text in sources():
        for it in FUNCTION.finditer(text):
            names = [part.split(":")[0].strip() for part in it.group(2).split(",") if ":" in part]
            count.update((a, b) for i, a in enumerate(names) for b in names[i + 1:])
    return [f"{many}: {a}, {b}" for (a, b), many in count.most_common() if many >= 10]


def parallel():
    """Structs with two arrays or more of one length."""
    rows = []
    for path, text in sources():
        for it in STRUCT.finditer(text):
            sizes = collections.Counter(ARRAY.findall(it.group(2)))
            if sizes and max(sizes.values()) > 1:
                rows.append(f"{path}:{line_of(text, it.start())}: {it.group(1)}")
    return rows


def proofs():
    return [str(path) for path in sorted(CRATES.glob("*/proofs/**/Proof.antt"))]


def twins():
    """Pairs of places that share six lines or more, but for what the tool `duplicates` calls boilerplate."""
    if shutil.which("duplicates") is None:
        return ["(the tool `duplicates` is not here)"]
    with tempfile.TemporaryDirectory() as copy:  # it knows Rust by its ending alone
        for path, text in sources():
            there = pathlib.Path(copy) / path.with_suffix(".rs")
            there.parent.mkdir(parents=True, exist_ok=True)
            there.write_text(text, encoding="utf-8")
        command = ["duplicates", "--repo", copy, "--most", "200", "--seconds", "120"]
        told = subprocess.run(command, capture_output=True, text=True, check=False).stdout
    return [row for row in told.splitlines() if re.match(r"D\d+ ", row) and "boilerplate" not in row]


ROWS = [
    ("1 own enums of the shape of Option", option_enums),
    ("1 flags beside a value", lambda: found(FLAG)),
    ("1 numbers of refusals in structs", lambda: found(ANSWER)),
    ("1 functions that answer such a number", lambda: found(REFUSING)),
    ("1 numbers for kinds", kinds),
    ("2 twins", twins),
    ("3 loops by hand (while, loop)", lambda: found(COUNTED)),
    ("4 ladders of returns of true or false", lambda: found(LADDER)),
    ("4 choices between flags", lambda: found(CHOICE)),
    ("5 facts in the requires of three or more", facts),
    ("5 parameters that ten or more take together", travellers),
    ("6 counts beside arrays in structs", lambda: found(COUNT)),
    ("6 parallel arrays in structs", parallel),
    ("7 switches on a step, function values", lambda: found(SWITCH)),
    ("8 proofs that walk the code by hand", proofs),
]


def main():
    parser = argparse.ArgumentParser(description=__doc__.splitlines()[0])
    parser.add_argument("--list", action="store_true", help="print each place too")
    parser.add_argument("--point", help="one point alone, as 3")
    args = parser.parse_args()
    for name, places in ROWS:
        if args.point and not name.startswith(args.point):
            continue
        rows = places()
        print(f"{len(rows):5}  point {name}")
        if args.list:
            for row in rows:
                print("      ", row)


if __name__ == "__main__":
    main()
