"""Runs general exact solvers on one interval question: sat, unsat or none (time limit), with seconds of processor time.

A time is the least of several runs, and start-up is taken off: the least of as many runs on a question with nothing to
do, in turn with the others, since the start-up of a process varies by more than an easy question takes.

A solver is optional: one that is not installed is left out. Debian's packages: minizinc and flatzinc
(gecode), cadical, clasp, z3, coinor-cbc.
"""

import os
import resource
import shutil
import subprocess
import tempfile

import encodings_of_plans as encodings
import measure  # finds tests/ too
from reference import plain_sheet

HERE = os.path.dirname(os.path.abspath(__file__))
NOTHING = plain_sheet(1, 1, [(1, 1)], [0], [])
LIMIT = 10
RUNS = 9
QUICK = 0.3  # seconds; a question that takes longer is asked once


class Solver:
    """A name, the program, how its input is written, its command line and how its output reads."""

    def __init__(self, name, program, suffix, write, command, reads):
        self.name, self.program, self.suffix = name, program, suffix
        self.write, self.command, self.reads = write, command, reads

    def installed(self):
        return shutil.which(self.program) is not None

    def solve(self, sheet, interval):
        """("sat" | "unsat" | "none", seconds of processor time, seconds of start-up in it)"""
        with tempfile.TemporaryDirectory() as folder:
            path, nothing = os.path.join(folder, "plan" + self.suffix), os.path.join(folder, "nothing" + self.suffix)
            self.write(sheet, interval, path)
            self.write(NOTHING, 1, nothing)
            said, took = self.run(path)
            start_up = self.run(nothing)[1]
            for _ in range(RUNS - 1):
                if took > QUICK:
                    break
                took, start_up = min(took, self.run(path)[1]), min(start_up, self.run(nothing)[1])
            return said, took, start_up

    def run(self, path):
        before = children_time()
        try:
            done = subprocess.run(self.command(path), stdout=subprocess.PIPE, stderr=subprocess.STDOUT, timeout=LIMIT)
        except subprocess.TimeoutExpired:
            return "none", float(LIMIT)
        took = children_time() - before
        return self.reads(done.stdout.decode(errors="replace"), path), took


def children_time():
    used = resource.getrusage(resource.RUSAGE_CHILDREN)
    return used.ru_utime + used.ru_stime


def writer(encode):
    def write(sheet, interval, path):
        with open(path, "w") as out:
            out.write(encode(sheet, interval))

    return write


def write_flat(sheet, interval, path):
    """FlatZinc by minizinc; the time of this translation is not counted."""
    data = path + ".dzn"
    with open(data, "w") as out:
        out.write(encodings.dzn(sheet, interval))
    model = os.path.join(HERE, "plan.mzn")
    done = subprocess.run(
        ["minizinc", "--solver", "gecode", "-c", "--fzn", path, "--no-output-ozn", model, data],
        stdout=subprocess.PIPE,
        stderr=subprocess.STDOUT,
    )
    if done.returncode or not os.path.exists(path):
        with open(path, "w") as out:
            out.write("constraint bool_eq(true, false);\nsolve satisfy;\n")


def first_word(yes, no):
    def reads(text, _):
        words = [line.strip() for line in text.splitlines()]
        return "sat" if yes in words else "unsat" if no in words else "none"

    return reads


def flat_words(text, _):
    return "unsat" if "UNSATISFIABLE" in text else "sat" if "----------" in text else "none"


def cbc_words(text, path):
    if "infeasible" in text.lower():
        return "unsat"
    return "sat" if "Optimal" in text else "none"


SOLVERS = [
    Solver("gecode", "fzn-gecode", ".fzn", write_flat, lambda p: ["fzn-gecode", p], flat_words),
    Solver(
        "cadical",
        "cadical",
        ".cnf",
        writer(encodings.cnf),
        lambda p: ["cadical", "-q", "-n", p],
        first_word("s SATISFIABLE", "s UNSATISFIABLE"),
    ),
    Solver(
        "clasp",
        "clasp",
        ".cnf",
        writer(encodings.cnf),
        lambda p: ["clasp", "--quiet=2", "--verbose=1", p],
        first_word("s SATISFIABLE", "s UNSATISFIABLE"),
    ),
    Solver("z3", "z3", ".smt2", writer(encodings.smtlib), lambda p: ["z3", p], first_word("sat", "unsat")),
    Solver("cbc", "cbc", ".lp", writer(encodings.lp), lambda p: ["cbc", p, "solve"], cbc_words),
]
