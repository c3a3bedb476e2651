"""Runs inside gdb (bench/measure.py starts it): counts the nodes of the search in each call of the product.

A node is one call of search::search: a domain is narrowed, and then answered or split. Calls in which the questions
before, or the try of each operation at its least start, already give the answer have none. SHEETS is the file
that the program reads; COUNTS gets a line for each call of leastplan_plan_text.
"""

import gdb

counts = []


class Call(gdb.Breakpoint):
    def stop(self):
        counts.append(0)
        return False


class Node(gdb.Breakpoint):
    def stop(self):
        counts[-1] += 1
        return False


Call("leastplan_plan_text")
Node("'search::search'")
gdb.execute("run < %s > /dev/null" % SHEETS)
with open(COUNTS, "w") as out:
    out.writelines("%d\n" % count for count in counts)
