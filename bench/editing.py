#!/usr/bin/env python3
"""Measures `edits` beside kernels that a plain program in C++ computes from scratch after each edit.

    bench/editing.py LEANK [KIND ...]

LEANK is the built program (`dist/leank`), and KIND the name of a formula. Of a formula of about 100,000 clauses 10,000 clauses, or
1,000 if the lines are long, are removed or added one by one. The plain program (hopcroft_karp.cpp) makes the first 100 edits, and
its time for all of them is reckoned from these. Both write the same lines for the edits that both make, or the status is 1.
`reading` is what leank takes for both inputs if the last line is faulty, and `one kernel` what it takes without edits. Seconds are
those of the clock. Needs g++. Nothing fails by time.
"""
import os
import random
import sys
import tempfile
from collections import namedtuple

from command_line import CommandLine
from formulas import drawn_clauses, implications, write
from runs import apart, built, least
from tables import PrintedTable, beside, seconds

SEED = 1
EDITS = 10_000
# So many if nearly all clauses stay in the kernel, or many change it.
FEW = 1_000
PLAIN = 100


def random_three(draw, variables, clauses):
    return variables, list(drawn_clauses(draw, range(1, variables + 1), clauses))


def with_core(draw, variables, clauses, core):
    """A formula whose kernel is about its first clauses, which are dense."""
    few = core * 9 // 10
    dense = list(drawn_clauses(draw, range(1, few + 1), core))
    return variables, dense + list(drawn_clauses(draw, range(few + 1, variables + 1), clauses - core))


# How many edits a formula gets, and what makes it.
Kind = namedtuple("Kind", "edits make")
KINDS = {
    "of three literals over 120,000 variables, nothing kept": Kind(EDITS, lambda draw: random_three(draw, 120_000, 100_000)),
    "the same with 1,000 clauses over 900 variables": Kind(EDITS, lambda draw: with_core(draw, 130_000, 100_000, 1_000)),
    "of three literals over 109,000 variables": Kind(FEW, lambda draw: random_three(draw, 109_000, 100_000)),
    "over 100,000 variables": Kind(FEW, lambda draw: random_three(draw, 100_000, 100_000)),
    "implications from a unit clause": Kind(EDITS, lambda draw: (100_000, [[1], *implications(100_000)])),
}


def lines_of(draw, clauses, count):
    """Edits that remove a clause that is live or add one, as one that was removed before."""
    live, gone, lines = dict(enumerate(clauses, 1)), [], []
    numbers, held = list(live), len(clauses)
    for _ in range(count):
        if gone and draw.random() < 0.5:
            clause = gone.pop(draw.randrange(len(gone)))
            held += 1
            live[held] = clause
            numbers.append(held)
            lines.append(" ".join(map(str, ["a", *clause, 0])))
        else:
            place = draw.randrange(len(numbers))
            numbers[place], numbers[-1] = numbers[-1], numbers[place]
            number = numbers.pop()
            gone.append(live.pop(number))
            lines.append(f"d {number}")
    return lines


def write_inputs(kind, formula, edits, bad, none):
    """Writes a formula, its edits, the same with a faulty line behind them, and no edits."""
    draw = random.Random(SEED)
    variables, clauses = KINDS[kind].make(draw)
    lines = lines_of(draw, clauses, KINDS[kind].edits)
    for path, text in (edits, lines), (bad, [*lines, "x"]), (none, []):
        with open(path, "w") as out:
            out.write("".join(line + "\n" for line in text))
    with open(formula, "w") as out:
        write(out, variables, clauses)


def first_lines(path, count):
    with open(path, "rb") as text:
        return [line for line, _ in zip(text, range(count))]


def measured(kind, leank, plain, folder):
    """The cells of a formula."""
    inputs = [os.path.join(folder, name) for name in ("formula", "edits", "bad", "none")]
    apart(write_inputs, kind, *inputs)
    formula, edits, bad, none = inputs
    ours, theirs = (os.path.join(folder, name) for name in ("ours", "theirs"))
    reading = least(leank, "edits", formula, bad, status=2)
    one = least(leank, "edits", formula, none)
    every = least(leank, "edits", formula, edits, output=ours, times=1)
    some = least(plain, formula, edits, str(PLAIN), output=theirs, times=1)
    start = least(plain, formula, edits, "0")
    if first_lines(ours, PLAIN + 1) != first_lines(theirs, PLAIN + 1):
        sys.exit(f"{kind}: other lines")
    count = KINDS[kind].edits
    scratch = (some.clock - start.clock) / PLAIN * count
    return (f"{count:,}", seconds(reading.clock), seconds(one.clock), beside(every.clock, scratch), seconds(scratch),
            seconds(os.path.getsize(ours) / 1e6))


def main():
    words = CommandLine(__doc__)
    leank, kinds = words.program(), words.some("KIND", KINDS)
    words.needs("g++")
    table = PrintedTable("editing", "formula of 100,000 clauses", "edits", "reading", "one kernel", "`edits`", "from scratch",
                         "written, MB")
    with tempfile.TemporaryDirectory() as folder:
        plain = built(folder, "hopcroft_karp.cpp")
        for kind in kinds:
            table.add(kind, *measured(kind, leank, plain, folder))


if __name__ == "__main__":
    main()
