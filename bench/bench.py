#!/usr/bin/env python3
"""Measures leank on large formulas, beside SAT solvers that do not search: cadical stops before the first conflict, and minisat
reads and writes the formula.

    bench/bench.py LEANK [KIND ...]

LEANK is the built program (`dist/leank`), and KIND the name of a formula. A cell of the table has seconds of the clock, the least
of three runs by turns or those of one that takes over five, and the peak of memory. Needs Debian's packages cadical and minisat.
Nothing fails by time.
"""
import os
import random
import tempfile

from command_line import CommandLine
from formulas import drawn_clauses, implications, write
from runs import Command, apart, by_turns, megabytes
from tables import PrintedTable, seconds

SEED = 1


def random_three(out):
    write(out, 100000, drawn_clauses(random.Random(SEED), range(1, 100001), 400000), 400000)


def chain(out):
    write(out, 1000000, [[1, 2], *implications(1000000, 2)])


def two_clauses(out):
    write(out, 1000000, [range(1, 1000001), range(-1, -1000001, -1)])


def five_literals(draw):
    """A clause of five literals over 1,000,000 variables."""
    chosen = {draw.randrange(1, 1000001) for _ in range(5)}
    while len(chosen) < 5:
        chosen.add(draw.randrange(1, 1000001))
    return [v if draw.random() < 0.5 else -v for v in chosen]


def near_limits(out):
    draw = random.Random(SEED)
    write(out, 1000000, (five_literals(draw) for _ in range(4000000)), 4000000)


KINDS = {
    "random, 100,000 variables, 400,000 clauses of three literals": random_three,
    "chain of 1,000,000 variables, each pure literal frees the next": chain,
    "a clause with each of 1,000,000 variables, and one with each complement": two_clauses,
    "random, 1,000,000 variables, 4,000,000 clauses, 20,000,000 literals": near_limits,
}


def write_formula(kind, name):
    with open(name, "w") as file:
        KINDS[kind](file)


def main():
    words = CommandLine(__doc__)
    leank, kinds = words.program(), words.some("KIND", KINDS)
    words.needs("cadical", "minisat")
    with tempfile.TemporaryDirectory() as folder:
        formula, document = (os.path.join(folder, name) for name in ("formula", "document"))
        commands = {
            "`reduce pure`": Command([leank, "reduce", "pure", formula], document, statuses=(0,)),
            "`check`": Command([leank, "check", formula, document], statuses=(0,)),
            "`cadical -c 0`": Command(["cadical", "-q", "-c", "0", formula]),
            "`minisat -dimacs`": Command(["minisat", "-verb=0", "-no-pre", "-dimacs=/dev/null", formula]),
        }
        table = PrintedTable("bench", "formula", *commands)
        for kind in kinds:
            apart(write_formula, kind, formula)
            found = by_turns(commands)
            table.add(kind, *(f"{seconds(it.clock)}, {megabytes(it.memory)} MB" for it in found.values()))


if __name__ == "__main__":
    main()
