#!/usr/bin/env python3
"""Measures `reduce linear` beside a plain program in C++ that makes the same run over sparse rows, with the same checks in 128
bits, and reads and writes alike.

    bench/linear.py LEANK [KIND ...]

LEANK is the built program (`dist/leank`), and KIND the name of a formula. Both write the same bytes and end with the same status,
or the status here is 1. Seconds are those of the processor, the least of three runs by turns or those of one that takes over five.
Needs g++. Nothing fails by time.
"""
import filecmp
import os
import random
import sys
import tempfile

from command_line import CommandLine
from formulas import drawn_clauses, implications, write
from runs import Command, built, by_turns, megabytes
from tables import PrintedTable, beside

SEED = 1


def random_three(variables, clauses):
    return variables, list(drawn_clauses(random.Random(SEED), range(1, variables + 1), clauses))


def ring(variables):
    """Implications along the variables, and back."""
    return variables, [*implications(variables), [-variables, 1]]


def growing(variables):
    return variables, [[-v, -(v + 1), v + 2] for v in range(1, variables - 1)] + [[-(variables - 1), -variables]]


def grid(side):
    """Two colours for the places of a grid, neighbours not both true and not both false."""
    place = lambda i, j: side * i + j + 1
    clauses = []
    for i in range(side):
        for j in range(side):
            for other in ([place(i + 1, j)] if i + 1 < side else []) + ([place(i, j + 1)] if j + 1 < side else []):
                clauses += [[place(i, j), other], [-place(i, j), -other]]
    return side * side, clauses


KINDS = {
    "random, 100 variables, 200 clauses of three literals": lambda: random_three(100, 200),
    "random, 200 variables, 400 clauses": lambda: random_three(200, 400),
    "random, 300 variables, 600 clauses": lambda: random_three(300, 600),
    "random, 1,500 variables, 1,200 clauses, none kept": lambda: random_three(1500, 1200),
    "a cycle of implications over 2,000 variables": lambda: ring(2000),
    "150 weights that grow as the numbers of Fibonacci": lambda: growing(150),
    "unit clauses on 2,895 variables, the most that fit": lambda: (2895, [[v] for v in range(1, 2896)]),
    "two colours on a grid of 900 points, 3,480 clauses": lambda: grid(30),
}


def main():
    words = CommandLine(__doc__)
    leank, kinds = words.program(), words.some("KIND", KINDS)
    words.needs("g++")
    table = PrintedTable("linear", "formula", "status", "`reduce linear`", "MB")
    with tempfile.TemporaryDirectory() as folder:
        formula, ours, theirs = (os.path.join(folder, name) for name in ("formula", "ours", "theirs"))
        commands = {"leank": Command([leank, "reduce", "linear", formula], ours),
                    "plain": Command([built(folder, "linear.cpp"), formula], theirs)}
        for kind in kinds:
            with open(formula, "w") as out:
                write(out, *KINDS[kind]())
            found, plain = by_turns(commands).values()
            if found.status != plain.status or not filecmp.cmp(ours, theirs, shallow=False):
                sys.exit(f"{kind}: not the same ({found.status}, {plain.status})")
            table.add(kind, str(found.status), beside(found.processor, plain.processor), megabytes(found.memory))


if __name__ == "__main__":
    main()
