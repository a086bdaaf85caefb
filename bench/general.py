#!/usr/bin/env python3
"""Measures `reduce general` beside `reduce matching` on formulas of many parts, and alone where it has many rounds.

    bench/general.py LEANK [KIND ...]

LEANK is the built program (`dist/leank`), and KIND the name of a formula. The first table is about formulas of parts, also by two
and by four workers, the second about rounds, beside minisat. Seconds are those of the clock, the least of three runs by turns or
those of one that takes over five. Each document is checked, and by any number of workers they are the same, or the status is 1.
Needs Debian's package minisat. Nothing fails by time.
"""
import filecmp
import os
import random
import sys
import tempfile

from command_line import CommandLine
from formulas import pigeons, planted_clauses, refuted_implications, side_by_side, square, squares, write
from matching import kept_by
from runs import Command, apart, by_turns, megabytes
from tables import PrintedTable, seconds
from trap_inputs import contradicted_pairs, joined_cubes

SEED = 1
PARTS = 100000
WORKERS = ("1", "2", "4")


def within(out):
    """Squares, with variables and positions of all of them among one another."""
    draw = random.Random(SEED)
    names = draw.sample(range(1, 2 * PARTS + 1), 2 * PARTS)
    clauses = [clause for k in range(PARTS) for clause in square(names[2 * k], names[2 * k + 1])]
    draw.shuffle(clauses)
    write(out, 2 * PARTS, clauses)


def with_squares(out, variables, clauses, width, number):
    """Clauses with a drawn model, and the squares of so many pairs of variables."""
    draw = random.Random(SEED)
    _, rows = planted_clauses(draw, variables, clauses, width)
    for _ in range(number):
        rows += square(*draw.sample(range(1, variables + 1), 2))
    draw.shuffle(rows)
    write(out, variables, rows)


OF_PARTS = {
    "100,000 parts of four clauses, all kept": lambda out: write(out, 2 * PARTS, squares(PARTS), 4 * PARTS),
    "the same, among one another": within,
    "100,000 parts of three clauses, none kept": lambda out: write(out, 2 * PARTS, squares(PARTS, 3), 3 * PARTS),
    "one part, implications along 200,000 variables":
        lambda out: write(out, 2 * PARTS, refuted_implications(2 * PARTS), 2 * PARTS + 1),
    "four parts, ten pigeons in nine holes": lambda out: write(out, *side_by_side([pigeons(9)] * 4)),
}
OF_ROUNDS = {
    "{i} and {-i} for each i up to 20,000, joined by one clause: 20,000 rounds": lambda out: out.write(contradicted_pairs(20000)),
    "11,000 cubes of eight clauses, each tied to the next": lambda out: out.write(joined_cubes(11000)),
    "100 squares in 1,000,000 planted clauses over 500,000 variables": lambda out: with_squares(out, 500000, 1000000, 3, 100),
    "500 squares in 2,000,000 planted clauses of five literals over 500,000 variables":
        lambda out: with_squares(out, 500000, 2000000, 5, 500),
}
KINDS = OF_PARTS | OF_ROUNDS


def write_formula(kind, name):
    with open(name, "w") as out:
        KINDS[kind](out)


def measure_parts(leank, path, kinds):
    formula = path("formula")
    command = lambda name, it: Command([leank, "reduce", name, formula, "--workers", it], path(f"{name} {it}"), statuses=(0,))
    commands = {"reading": Command([leank, "check", formula, os.devnull]), "matching": command("matching", "1"),
                **{it: command("general", it) for it in WORKERS}}
    table = PrintedTable("general", "formula", "kept", "reading", "`reduce matching`", "`reduce general`", "two workers", "four")
    for kind in kinds:
        apart(write_formula, kind, formula)
        found = by_turns(commands)
        documents = [commands[it].output for it in WORKERS]
        if not all(filecmp.cmp(documents[0], other, shallow=False) for other in documents[1:]):
            sys.exit(f"{kind}: other documents")
        kept_by(leank, formula, commands["matching"].output)
        number, _ = kept_by(leank, formula, documents[0])
        table.add(kind, f"{number:,}", *(seconds(it.clock) for it in found.values()))


def measure_rounds(leank, path, kinds):
    formula, document = path("formula"), path("document")
    commands = {"general": Command([leank, "reduce", "general", formula], document, statuses=(0,)),
                "minisat": Command(["minisat", "-verb=0", formula])}
    table = PrintedTable("rounds", "formula", "kept", "`reduce general`", "MB", "minisat", "MB of minisat")
    for kind in kinds:
        apart(write_formula, kind, formula)
        found = by_turns(commands)
        number, _ = kept_by(leank, formula, document)
        table.add(kind, f"{number:,}", *(cell for it in found.values() for cell in (seconds(it.clock), megabytes(it.memory))))


def main():
    words = CommandLine(__doc__)
    leank, kinds = words.program(), words.some("KIND", KINDS)
    words.needs("minisat")
    with tempfile.TemporaryDirectory() as folder:
        path = lambda name: os.path.join(folder, name)
        for measure, of in ((measure_parts, OF_PARTS), (measure_rounds, OF_ROUNDS)):
            chosen = [kind for kind in kinds if kind in of]
            if chosen:
                measure(leank, path, chosen)


if __name__ == "__main__":
    main()
