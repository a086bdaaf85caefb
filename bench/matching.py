#!/usr/bin/env python3
"""Measures `reduce matching` beside a plain Hopcroft and Karp in C++ that reads the same formula and writes a document of the same
kind, and `deficiency` beside `reduce matching`.

    bench/matching.py LEANK [KIND ...]

LEANK is the built program (`dist/leank`), and KIND the name of a formula. Seconds are those of the clock, the least of three runs
by turns or those of one that takes over five. The ratio is to the plain program; that of `deficiency` is to `reduce matching` by
one worker. Beside it stand the processor seconds and the peak of memory by one worker and by two. Each document is checked, also
one by 64 workers, and all have to keep the same clauses, or the status is 1. Needs g++. Nothing fails by time.
"""
import itertools
import os
import random
import sys
import tempfile
import zlib

from command_line import CommandLine
from formulas import drawn_clauses, refuted_implications, shuffled, side_by_side, square, squares, write
from runs import Command, apart, built, by_turns, least, megabytes, run
from tables import PrintedTable, beside, seconds

SEED = 1
WORKERS = ("1", "2", "4")
MANY = "64"
PIECE = 1 << 16
PLAIN, DEFICIENCY = "plain", "deficiency"


def random_three(out, variables, clauses):
    write(out, variables, drawn_clauses(random.Random(SEED), range(1, variables + 1), clauses), clauses)


def chain(out):
    """Implications from a unit clause to the complement of the last variable."""
    write(out, 999999, refuted_implications(999999), 1000000)


def one_walk(out):
    """The only way to match the last clause turns all pairs."""
    write(out, 1000000, ([v + 1, v] if v < 1000000 else [v] for v in range(1, 1000001)), 1000000)


def complete(out, variables, clauses):
    write(out, variables, (range(1, variables + 1) for _ in range(clauses)), clauses)


def parts(out):
    write(out, 600000, squares(300000), 1200000)


def joined_clauses():
    """Squares, of which the first clause has a literal of the next square too."""
    for v in range(1, 600000, 2):
        first, *others = square(v, v + 1)
        yield first + [v + 2] if v + 2 < 600000 else first
        yield from others


def joined(out):
    write(out, 600000, joined_clauses(), 1200000)


def small_clauses():
    """The clauses of parts of two to six variables: a path over each, and up to three more."""
    draw = random.Random(SEED)
    first, end = 1, 1000001
    while first < end:
        variables = range(first, min(first + draw.randint(2, 6), end))
        first = variables.stop
        chosen = [[v, v + 1] for v in variables[:-1]]
        for _ in range(draw.randint(0, 3)):
            chosen.append(draw.sample(variables, min(len(variables), draw.randint(1, 3))))
        for clause in chosen:
            yield [v if draw.random() < 0.5 else -v for v in clause]


def small_parts(out):
    write(out, 1000000, small_clauses(), sum(1 for _ in small_clauses()))


def middle_parts(out):
    """Random parts, with their variables and clauses among one another."""
    draw = random.Random(SEED)
    drawn = [(700, list(drawn_clauses(draw, range(1, 701), 1000))) for _ in range(400)]
    write(out, *shuffled(draw, *side_by_side(drawn)))


def two_parts(out):
    """Two large random parts of equal size, over the even and the odd variables."""
    drawn = enumerate(drawn_clauses(random.Random(SEED), range(1, 500001), 920000))
    moved = ([2 * l - k % 2 if l > 0 else 2 * l + k % 2 for l in clause] for k, clause in drawn)
    write(out, 1000000, moved, 920000)


KINDS = {
    "random, 500,000 variables, 450,000 clauses": lambda out: random_three(out, 500000, 450000),
    "random, 100,000 variables, 92,000 clauses": lambda out: random_three(out, 100000, 92000),
    "chain of 1,000,000 clauses": chain,
    "1,000,000 clauses along one augmenting path": one_walk,
    "1,500 clauses that have all 1,500 variables": lambda out: complete(out, 1500, 1500),
    "1,600 clauses that have all 1,500 variables": lambda out: complete(out, 1500, 1600),
    "300,000 parts of four clauses": parts,
    "the same clauses joined to one part": joined,
    "small parts of 1,000,000 variables, 1,124,772 clauses": small_parts,
    "400 random parts of 700 variables, 1,000 clauses each": middle_parts,
    "two large random parts, 920,000 clauses": two_parts,
}


def write_formula(kind, name):
    with open(name, "w") as out:
        KINDS[kind](out)


def kept_by(leank, formula, document):
    """How many clauses a document keeps that is accepted, and a sum that tells them from others. The line is read in pieces, so
    that this process stays small."""
    least(leank, "check", formula, document, times=1)
    spaces = found = 0
    with open(document, "rb") as text:
        pieces = itertools.dropwhile(lambda piece: not piece.startswith(b"c keep"), iter(lambda: text.readline(PIECE), b""))
        for piece in pieces:
            spaces, found = spaces + piece.count(b" "), zlib.crc32(piece, found)
            if piece.endswith(b"\n"):
                break
    return spaces - 2, found


def main():
    words = CommandLine(__doc__)
    leank, kinds = words.program(), words.some("KIND", KINDS)
    words.needs("g++")
    with tempfile.TemporaryDirectory() as folder:
        path = lambda name: os.path.join(folder, name)
        formula = path("formula")
        by_workers = {it: Command([leank, "reduce", "matching", formula, "--workers", it], path(it), statuses=(0,))
                      for it in (*WORKERS, MANY)}
        commands = {PLAIN: Command([built(folder, "hopcroft_karp.cpp"), formula], path(PLAIN), statuses=(0,)),
                    **{it: by_workers[it] for it in WORKERS}, DEFICIENCY: Command([leank, "deficiency", formula], statuses=(0,))}
        table = PrintedTable("matching", "formula", "kept", PLAIN, "one worker", "two", "four", "`deficiency`", "MB")
        for kind in kinds:
            apart(write_formula, kind, formula)
            found = by_turns(commands)
            run(by_workers[MANY])
            kept = {kept_by(leank, formula, path(it)) for it in (PLAIN, *by_workers)}
            if len(kept) > 1:
                sys.exit(f"{kind}: another kernel")
            number, _ = kept.pop()
            plain, one = found[PLAIN], found[WORKERS[0]]
            table.add(kind, f"{number:,}", seconds(plain.clock), *(beside(found[it].clock, plain.clock) for it in WORKERS),
                      beside(found[DEFICIENCY].clock, one.clock), megabytes(one.memory))


if __name__ == "__main__":
    main()
