#!/usr/bin/env python3
"""What any number of workers writes: each command that takes `--workers`, by 1, 2, 3, 8 and 64 of them.

    bench/workers.py LEANK [COUNT [SEED]]

LEANK is the built program (`dist/leank`). It draws COUNT formulas, or 300, each kind in turn: one part, two parts, many
parts of one or two clauses, thousands of them, some parts of all sizes, empty clauses, tautologies and repeated
literals, protected variables, parts without a model, and squares, of which all clauses are kept. Half of the formulas
have a model if their kind permits it. For each it compares standard output,
standard error and the status of `reduce matching`, `reduce general` and `solve`, these also with small budgets, and of
`check` of all that they wrote, also with one number changed. It prints each run that differs from that by one worker,
and how often each status came; it ends with status 1 if a run differs. Needs python3.
"""
import collections
import os
import random
import subprocess
import sys
import tempfile

from command_line import CommandLine
from formulas import sign_patterns, write

WORKERS = (1, 2, 3, 8, 64)


class Drawn:
    """A formula, part by part. If it is planted, all of it but what `signs` adds is true where each variable is."""

    def __init__(self, draw):
        self.draw, self.variables, self.clauses, self.protected = draw, 0, [], []
        self.planted = draw.random() < 0.5

    def fresh(self, count):
        """So many variables that are in no clause."""
        first = self.variables + 1
        self.variables += count
        return range(first, first + count)

    def part(self, size, count):
        """Clauses over so many variables, joined by a path over them."""
        variables = self.fresh(size)
        chosen = [variables[k : k + 2] for k in range(max(1, size - 1))]
        while len(chosen) < count:
            chosen.append(self.draw.sample(variables, min(size, self.draw.choice((1, 2, 2, 3, 3)))))
        self.clauses += [self.signed(some) for some in chosen]

    def signed(self, variables):
        """A clause over these variables."""
        clause = [v if self.draw.random() < 0.5 else -v for v in variables]
        if self.planted and max(clause) < 0:
            clause[self.draw.randrange(len(clause))] *= -1
        return clause

    def some_part(self):
        size = self.draw.randint(1, 8)
        self.part(size, size + self.draw.randint(-1, 2 * size))

    def tiny_part(self):
        self.part(self.draw.randint(1, 2), self.draw.randint(1, 2))

    def signs(self, size):
        """All clauses that have each of so many variables; their part has no model."""
        self.clauses += sign_patterns(self.fresh(size))


def one(drawn):
    size = drawn.draw.randint(1, 60)
    drawn.part(size, drawn.draw.randint(size, 4 * size))


def two(drawn):
    one(drawn)
    one(drawn)


def tiny(drawn):
    for _ in range(drawn.draw.randint(2, 300)):
        drawn.tiny_part()


def thousands(drawn):
    for _ in range(drawn.draw.randint(2500, 6000)):
        drawn.tiny_part()


def mixed(drawn):
    for _ in range(drawn.draw.randint(2, 12)):
        drawn.some_part()


def empty(drawn):
    mixed(drawn)
    drawn.clauses += [[] for _ in range(drawn.draw.randint(1, 3))]


def repeated(drawn):
    mixed(drawn)
    for clause in drawn.draw.sample(drawn.clauses, len(drawn.clauses) // 3):
        clause.append(drawn.draw.choice((1, -1)) * drawn.draw.choice(clause))


def protected(drawn):
    mixed(drawn)
    count = drawn.draw.randint(1, drawn.variables)
    drawn.protected = sorted(drawn.draw.sample(range(1, drawn.variables + 1), count))


def refuted(drawn):
    least = drawn.draw.choice((1, 3))
    for _ in range(drawn.draw.randint(2, 6)):
        if drawn.draw.random() < 0.5:
            drawn.some_part()
        else:
            drawn.signs(drawn.draw.randint(least, 4))


def squares(drawn):
    for _ in range(drawn.draw.randint(1, 40)):
        drawn.signs(2)


KINDS = (one, two, tiny, mixed, empty, repeated, protected, refuted, squares, two, tiny, thousands)


def drawn_formula(seed):
    """A formula of the kind of a seed; in half of the formulas the clauses are shuffled."""
    draw = random.Random(seed)
    drawn = Drawn(draw)
    KINDS[seed % len(KINDS)](drawn)
    if draw.random() < 0.5:
        draw.shuffle(drawn.clauses)
    return drawn


def with_other_number(draw, text):
    """The document with one number of a line changed that is neither its first one nor of its formula."""
    lines = text.splitlines()
    places = [k for k, line in enumerate(lines) if line.startswith(b"c ") and k > 1 and len(line.split()) > 2]
    if places:
        k = draw.choice(places)
        words = lines[k].split()
        words[draw.randrange(2, len(words))] = str(draw.randint(-1, 9)).encode()
        lines[k] = b" ".join(words)
    return b"\n".join(lines) + b"\n"


class Compared:
    """Runs of a program by each number of workers."""

    def __init__(self, leank):
        self.leank, self.differing, self.statuses = leank, 0, collections.Counter()

    def run(self, told, words):
        """What one worker writes, after a comparison with what the others do."""
        first = None
        for workers in WORKERS:
            ended = subprocess.run([self.leank, *words, "--workers", str(workers)], capture_output=True)
            found = (ended.returncode, ended.stdout, ended.stderr)
            first = first or found
            if found != first:
                self.differing += 1
                print(f"{told}: {' '.join(words)} by {workers} workers differs from one")
        self.statuses[f"{' '.join(words[:2]) if words[0] == 'reduce' else words[0]} {first[0]}"] += 1
        return first


def compare(compared, folder, seed):
    draw, drawn = random.Random(seed), drawn_formula(seed)
    name, document = (os.path.join(folder, n) for n in ("formula", "document"))
    with open(name, "w") as out:
        write(out, drawn.variables, drawn.clauses)
    told = f"seed {seed}"
    protect = ["--protect", ",".join(map(str, drawn.protected))] if drawn.protected else []
    budget = ["--conflicts", str(draw.randint(1, 4))]
    for words in (
        ["reduce", "matching", name, *protect],
        ["reduce", "general", name, *protect],
        ["reduce", "general", name, *protect, *budget],
        ["solve", name],
        ["solve", name, *budget],
    ):
        text = compared.run(told, words)[1]
        if text.startswith(b"c leank"):
            for checked in (text, with_other_number(draw, text)):
                with open(document, "wb") as out:
                    out.write(checked)
                compared.run(told, ["check", name, document])


def main():
    words = CommandLine(__doc__)
    compared, count, seed = Compared(words.program()), words.number("COUNT", 300), words.number("SEED", 1)
    words.end()
    with tempfile.TemporaryDirectory() as folder:
        for number in range(seed, seed + count):
            compare(compared, folder, number)
    for ending, times in sorted(compared.statuses.items()):
        print(f"{ending}: {times}")
    print(f"{count} formulas, {sum(compared.statuses.values())} runs, {compared.differing} differ")
    sys.exit(1 if compared.differing else 0)


if __name__ == "__main__":
    main()
