#!/usr/bin/env python3
"""The matching kernel part by part: what `reduce matching` writes must not depend on the number of workers.

    bench/matching_parts.py rows
    bench/matching_parts.py expected
    bench/matching_parts.py compare LEANK [COUNT [SEED]]
    bench/matching_parts.py large LEANK [COUNT [SEED]]

A plain program finds the matching of each part of a formula alone, in rounds of shortest paths, and makes the
document of these. `rows` prints rows for the script of crates/test_commands, by 1, 2, 3, 8 and 64 workers, and
`expected` prints their answers. If a round also turned the longer paths that it meets, several parts at once would
get other pairs than each part alone, for each of these formulas. `compare` draws COUNT formulas, or 1,000, and
compares what LEANK (`dist/leank`) writes by as many workers with the plain document. It prints each formula for which
one differs, and how many they are; the status is 1 if there is one. `large` draws formulas of 4,200 clauses or more
(COUNT or 40), and compares what LEANK writes by as many workers with what it writes by one. Needs python3.
"""
import os
import random
import subprocess
import sys
import tempfile

from command_line import CommandLine
from formulas import drawn_clause, formula_text

WORKERS = (1, 2, 3, 8, 64)

# A small formula, of five clauses over four variables and three over three, and the seeds of others, beside which there
# are a large part among small ones, two equal large ones, and many small ones.
SMALL = (7, [[3, 1], [4, 1], [2, 4], [2], [5, 7], [5], [3], [7, 6]])
SEEDS = (1192, 1725, 1797, 2487, 4789, 5833)


def draw_part(draw, first, variables):
    """Clauses over some variables, from the first on, and about as many."""
    inside = range(first, first + variables)
    for _ in range(max(1, variables + draw.randint(-2, 2))):
        yield drawn_clause(draw, inside, min(variables, draw.choice((1, 2, 2, 2, 3))))


def draw_formula(seed):
    """The number of variables, and the clauses, of two parts or more; in half of the formulas they are shuffled."""
    draw = random.Random(seed)
    clauses, variables = [], 0
    for _ in range(draw.randint(2, 5)):
        size = draw.randint(1, draw.choice((6, 12, 40)))
        clauses += draw_part(draw, variables + 1, size)
        variables += size
    if draw.random() < 0.5:
        draw.shuffle(clauses)
    return variables, clauses


def beside(draw, size, count):
    """A part over this many variables, and smaller ones over one to three until there are so many clauses."""
    clauses, variables = list(draw_part(draw, 1, size)), size
    while len(clauses) < count:
        some = draw.randint(1, 3)
        clauses += draw_part(draw, variables + 1, some)
        variables += some
    return variables, clauses


def equal(draw, size, count):
    """The same clauses over two sets of variables, in turn."""
    part = []
    while 2 * len(part) < count:
        part += draw_part(draw, 1, size)
    moved = [[l + size if l > 0 else l - size for l in clause] for clause in part]
    return 2 * size, [clause for both in zip(part, moved) for clause in both]


def small(draw, count):
    """Parts over one to six variables until there are so many clauses."""
    clauses, variables = [], 0
    while len(clauses) < count:
        some = draw.randint(1, 6)
        clauses += draw_part(draw, variables + 1, some)
        variables += some
    return variables, clauses


def draw_large(seed):
    """A formula of 4,200 clauses or more, each kind in turn; in half of the formulas the clauses are shuffled."""
    draw = random.Random(seed)
    if seed % 4 == 0:
        variables, clauses = beside(draw, draw.randint(2000, 5000), draw.randint(6000, 9000))
    elif seed % 4 == 1:
        variables, clauses = equal(draw, draw.randint(2100, 4000), 4200)
    elif seed % 4 == 2:
        variables, clauses = small(draw, draw.randint(4200, 9000))
    else:
        variables, clauses = 0, []
        while len(clauses) < 4200:
            size = draw.randint(1, draw.choice((100, 3000)))
            clauses += draw_part(draw, variables + 1, size)
            variables += size
    if draw.random() < 0.5:
        draw.shuffle(clauses)
    return variables, clauses


def parts_of(clauses):
    """The positions, from 0 on, of clauses that are connected by shared variables."""
    parts = []
    for p, clause in enumerate(clauses):
        variables, positions = {abs(l) for l in clause}, [p]
        others = []
        for other_variables, other_positions in parts:
            if other_variables & variables:
                variables |= other_variables
                positions += other_positions
            else:
                others.append((other_variables, other_positions))
        parts = others + [(variables, positions)]
    return [sorted(positions) for _, positions in parts]


class Part:
    """A maximum matching of some clauses, given as lists of variables, and what walks reach."""

    def __init__(self, clauses):
        self.clauses = clauses
        self.owner = {}
        self.own = [None] * len(clauses)
        self.take_rarest()
        last = self.search()
        while last is not None:
            roots = [c for c, v in enumerate(self.own) if v is None]
            if not [c for c in roots if self.augment(c, 1, last)]:
                sys.exit("a round without a path")
            last = self.search()

    def take_rarest(self):
        counts = {}
        for clause in self.clauses:
            for v in clause:
                counts[v] = counts.get(v, 0) + 1
        for c, clause in enumerate(self.clauses):
            free = [v for v in clause if v not in self.owner]
            if free:
                self.give(c, min(free, key=counts.get))

    def give(self, c, v):
        self.own[c], self.owner[v] = v, c

    def search(self):
        """Layers by breadth; the first one with a clause that holds a free variable, or None."""
        self.escape, self.layer = {}, {}
        rank, clauses, last = 1, [c for c, v in enumerate(self.own) if v is None], None
        while clauses and last is None:
            self.layer.update((c, rank) for c in clauses)
            following = []
            for c in clauses:
                for v in self.clauses[c]:
                    if v in self.escape:
                        continue
                    self.escape[v] = c
                    if v in self.owner:
                        following.append(self.owner[v])
                    else:
                        last = rank
            rank, clauses = rank + 1, following
        return last

    def augment(self, c, rank, last):
        """Whether the clause, in the layer of this rank, can take another variable."""
        del self.layer[c]
        for v in self.clauses[c]:
            if rank == last:
                takes = v not in self.owner
            else:
                mate = self.owner.get(v)
                takes = self.layer.get(mate) == rank + 1 and self.augment(mate, rank + 1, last)
            if takes:
                self.give(c, v)
                return True
        return False


def document(variables, clauses):
    kept, owners, rows = [], {}, {}
    for positions in parts_of(clauses):
        part = Part([[abs(l) for l in clauses[p]] for p in positions])
        for c, p in enumerate(positions):
            if c in part.layer:
                kept.append(p)
            else:
                owners[p] = part.own[c]
        for v, c in part.escape.items():
            rows[v] = (positions[part.owner[v]] + 1, positions[c] + 1, part.layer[c])
    values = sorted((next(l for l in clauses[p] if abs(l) == v) for p, v in owners.items()), key=abs)
    kept.sort()
    lines = ["c leank 1 matching", f"c formula {variables} {len(clauses)}"]
    lines.append(" ".join(["c keep"] + [str(p + 1) for p in kept] + ["0"]))
    lines.append(" ".join(["c set"] + [str(l) for l in values] + ["0"]))
    lines += [f"c own {p + 1} {v}" for p, v in sorted(owners.items())]
    lines += [f"c row {v} {own} {escape} {rank}" for v, (own, escape, rank) in sorted(rows.items())]
    return "\n".join(lines + [spelled(variables, [clauses[p] for p in kept])])


def spelled(variables, clauses):
    """The text of a formula, without the end of its last line."""
    return formula_text(variables, clauses).decode().removesuffix("\n")


def script():
    """The formulas of the rows."""
    draw = random.Random(1)
    shapes = [beside(draw, 24, 40), equal(draw, 16, 30), small(draw, 40)]
    return [SMALL] + [draw_formula(seed) for seed in SEEDS] + shapes


def put_rows():
    for formula in script():
        written = spelled(*formula).replace("\n", "\\n")
        print(f"text f {written}\\n")
        for workers in WORKERS:
            print(f"run reduce matching f --workers {workers}")


def put_expected():
    for formula in script():
        for workers in WORKERS:
            print(f"== reduce matching f --workers {workers}\nstatus 0\n{document(*formula)}\n-- said")


def compare(leank, count, seed):
    differing = 0
    with tempfile.TemporaryDirectory() as folder:
        name = os.path.join(folder, "formula")
        for number in range(seed, seed + count):
            formula = draw_formula(number)
            with open(name, "w") as out:
                out.write(spelled(*formula) + "\n")
            words = [leank, "reduce", "matching", name, "--workers"]
            runs = [subprocess.run(words + [str(w)], stdout=subprocess.PIPE, text=True) for w in WORKERS]
            if {run.stdout for run in runs} != {document(*formula) + "\n"}:
                differing += 1
                print(f"c seed {number}, {len({run.stdout for run in runs})} documents\n{spelled(*formula)}")
    print(f"{count} formulas, {differing} with another document")
    return 1 if differing else 0


def compare_large(leank, count, seed):
    differing = 0
    with tempfile.TemporaryDirectory() as folder:
        name = os.path.join(folder, "formula")
        for number in range(seed, seed + count):
            with open(name, "w") as out:
                out.write(spelled(*draw_large(number)) + "\n")
            words = [leank, "reduce", "matching", name, "--workers"]
            runs = [subprocess.run(words + [str(w)], stdout=subprocess.PIPE) for w in WORKERS]
            if len({run.stdout for run in runs}) > 1 or {run.returncode for run in runs} != {0}:
                differing += 1
                print(f"seed {number}: {len({run.stdout for run in runs})} documents")
    print(f"{count} large formulas, {differing} with another document")
    return 1 if differing else 0


def main():
    words = CommandLine(__doc__)
    prints, compares = {"rows": put_rows, "expected": put_expected}, {"compare": (compare, 1000), "large": (compare_large, 40)}
    kind = words.one("kind", (*prints, *compares))
    if kind in prints:
        words.end()
        return prints[kind]()
    compared, most = compares[kind]
    given = words.program(), words.number("COUNT", most), words.number("SEED", 1)
    words.end()
    return compared(*given)


if __name__ == "__main__":
    sys.exit(main())
