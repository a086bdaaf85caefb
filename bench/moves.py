#!/usr/bin/env python3
"""Moves on a propagator that a seed draws, and how they end by a scan of all clauses again and again.

    bench/moves.py draw COUNT
    bench/moves.py < ROWS

The first writes the rows of test_search for the seeds below COUNT: over six variables a move `settle`, eight clauses
that are added, and 52 moves more. The second writes what test_search is to print for such rows: a row, and each answer.
Moves are described in crates/test_search/src/words.rt. `behind L` adds the clause of the first true literal: of one that
is forced where nothing is assigned, which changes nothing, or else of the first that was assigned.
"""
import sys

from command_line import CommandLine
from formulas import Samples

VARS, MOVES = 6, 60


def drawn_literals(draw):
    """The literals of a clause, none twice and no two of one variable."""
    lits = []
    for _ in range(draw.below(4) + 1):
        l = draw.literal(VARS)
        if l not in lits and -l not in lits:
            lits.append(l)
    return lits


def drawn_move(draw, kind):
    if kind == 0:
        return "add " + " ".join(map(str, drawn_literals(draw)))
    if kind == 1:
        return f"retract {draw.below(3)}"
    if kind == 2:
        return f"behind {draw.literal(VARS)}"
    if kind in (3, 4):
        return f"assign {draw.literal(VARS)}"
    return "settle"


def row(seed):
    draw = Samples(seed)
    moves = ["settle"]
    for place in range(MOVES):
        moves.append(drawn_move(draw, 0 if place < 8 else draw.below(8)))
    return f"case | drawn from {seed} | {VARS} | | | | {'; '.join(moves)}"


class Scanned:
    """Clauses, the literals that were assigned, and what stands first: a literal that was assigned, 0 for one that is
    forced where nothing is assigned, or None."""

    def __init__(self):
        self.clauses, self.chosen, self.first = [], [], None

    def forced(self):
        """The true literals, or None where a clause is false."""
        lits, more = set(self.chosen), True
        while more:
            more = False
            for clause in self.clauses:
                left = [l for l in clause if -l not in lits]
                if not left:
                    return None
                if len(left) == 1 and left[0] not in lits:
                    lits.add(left[0])
                    more = True
        return lits

    def settle(self):
        lits = self.forced()
        if lits and not self.chosen:
            self.first = 0
        return lits

    def opens(self, l):
        lits = self.settle()
        return lits is not None and l not in lits and -l not in lits

    def assign(self, l):
        if self.first is None:
            self.first = l
        self.chosen.append(l)

    def move(self, word, numbers):
        if word == "settle":
            lits = self.settle()
            return "conflict" if lits is None else "".join(f" {l}" for l in sorted(lits, key=abs))
        if word == "add":
            self.clauses.append(numbers)
            return "true"
        if word == "retract":
            if numbers[0] > len(self.chosen):
                return "false"
            del self.chosen[numbers[0]:]
            if not self.chosen and self.first != 0:
                self.first = None
            return "true"
        if not self.opens(numbers[0]):
            return "false"
        if word == "behind" and self.first:
            self.clauses.append([self.first])
        self.assign(numbers[0])
        return "true"


def answers(line):
    _, name, _, _, _, _, moves = (part.strip() for part in line.split("|"))
    scanned = Scanned()
    yield line
    yield f"== {name}"
    for text in moves.split(";"):
        word, *numbers = text.split()
        yield scanned.move(word, list(map(int, numbers)))


def main():
    words = CommandLine(__doc__)
    count = words.number("COUNT") if words.takes("draw") else None
    words.end()
    for seed in range(count or 0):
        print(row(seed))
    for line in sys.stdin if count is None else ():
        for answer in answers(line.rstrip("\n")):
            print(answer)


if __name__ == "__main__":
    main()
