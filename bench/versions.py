#!/usr/bin/env python3
"""Compares what two programs write and read: that of a release, and the one before.

    bench/versions.py LEANK OLD_LEANK [COUNT [SEED]]

Both are built programs. COUNT formulas are drawn, by default 150, of the kinds of comparing.py. What a formula determines has to
be the same: the kept clauses of each class, all that `report` and `edits` write, what `deficiency` says but for its owners, and
whether there is a model. It is not compared where a budget is used up, or where the rows of `reduce linear` grow too wide. Each
of the two has to accept the documents and answers of the other, or to find them unfinished. Each difference is printed, and the
status is 1 if there is one. How many texts have other bytes is told. Needs python3.
"""
import os
import random
import subprocess
import sys
import tempfile
from collections import namedtuple

from command_line import CommandLine
from comparing import DRAWN
from edits import drawn_lines
from formulas import formula_text

SEED = 1
EDITS = 20
SHOWN = 100
# Budgets that are enough for most formulas, and others.
PIVOTS, CONFLICTS, FEW = "300", "3000", ("1", "2", "5", "50")
ACCEPTED, UNFINISHED, TOO_WIDE, TOO_LARGE = 0, 5, 6, 7
# What a formula determines of the text of each command.
DETERMINED = {
    "reduce": lambda text: [line for line in text.split(b"\n") if line.startswith(b"c keep ")],
    "deficiency": lambda text: text.split(b"\n")[:2],
    "report": lambda text: text,
    "edits": lambda text: text,
    "solve": lambda text: None,
    "mus": lambda text: None,
}

Ended = namedtuple("Ended", "status text")


def commands(draw, variables):
    """The words of each command."""
    some = [draw.randint(1, variables) for _ in range(draw.choice((0, 0, 1, 3)))] if variables else []
    protect = ["--protect", ",".join(map(str, some))] if some else []
    yield ["reduce", "pure", "formula", *protect]
    yield ["reduce", "matching", "formula", *protect]
    yield ["reduce", "linear", "formula", "--pivots", PIVOTS, *protect]
    for conflicts in (CONFLICTS, draw.choice(FEW)):
        yield ["reduce", "general", "formula", "--conflicts", conflicts, *protect]
        yield ["solve", "formula", "--conflicts", conflicts]
        yield ["mus", "formula", "--conflicts", conflicts]
    yield ["report", "formula"]
    yield ["deficiency", "formula"]
    yield ["edits", "formula", "edits"]


class Comparison:
    """What two programs do in a folder, and how often it differs."""

    def __init__(self, programs, folder):
        self.programs, self.folder = programs, folder
        self.texts = self.others = self.differences = 0

    def run(self, program, *words):
        done = subprocess.run([program, *words], cwd=self.folder, stdout=subprocess.PIPE, stderr=subprocess.DEVNULL)
        return Ended(done.returncode, done.stdout)

    def expect(self, holds, what):
        if not holds:
            self.differences += 1
            print(what)

    def put(self, name, text):
        with open(os.path.join(self.folder, name), "wb") as out:
            out.write(text)

    def compare(self, told, words):
        found = [self.run(program, *words) for program in self.programs]
        told = f"{told}: {' '.join(words)}"
        self.texts += 1
        self.others += found[0].text != found[1].text
        if {UNFINISHED, TOO_WIDE, TOO_LARGE}.isdisjoint(it.status for it in found):
            ours, theirs = ((it.status, DETERMINED[words[0]](it.text)) for it in found)
            self.expect(ours == theirs, f"{told}: {str(ours)[:SHOWN]}, the old program {str(theirs)[:SHOWN]}")
        if words[0] in ("reduce", "solve", "mus"):
            for written, reader in zip(found, reversed(self.programs)):
                self.read(told, words[0], written, reader)

    def read(self, told, command, written, reader):
        """What the other program says of a text that one wrote. An unfinished document of `mus` is its own formula."""
        if not written.text:
            return
        self.put("text", written.text)
        is_unfinished = written.status == UNFINISHED
        word = "check" if is_unfinished or command == "reduce" else "verify"
        formula = "text" if is_unfinished and command == "mus" else "formula"
        said = self.run(reader, word, formula, "text")
        wanted = UNFINISHED if is_unfinished else ACCEPTED
        self.expect(said.status == wanted, f"{told}: {word} by {reader} ends with {said.status}, not {wanted}")


def main():
    words = CommandLine(__doc__)
    programs = words.program(), words.program("OLD_LEANK")
    count, first = words.number("COUNT", 150), words.number("SEED", SEED)
    words.end()
    with tempfile.TemporaryDirectory() as folder:
        comparison = Comparison(programs, folder)
        for number in range(first, first + count):
            kind, draw = list(DRAWN)[number % len(DRAWN)], random.Random(number)
            variables, clauses = DRAWN[kind](draw)
            comparison.put("formula", formula_text(variables, clauses))
            comparison.put("edits", "\n".join(drawn_lines(draw, variables, clauses, EDITS, (1, 2, 2, 3))).encode())
            for command in commands(draw, variables):
                comparison.compare(f"seed {number}, {kind}", command)
    print(f"{count} formulas, {comparison.texts} texts, {comparison.others} of other bytes, {comparison.differences} differences")
    return 1 if comparison.differences else 0


if __name__ == "__main__":
    sys.exit(main())
