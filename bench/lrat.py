#!/usr/bin/env python3
"""Checks an LRAT proof that a formula has no model.

    bench/lrat.py FORMULA PROOF

It prints `accepted`, or `refused line L: TEXT` with the first line of the proof that is wrong; then its status is 1. Needs
python3. The format is that of L. Cruz-Filipe, M. Heule, W. Hunt, M. Kaufmann, P. Schneider-Kamp, "Efficient Certified RAT
Verification" (2017). RAT is left out: a negative hint is refused.

A line `ID LITERALS 0 HINTS 0` adds a clause. The literals of the clause are made false, and the hints are taken in their
order. Each but the last must be unit: one of its literals is unset, which becomes true, and the others are false. Of the
last one all literals must be false. A line `ID d IDS 0` deletes clauses. The last line of a proof adds the empty clause.

This is stricter than the format. A literal that a clause of the formula has twice is unset twice. An added clause has
no variable twice, and none past those of the formula. Behind a hint that is false there is none, and behind the empty clause
no line. What is deleted must be there. The words are numbers in their shortest spelling, with one space between two.
"""
import re
import sys

from command_line import CommandLine

NUMBER = rb"-?[1-9][0-9]*"
LINE = re.compile(rb"([1-9][0-9]*) (?:d |((?:%b )*)0 )((?:%b )*)0" % (NUMBER, NUMBER))


class Refused(Exception):
    """Why a line of a proof is wrong."""


def read_formula(text):
    """The number of variables and the clauses of a text of DIMACS, each with its literals as they are written."""
    lines = [words for words in map(bytes.split, text.split(b"\n")) if words and words[0][:1] != b"c"]
    if not lines or lines[0][:2] != [b"p", b"cnf"]:
        raise ValueError("no header")
    ended = next((k for k, words in enumerate(lines) if words[0][:1] == b"%"), len(lines))
    clauses, clause = [], []
    for number in [int(word) for words in lines[1:ended] for word in words]:
        if number:
            clause.append(number)
        else:
            clauses.append(clause)
            clause = []
    if clause:
        clauses.append(clause)
    if len(clauses) != int(lines[0][3]):
        raise ValueError("another number of clauses")
    return int(lines[0][2]), clauses


def check_literals(literals, variables):
    """Refuses literals that are no clause over these variables."""
    if len(set(map(abs, literals))) < len(literals):
        raise Refused("a variable occurs twice")
    if any(abs(literal) > variables for literal in literals):
        raise Refused("a variable is past those of the formula")


def check_hints(clauses, literals, hints):
    """Refuses hints that do not show the clause of these literals."""
    false, is_shown = set(literals), False
    for hint in hints:
        if is_shown:
            raise Refused(f"hint {hint} stands behind a false one")
        if hint not in clauses:
            raise Refused(f"hint {hint} is no clause")
        others = [literal for literal in clauses[hint] if literal not in false]
        if len(others) > 1 or others and -others[0] in false:
            raise Refused(f"hint {hint} is not unit")
        false.update(-literal for literal in others)
        is_shown = not others
    if not is_shown:
        raise Refused("no hint is false")


class Proof:
    """The clauses that are there behind some lines of a proof."""

    def __init__(self, variables, clauses):
        self.variables, self.clauses = variables, dict(enumerate(clauses, 1))
        self.last, self.is_done = len(clauses), False

    def take(self, line):
        """Goes on with this line, or refuses it."""
        found = LINE.fullmatch(line)
        if found is None:
            raise Refused("it is not one of a proof")
        if self.is_done:
            raise Refused("it stands behind the empty clause")
        numbers = list(map(int, found[3].split()))
        if found[2] is None:
            self.delete(numbers)
        else:
            self.add(int(found[1]), list(map(int, found[2].split())), numbers)

    def delete(self, numbers):
        for number in numbers:
            if self.clauses.pop(number, None) is None:
                raise Refused(f"{number} is no clause")

    def add(self, number, literals, hints):
        if number <= self.last:
            raise Refused(f"{number} is not above {self.last}")
        check_literals(literals, self.variables)
        check_hints(self.clauses, literals, hints)
        self.clauses[number], self.last, self.is_done = literals, number, not literals


def fault(formula, text):
    """The first wrong line of a proof's text, and why it is wrong; or None."""
    proof = Proof(*formula)
    lines = text.split(b"\n")
    for place, line in enumerate(lines[:-1], 1):
        try:
            proof.take(line)
        except Refused as why:
            return place, str(why)
    if lines[-1] or not proof.is_done:
        return len(lines), "the line does not end" if lines[-1] else "the empty clause is missing"
    return None


def main():
    words = CommandLine(__doc__)
    formula, proof = words.files("FORMULA", "PROOF")
    found = fault(read_formula(formula), proof)
    print(f"refused line {found[0]}: {found[1]}" if found else "accepted")
    sys.exit(found is not None)


if __name__ == "__main__":
    main()
