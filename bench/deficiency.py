#!/usr/bin/env python3
"""Compares `deficiency` with all sets of clauses, over small drawn formulas.

    bench/deficiency.py LEANK [COUNT]
    bench/deficiency.py judge FORMULA TEXT

LEANK is the built program (`dist/leank`). The first compares COUNT drawn formulas
(by default 2,000) of at most 7 variables, and prints each difference with the name of a kept file; the status is 1 if there
is one. `judge` prints what is wrong with a text that tells the maximal deficiency of a formula, or `accepted`. Needs python3.

The deficiency of a set of clauses is the number of them less the number of variables that occur in them. The judge finds its
greatest value over all sets of clauses, one by one. The kernel for matching autarkies it finds by all sets of variables: a set
goes with all clauses that contain one of its variables, if these clauses can have one of them each, all different. So neither
is found by a matching of the whole formula, as leank does it.
"""
import os
import random
import re
import subprocess
import sys
import tempfile

from command_line import CommandLine
from formulas import drawn_clause, write
from judge import read_formula

SEED = 1
VARIABLES = 7
CLAUSES = 12

NUMBER = rb"[1-9][0-9]{0,6}"
TEXT = re.compile(rb"deficiency (0|%b)\nsubset ((?:%b )*)0\n((?:own %b %b\n)*)" % (NUMBER, NUMBER, NUMBER, NUMBER))


def masks_of(clauses):
    """The variables of each clause, as the bits of a number."""
    return [sum({1 << abs(l) for l in clause}) for clause in clauses]


def greatest_value(clauses):
    """The greatest number of clauses less occurring variables, over all sets of clauses; the empty set has 0."""
    masks, best = masks_of(clauses), 0
    occurring = [0]
    for chosen in range(1, 1 << len(masks)):
        last = chosen.bit_length() - 1
        occurring.append(occurring[chosen ^ 1 << last] | masks[last])
        best = max(best, bin(chosen).count("1") - bin(occurring[chosen]).count("1"))
    return best


def have_own(masks, within):
    """Whether each of these clauses can have a variable out of these for itself."""
    if not masks:
        return True
    free = masks[0] & within
    while free:
        variable = free & -free
        if have_own(masks[1:], within & ~variable):
            return True
        free ^= variable
    return False


def matching_kernel(variables, clauses):
    """The positions that no matching autarky touches."""
    masks, kept = masks_of(clauses), set(range(1, len(clauses) + 1))
    for chosen in range(0, 2 << variables, 2):
        touched = [p for p, mask in enumerate(masks, 1) if mask & chosen]
        if len(touched) <= bin(chosen).count("1") and have_own([masks[p - 1] for p in touched], chosen):
            kept.difference_update(touched)
    return sorted(kept)


def text_of(value, kept, own):
    """The text of a value, of positions, and of pairs of a position and a variable."""
    lines = [f"deficiency {value}", " ".join(map(str, ["subset", *kept, 0])), *(f"own {p} {v}" for p, v in own)]
    return "".join(line + "\n" for line in lines).encode()


def wrong_owners(clauses, value, own):
    """What is wrong with the pairs, or nothing."""
    positions, owned = [p for p, _ in own], [v for _, v in own]
    if any(a >= b for a, b in zip(positions, positions[1:])) or positions and positions[-1] > len(clauses):
        return "the positions do not ascend"
    if any(v not in map(abs, clauses[p - 1]) for p, v in own):
        return "a clause lacks its variable"
    if len(set(owned)) < len(owned):
        return "a variable stands twice"
    if len(own) + value != len(clauses):
        return "another number of clauses has no variable"
    return None


def judge(variables, clauses, text):
    """What is wrong with the text, or nothing."""
    parts = TEXT.fullmatch(text)
    if not parts:
        return "not such a text"
    value, kept = int(parts[1]), [int(word) for word in parts[2].split()]
    own = [tuple(map(int, line.split()[1:])) for line in parts[3].splitlines()]
    if value != greatest_value(clauses):
        return f"the greatest value is {greatest_value(clauses)}"
    if kept != matching_kernel(variables, clauses):
        return f"the kernel is {matching_kernel(variables, clauses)}"
    if len(kept) - len({abs(l) for p in kept for l in clauses[p - 1]}) != value:
        return "the subset has another value"
    return wrong_owners(clauses, value, own)


def drawn(draw):
    """A formula of few variables, of which some may not occur; empty clauses, equal ones, and both signs of a variable."""
    variables = draw.randrange(VARIABLES + 1)
    widths = draw.choice([(1, 1, 2), (1, 2, 2, 3), (2, 3), (3, 3, 4)])
    names = range(1, variables + 1)
    clauses = []
    for _ in range(draw.randrange(CLAUSES + 1)):
        clause = drawn_clause(draw, names, min(draw.choice(widths), variables))
        if clause and draw.random() < 0.1 and -clause[0] not in clause:
            clause.append(-clause[0])
        if draw.random() < 0.03:
            clause = []
        if clauses and draw.random() < 0.1:
            clause = draw.choice(clauses)
        clauses.append(clause)
    return variables, clauses


def judge_of(formula_text, text):
    """The same for the text of a formula."""
    formula = read_formula(formula_text)
    return judge(formula.n, list(formula.clause.values()), text)


def differs(leank, path):
    """What is wrong with what leank says of the formula in a file, or nothing."""
    ended = subprocess.run([leank, "deficiency", path], stdout=subprocess.PIPE, stderr=subprocess.PIPE)
    if ended.returncode or ended.stderr:
        return f"status {ended.returncode}, {ended.stderr.decode()!r}"
    with open(path, "rb") as formula:
        return judge_of(formula.read(), ended.stdout)


def compare(leank, count):
    draw, differences, folder = random.Random(SEED), 0, tempfile.mkdtemp()
    for number in range(count):
        path = os.path.join(folder, f"{number}.cnf")
        with open(path, "w") as out:
            write(out, *drawn(draw))
        wrong = differs(leank, path)
        if wrong:
            differences += 1
            print(f"{path}: {wrong}")
        else:
            os.remove(path)
    print(f"{count} formulas, {differences} differences")
    if not differences:
        os.rmdir(folder)
    return 1 if differences else 0


def main():
    words = CommandLine(__doc__)
    if words.takes("judge"):
        print(judge_of(*words.files("FORMULA", "TEXT")) or "accepted")
        return 0
    leank, count = words.program(), words.number("COUNT", 2000)
    words.end()
    return compare(leank, count)


if __name__ == "__main__":
    sys.exit(main())
