#!/usr/bin/env python3
"""Judges the rounds that test_search and test_parts print for their rows.

    bench/search_rows.py ROWS PRINTED

ROWS is `stdin` of the crate and PRINTED its `stdout`. What is printed for a row is written as a document of the row's clauses,
finished or not, and judge.py judges it. Besides, each round of a finished one blocks a new variable, each of its steps
is learned or empty, and over few variables what it keeps is found by trying all partial assignments too. Where a row is of some
of its clauses, each other one is given a variable of its own, which is made true. Needs python3.
"""
import itertools
import re
import sys

import judge
from command_line import CommandLine
from formulas import formula_text

# The scripts that have such rows, by the words of their head lines, and the rows.
SCRIPTS = ("parts", "general")
ROWS = ("kernel", "general", "general-workers", "alone")
FEW = 8


def listed(word, *numbers):
    return " ".join(map(str, ["c", *word.split(), *numbers, 0]))


def clauses_of(row):
    """The number of variables and the clauses of a row, and the positions that it is about, or all."""
    words, texts, *part = [word.strip() for word in row.split(";")]
    clauses = [[int(l) for l in text.split() if l != "0"] for text in texts.split(",")] if texts else []
    is_part = words.startswith("alone") or words.startswith("kernel") and part and part[0]
    positions = set(map(int, part[0].split())) if is_part else set(range(1, len(clauses) + 1))
    variables = max([int(words.split()[1]), *(abs(l) for clause in clauses for l in clause)])
    own = []
    for p in sorted(set(range(1, len(clauses) + 1)) - positions):
        variables += 1
        own.append(variables)
        clauses[p - 1] = [variables]
    return variables, clauses, own


def step_line(line):
    found = re.fullmatch(r"= step (\d+):((?: -?\d+)*) by (\d+)((?: on -?\d+ with \d+)*)", line)
    if not found:
        raise ValueError(f"no step: {line}")
    turns = re.findall(r"-?\d+", found[4])
    return listed(f"step {found[1]}", *found[2].split(), 0, found[3], *turns)


def document(row, printed):
    """The formula of a row and the text of the document that its lines tell, or None if they tell of no rounds."""
    variables, clauses, own = clauses_of(row)
    ends = [line for line in printed if line == "= unfinished" or line.startswith("= kept")]
    if any(" rounds: " in line for line in printed) or not ends and "= round" not in printed:
        return None
    if len(ends) != 1:
        raise ValueError("no end, or more than one")
    rounds = ["c round" if line == "= round" else step_line(line) for line in printed if re.match("= (round|step)", line)]
    size = f"c formula {variables} {len(clauses)}"
    if ends == ["= unfinished"]:
        learned = sum(1 for line in printed if re.match(r"= step \d+: -?\d", line))
        head, positions = ["c leank 1 unfinished", size, f"c learned {learned}"], range(1, len(clauses) + 1)
    else:
        positions = [int(p) for p in re.search(r"\[(.*)\]", ends[0])[1].split(",") if p]
        literals = sorted([*map(int, ends[0].split("set")[1].split()), *own], key=abs)
        head = ["c leank 1 general", size, listed("keep", *positions), listed("set", *literals)]
    body = [" ".join(map(str, [*dict.fromkeys(clauses[p - 1]), 0])) for p in positions]
    lines = [*head, *rounds, f"p cnf {variables} {len(body)}", *body]
    return formula_text(variables, clauses), "".join(line + "\n" for line in lines).encode()


def lean(clauses):
    """The positions that no autarky touches, by all partial assignments."""
    variables = sorted({abs(l) for clause in clauses for l in clause})
    kept = set(range(1, len(clauses) + 1))
    for values in itertools.product((0, 1, -1), repeat=len(variables)):
        true = {v * s for v, s in zip(variables, values) if s}
        touched = {p for p in kept if any(l in true or -l in true for l in clauses[p - 1])}
        if all(true & set(clauses[p - 1]) for p in touched):
            kept -= touched
    return sorted(kept)


def wrong(formula_text, text):
    """What is wrong with a document, or nothing."""
    line, fault, status = judge.check(formula_text, text)
    if status == 5:
        return None
    if status != 0:
        return line or fault
    formula, found = judge.read_formula(formula_text), judge.read_document(text)
    blocked = [len(variables) for _, variables in judge.rounds_and_blocked(formula, found)]
    if not judge.rises(blocked):
        return "a round blocks nothing"
    if any(judge.not_learned(formula, found)):
        return "a step is not learned"
    clauses = list(formula.clause.values())
    if len({abs(l) for clause in clauses for l in clause}) <= FEW and found.keep != lean(clauses):
        return f"the kernel is {lean(clauses)}"
    return None


def rows_of(text):
    """The lines of a script with such rows, or of a file without head lines: each other one, with the lines `=` behind it."""
    is_judged, rows = True, []
    for line in text.decode().splitlines():
        if line.startswith("@ "):
            is_judged = line[2:] in SCRIPTS
        elif is_judged and line.startswith("="):
            rows[-1][1].append(line)
        elif is_judged:
            rows.append((line, []))
    return rows


def main():
    words = CommandLine(__doc__)
    rows, printed = words.files("ROWS", "PRINTED")
    given, judged, faults = {row for row, _ in rows_of(rows) if row.split(" ")[0] in ROWS}, 0, 0
    for row, lines in rows_of(printed):
        try:
            texts = document(row, lines) if row in given else None
            fault = texts and wrong(*texts)
        except (ValueError, IndexError) as error:
            texts, fault = row, error
        judged += texts is not None
        if fault:
            faults += 1
            print(f"{row}: {fault}", *lines, sep="\n    ")
    print(f"{judged} judged, {faults} wrong")
    return 1 if faults else 0


if __name__ == "__main__":
    sys.exit(main())
