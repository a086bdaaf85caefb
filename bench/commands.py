#!/usr/bin/env python3
"""Measures the commands beside reading the same files, and `report` beside a plain program in C++ that writes the same lines.

    bench/commands.py LEANK [KIND ...]

LEANK is the built program (`dist/leank`), and KIND the name of a formula. Seconds are those of the clock, the least of three runs
by turns. Reading is measured by leank itself, which reads its inputs in their order and stops at one that is bad. Needs g++.
The status is 1 if the reports differ. Nothing fails by time.
"""
import filecmp
import os
import random
import sys
import tempfile
from collections import namedtuple

from command_line import CommandLine
from formulas import implications, planted_clauses, write as write_formula
from runs import Command, apart, built, by_turns
from tables import PrintedTable, beside, seconds, times

SEED = 1

# How many literals a formula has, and what makes one of its models and its clauses.
Kind = namedtuple("Kind", "literals make")
KINDS = {
    "random, 300,000 variables, 250,000 clauses of three literals":
        Kind(750000, lambda draw: planted_clauses(draw, 300000, 250000)),
    "random, 200,000 variables, 800,000 clauses": Kind(2400000, lambda draw: planted_clauses(draw, 200000, 800000)),
    "implications along 1,000,000 variables": Kind(1999998, lambda draw: (range(1, 1000001), list(implications(1000000)))),
}


def write(kind, formula, model):
    """Writes a formula, and a model of it as a solver prints one."""
    literals, clauses = KINDS[kind].make(random.Random(SEED))
    with open(formula, "w") as out:
        write_formula(out, len(literals), clauses)
    with open(model, "w") as out:
        out.write("s SATISFIABLE\n")
        out.writelines(f"v {literal}\n" for literal in sorted(literals, key=abs))
        out.write("v 0\n")


def commands_of(leank, plain, path):
    """What is measured, by names. A document is written before it is read."""
    formula, model, bad = path("formula"), path("model"), path("bad")
    commands = {
        "reading": Command([leank, "check", formula, bad], statuses=(2,)),
        "report": Command([leank, "report", formula], path("ours"), statuses=(0,)),
        "plain": Command([plain, formula], path("theirs"), statuses=(0,)),
    }
    for name in ("pure", "matching"):
        document = path(name)
        commands |= {
            name: Command([leank, "reduce", name, formula], document, statuses=(0,)),
            f"both, {name}": Command([leank, "extend", formula, document, bad], statuses=(2,)),
            f"check, {name}": Command([leank, "check", formula, document], statuses=(0,)),
            f"extend, {name}": Command([leank, "extend", formula, document, model], statuses=(0,)),
        }
    return commands


def to_reading(found):
    """The least and the greatest ratio of `check` and `extend` to reading the formula and the document."""
    ratios = [times(found[f"{word}, {name}"].clock, found[f"both, {name}"].clock)
              for word in ("check", "extend") for name in ("pure", "matching")]
    return f"{seconds(min(ratios))} to {seconds(max(ratios))}"


def main():
    words = CommandLine(__doc__)
    leank, kinds = words.program(), words.some("KIND", KINDS)
    words.needs("g++")
    with tempfile.TemporaryDirectory() as folder:
        path = lambda name: os.path.join(folder, name)
        with open(path("bad"), "w") as out:
            out.write("v x\n")
        commands = commands_of(leank, built(folder, "report.cpp"), path)
        table = PrintedTable("commands", "formula", "reading", "`reduce pure`", "`reduce matching`", "`report`",
                             "`check`, `extend`, to reading")
        for kind in kinds:
            apart(write, kind, path("formula"), path("model"))
            found = by_turns(commands)
            if not filecmp.cmp(path("ours"), path("theirs"), shallow=False):
                sys.exit(f"{kind}: the reports differ")
            one = {name: seconds(found[name].clock) for name in ("reading", "pure", "matching")}
            table.add(kind, *one.values(), beside(found["report"].clock, found["plain"].clock), to_reading(found))


if __name__ == "__main__":
    main()
