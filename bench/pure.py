#!/usr/bin/env python3
"""Measures reading, `reduce pure` and `check` of its document beside a plain program in C++ that does the same over flat tables,
and reading beside cadical's too.

    bench/pure.py LEANK [KIND ...]

LEANK is the built program (`dist/leank`), and KIND the name of a formula. Seconds are those of the processor, cadical's by its own
count; each is the least of three runs by turns, or that of one run that takes over five seconds. Both programs write the same
bytes, or the status is 1. Needs g++, and Debian's package cadical. Nothing fails by time.
"""
import filecmp
import os
import random
import re
import sys
import tempfile

import commands
from command_line import CommandLine
from runs import LONG_SECONDS, RUNS, Command, apart, built, by_turns, megabytes, run
from tables import PrintedTable, beside, seconds, text_of

LARGE = "random, 1,000,000 variables, 4,000,000 clauses"
LITERALS = {LARGE: 12000000, **{name: kind.literals for name, kind in commands.KINDS.items()}}
PLAIN = "plain"


def large_clauses(draw):
    variables = range(1, 1000001)
    signs = ("", "-")
    for _ in range(4000000):
        yield [draw.choice(signs) + str(v) for v in draw.sample(variables, 3)]


def write(kind, formula, model):
    if kind != LARGE:
        return commands.write(kind, formula, model)
    with open(formula, "w") as out:
        out.write("p cnf 1000000 4000000\n")
        out.writelines(" ".join(clause) + " 0\n" for clause in large_clauses(random.Random(commands.SEED)))


def pairs_of(leank, plain, path):
    """Of each column the commands of both programs, leank's first."""
    formula, document = path("formula"), path("document")
    pairs = {
        "reading": (Command([leank, "check", formula, path("bad")], statuses=(2,)), Command([plain, "read", formula])),
        "`reduce pure`": (Command([leank, "reduce", "pure", formula], document, statuses=(0,)),
                          Command([plain, "reduce", formula], path("same"))),
        "`check`": (Command([leank, "check", formula, document], statuses=(0,)), Command([plain, "check", formula, document])),
    }
    return {name: {"leank": ours, PLAIN: theirs._replace(statuses=(0,))} for name, (ours, theirs) in pairs.items()}


def cadical_seconds(formula, path):
    """The least seconds in which cadical parses a formula, by its own count."""
    parsing, found = Command(["cadical", "-c", "0", formula], path("parsed")), []
    for _ in range(RUNS):
        took = run(parsing)
        found.append(float(re.search(r"parsed \d+ clauses in ([\d.]+) seconds", text_of(parsing.output)).group(1)))
        if took.clock > LONG_SECONDS:
            break
    return min(found)


def main():
    words = CommandLine(__doc__)
    leank, kinds = words.program(), words.some("KIND", LITERALS)
    words.needs("g++", "cadical")
    with tempfile.TemporaryDirectory() as folder:
        path = lambda name: os.path.join(folder, name)
        with open(path("bad"), "w") as out:
            out.write("x\n")
        pairs = pairs_of(leank, built(folder, "pure_strip.cpp"), path)
        table = PrintedTable("pure", "formula", "literals", "reading", "cadical's", "`reduce pure`", "`check`", "MB",
                             "MB of the plain one")
        for kind in kinds:
            apart(write, kind, path("formula"), path("model"))
            found = {name: by_turns(pair) for name, pair in pairs.items()}
            if not filecmp.cmp(path("document"), path("same"), shallow=False):
                sys.exit(f"{kind}: the documents differ")
            read, reduced, checked = (beside(pair["leank"].processor, pair[PLAIN].processor) for pair in found.values())
            parsed = seconds(cadical_seconds(path("formula"), path))
            memory = (megabytes(it.memory) for it in found["`reduce pure`"].values())
            table.add(kind, f"{LITERALS[kind]:,}", read, parsed, reduced, checked, *memory)


if __name__ == "__main__":
    main()
