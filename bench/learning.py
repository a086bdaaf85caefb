#!/usr/bin/env python3
"""Measures clause learning beside minisat, in conflicts a second of the processor, each by its own count.

    bench/learning.py TEST_SEARCH [KIND ...]

TEST_SEARCH is the built program (crates/test_search/out has it after the gate, or after `rt run` there), and KIND the name of a
formula. Clause learning stops after 1,000 conflicts, after 20,000, and on two formulas after 100,000; a cell says where it found an
answer before. A cell has its rate as a fraction of minisat's in two seconds; each rate is the best of three runs, or that of one
that takes over five seconds. Memory is how much more the program holds at most than with a budget of one conflict, for each literal
of the learned clauses. A run ends after 60 seconds. Needs Debian's packages minisat and time. Nothing fails by time.
"""
import os
import random
import re
import signal
import tempfile
from collections import namedtuple

from command_line import CommandLine
from formulas import adders, counter, machine, parity, pebbles, pigeons, random_three, write
from runs import RUNS, Command, apart, by_turns, run
from tables import NOTHING, PrintedTable, seconds, text_of

SEED = 1
TIME = "/usr/bin/time"
MOST_SECONDS, MINISAT_SECONDS = 60, 2
# The statuses by which GNU time says that a run was stopped.
STOPPED = tuple(128 + it for it in (signal.SIGXCPU, signal.SIGKILL))
BUDGETS = (1000, 20000, 100000)

KINDS = {
    "random, 200 variables": lambda draw: random_three(draw, 200),
    "pigeons, 9 holes": lambda draw: pigeons(9),
    "parity, 300 variables": lambda draw: parity(draw, 300),
    "pebbles, 60 rows": lambda draw: pebbles(60),
    "machine, 64 registers over 36 steps": lambda draw: machine(draw, 64, 36),
    "adders, 40 bits": lambda draw: adders(40),
    "counter, 12 bits over 200 steps": lambda draw: counter(12, 200),
}
# Those that get the greatest budget.
LONG_KINDS = ("random, 200 variables", "pigeons, 9 holes")


# Seconds of the processor, bytes that are held at most, the steps, and how many literals their clauses have.
Found = namedtuple("Found", "seconds held steps literals")


def write_formula(kind, name):
    with open(name, "w") as out:
        write(out, *KINDS[kind](random.Random(SEED)))


def learned(program, path, budget):
    """What is found with this budget, or none if the run was stopped. GNU time reports the bytes, since for a child of this process
    those count that this one holds."""
    with open(path("asked"), "w") as out:
        out.write(f"@ sizes\n{budget} {path('formula')}\n")
    command = Command([TIME, "-f", "%M", "-o", path("held"), program], path("said"), path("asked"), (0, *STOPPED))
    took = by_turns({"": command}, MOST_SECONDS)[""]
    if took.status in STOPPED:
        return None
    _, steps, literals = text_of(path("said")).splitlines()[-1].split()
    return Found(took.processor, int(text_of(path("held"))) * 1024, int(steps), int(literals))


def searches(program, path, budgets):
    """What is found with each budget, up to the first one that is enough for an answer."""
    for budget in budgets:
        found = learned(program, path, budget)
        if found and found.steps > 0:
            yield budget, found
        if not found or found.steps < budget:
            return


def minisat_rate(path):
    """The most conflicts a second."""
    rates = []
    for _ in range(RUNS):
        took = run(Command(["minisat", "-no-pre", f"-cpu-lim={MINISAT_SECONDS}", path("formula")], path("said"))).processor
        rates.append(int(re.search(r"conflicts\s*:\s*(\d+)", text_of(path("said"))).group(1)) / took)
    return max(rates)


def row_of(kind, program, path):
    """The cells of a formula."""
    rate, first = minisat_rate(path), learned(program, path, 1)
    cells, bytes_each = dict.fromkeys(BUDGETS, NOTHING), NOTHING
    for budget, found in searches(program, path, BUDGETS if kind in LONG_KINDS else BUDGETS[:-1]):
        cells[budget] = seconds(found.steps / found.seconds / rate) + (f", at {found.steps:,}" if found.steps < budget else "")
        bytes_each = f"{(found.held - first.held) / found.literals:.0f}"
    return *cells.values(), bytes_each


def main():
    words = CommandLine(__doc__)
    program, kinds = words.program("TEST_SEARCH"), words.some("KIND", KINDS)
    words.needs("minisat", TIME)
    table = PrintedTable("learning", "formula", *(f"at {budget:,} conflicts" for budget in BUDGETS), "bytes")
    with tempfile.TemporaryDirectory() as folder:
        path = lambda name: os.path.join(folder, name)
        for kind in kinds:
            apart(write_formula, kind, path("formula"))
            table.add(kind, *row_of(kind, program, path))


if __name__ == "__main__":
    main()
