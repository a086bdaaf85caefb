#!/usr/bin/env python3
"""Measures `solve` beside minisat, cadical and picosat, and `verify` beside reading what it reads.

    bench/solving.py LEANK [GROUP] [KIND ...]

LEANK is the built program (`dist/leank`). GROUP is `families`, `formulas`, `circuits` or `parts`; without it all are measured. KIND
is the name of a family or a formula. A run ends after 60 seconds of the processor, and `solve` may learn as many clauses as it
wants. Each figure is the least of three runs by turns, or of one run that takes over five seconds (in `families` one second).
Seconds are those of the processor; in `parts`, where several workers are at work, those of the clock. A ratio takes less than 5
milliseconds as 5, and a mean ratio is the geometric one where both answer, with the least and the greatest. Nothing fails by time;
the status is 1 if two programs have different answers, or judge.py refuses one.

| group | what is measured |
|---|---|
| `families` | how many formulas of a family each program answers, and the mean ratio of `solve` to each other one |
| `formulas` | drawn and built formulas that take leank or minisat over 0.1 seconds; `verify` has its ratio to reading |
| `circuits` | the same of formulas that yosys and abc write |
| `parts` | formulas of many parts, by one worker, two and four |

Reading is `verify` of the same answer without its last byte: it reads the formula and the whole answer, and refuses the last line.
judge.py judges each answer of at most 2 MB. What each formula of a family takes stands on standard error. Needs Debian's packages
minisat and cadical; `families` needs picosat, and `circuits` yosys and berkeley-abc too.
"""
import filecmp
import os
import random
import subprocess
import sys
import tempfile

import tool_formulas
from command_line import CommandLine
from formulas import (adders, colouring, counter, factors, filled_square, machine, parities_of_graph, parity, pebbles,
                      pigeons, planted_three, progressions, queens, ramsey, random_three, round_trip, shuffled,
                      side_by_side, square, two_sums, write)
from runs import Command, apart, by_turns, megabytes, size_of
from tables import NOTHING, PrintedTable, beside, mean_ratio, seconds

JUDGE = os.path.join(os.path.dirname(os.path.abspath(__file__)), "judge.py")
SEED = 1
MOST_SECONDS = 60
# What takes longer runs once in a family, and what takes less is not in the mean of those that take long.
LONG_IN_FAMILY, LONG = 1, 0.1
JUDGED_BYTES = 2 << 20
BUDGET = str(2**63 - 1)
MODEL, NO_MODEL = 10, 20
OTHERS = ("minisat", "cadical", "picosat")
WORKERS = ("1", "2", "4")

FORMULAS = {
    "random, 100 variables": lambda draw: random_three(draw, 100),
    "random, 150 variables": lambda draw: random_three(draw, 150),
    "random, 200 variables": lambda draw: random_three(draw, 200),
    "random, 250 variables": lambda draw: random_three(draw, 250),
    "random, 400 variables, 3.6 clauses for each": lambda draw: random_three(draw, 400, 3.6),
    "pigeons, 7 holes": lambda draw: pigeons(7),
    "pigeons, 8 holes": lambda draw: pigeons(8),
    "pigeons, 9 holes": lambda draw: pigeons(9),
    "parity, 40 variables": lambda draw: parity(draw, 40),
    "parity, 60 variables": lambda draw: parity(draw, 60),
    "parity, 300 variables": lambda draw: parity(draw, 300),
    "pebbles, 60 rows": lambda draw: pebbles(60),
    "pebbles, 40 rows, shuffled": lambda draw: shuffled(draw, *pebbles(40)),
    "machine, 30 registers over 15 steps": lambda draw: machine(draw, 30, 15),
    "machine, 64 registers over 36 steps": lambda draw: machine(draw, 64, 36),
    "adders, 10 bits": lambda draw: adders(10),
    "adders, 40 bits": lambda draw: adders(40),
    "adders, 128 bits": lambda draw: adders(128),
    "counter, 10 bits over 100 steps": lambda draw: counter(10, 100),
    "counter, 12 bits over 200 steps": lambda draw: counter(12, 200),
}
CIRCUITS = {**tool_formulas.KINDS, **tool_formulas.LARGE_KINDS}


def drawn(make, *sizes, number=1):
    """Drawers of so many formulas of each of these sizes, each with a seed of its own."""
    return [(" ".join(map(str, size)), seed, lambda draw, size=size: make(draw, *size))
            for size in sizes for seed in range(1, number + 1)]


def built(make, *sizes):
    """Drawers of one formula of each size, in which nothing is drawn."""
    return drawn(lambda draw, *size: make(*size), *sizes)


def shuffled_of(make, *sizes):
    """The same with numbers and clauses in a drawn order."""
    return drawn(lambda draw, *size: shuffled(draw, *make(*size)), *sizes)


FAMILIES = {
    "random, 100 variables": drawn(random_three, (100,), number=10),
    "random, 125 variables": drawn(random_three, (125,), number=10),
    "random, 150 variables": drawn(random_three, (150,), number=10),
    "random, 175 variables": drawn(random_three, (175,), number=5),
    "random, 200 variables": drawn(random_three, (200,), number=5),
    "random, 225 variables": drawn(random_three, (225,), number=3),
    "random, 250 variables": drawn(random_three, (250,), number=2),
    "random with a model": drawn(planted_three, (150,), (200,), (200, 6), (400, 8), number=2),
    "pigeons": built(pigeons, (7,), (8,), (9,)),
    "pigeons, shuffled": shuffled_of(pigeons, (7,), (8,), (9,)),
    "two sums": drawn(two_sums, (20,), (30,), (40,)),
    "sums at the points of a graph": drawn(parities_of_graph, (16,), (24,), (32,)),
    "random sums": drawn(parity, (40, -4), (40, 4), (60, -6), (60, 6), (80, -8), (80, 8)),
    "pebbles, shuffled": shuffled_of(pebbles, (10,), (20,), (40,)),
    "adders": built(adders, (8,), (16,), (32,)),
    "adders, shuffled": shuffled_of(adders, (8,), (16,), (32,)),
    "colouring": drawn(colouring, (100, 2.2), (200, 2.2), (100, 2.6), (80, 4.2, 4), (100, 4.5, 4)),
    "factors": built(factors, (60491, 8), (1040399, 10), (1034275, 10), (16744463, 12)),
    "counters, machines": built(counter, (8, 40), (10, 100), (12, 200)) + drawn(machine, (20, 10), (30, 15)),
    "sudoku": drawn(filled_square, (9, 56, 3), (16, 150, 4), (16, 180, 4), (25, 350, 5)),
    "Latin squares": drawn(filled_square, (10, 42), (20, 168), (25, 260), (30, 380)),
    "queens": drawn(queens, (8,), (12, 20), (20,), (30,), (20, 150)),
    "Ramsey": built(ramsey, (3, 3, 5), (3, 3, 6), (3, 4, 8), (3, 4, 9), (4, 4, 14), (3, 5, 13)),
    "van der Waerden": built(progressions, (3, 4, 17), (3, 4, 18), (4, 4, 34), (4, 4, 35), (3, 6, 31),
                             (3, 6, 32), (4, 5, 54), (4, 5, 55)),
    "round trips": drawn(round_trip, (10, 2), (20, 2.5), (15, 1.5)),
}


def most_of_square(draw):
    """The four clauses over two variables but one."""
    return 2, draw.sample(square(1, 2), 3)


def many(draw, number, part, last=None):
    """So many drawn parts, and perhaps a last one, with their variables and clauses among one another."""
    return shuffled(draw, *side_by_side([part(draw) for _ in range(number)] + ([last] if last else [])))


small = lambda draw: planted_three(draw, 30)

PARTS = {
    "2 parts, random with a model": lambda draw: side_by_side([planted_three(draw, 200)] * 2),
    "2 parts, random without": lambda draw: side_by_side([random_three(draw, 150, 4.6)] * 2),
    "2 parts, pigeons in 7 holes": lambda draw: side_by_side([pigeons(7)] * 2),
    "16 parts, random with a model": lambda draw: side_by_side([planted_three(draw, 150) for _ in range(16)]),
    "3,000 parts, random with a model": lambda draw: many(draw, 3000, small),
    "the same, and one of 6 pigeons": lambda draw: many(draw, 3000, small, pigeons(5)),
    "100,000 parts that matching removes": lambda draw: many(draw, 100000, most_of_square),
}


def write_formula(make, seed, file):
    with open(file, "w") as out:
        write(out, *make(random.Random(seed)))


def solver_commands(leank, formula, answer, *options):
    return {
        "solve": Command([leank, "solve", formula, "--conflicts", BUDGET, *options], answer),
        "minisat": Command(["minisat", "-verb=0", formula]),
        "cadical": Command(["cadical", "-q", "-n", formula]),
    }


def is_answered(run):
    return run.status in (MODEL, NO_MODEL)


def shown(took, run):
    """Seconds of a run, or why there are none."""
    if is_answered(run):
        return seconds(took)
    return {9: "no memory", 5: "budget"}.get(run.status, f">{MOST_SECONDS}")


def is_long(runs):
    return max(runs["solve"].processor, runs["minisat"].processor) > LONG


def answer_of(kind, runs):
    """What those that came to an answer say, which has to be the same."""
    found = {run.status for run in runs.values() if is_answered(run)}
    if len(found) > 1:
        sys.exit(f"{kind}: other answers: {runs}")
    return {frozenset([MODEL]): "yes", frozenset([NO_MODEL]): "no"}.get(frozenset(found), NOTHING)


def expect_judged(kind, formula, answer):
    """Ends the program if the judge, a process of its own, does not accept the answer."""
    if os.path.getsize(answer) > JUDGED_BYTES:
        return
    said = subprocess.run([sys.executable, JUDGE, formula, answer], stdout=subprocess.PIPE, stderr=subprocess.STDOUT, text=True)
    if said.stdout != "accepted\n":
        sys.exit(f"{kind}: the judge says {said.stdout}")


def families(leank, path, kinds):
    """A row on each family, on all, and on those formulas that take leank or minisat long."""
    table = PrintedTable("solving families", "family", "formulas", "answered", *(f"times {name}" for name in OTHERS))
    everything = []
    for kind in kinds:
        found = family_runs(leank, path, kind)
        table.add(*family_row(kind, found))
        everything += found
    long = list(filter(is_long, everything))
    table.add(*family_row("all", everything))
    table.add(*family_row(f"those that take leank or minisat over {LONG} s", long))


def family_runs(leank, path, kind):
    """The runs on each formula of a family."""
    formula, found = path("formula"), []
    commands = solver_commands(leank, formula, path("answer")) | {"picosat": Command(["picosat", "-n", formula])}
    for size, seed, make in FAMILIES[kind]:
        apart(write_formula, make, seed, formula)
        runs = by_turns(commands, MOST_SECONDS, long=LONG_IN_FAMILY)
        answer_of(kind, runs)
        found.append(runs)
        took = ", ".join(f"{name} {run.status} {run.processor:.3f}" for name, run in runs.items())
        print(f"{kind} {size}, seed {seed}: {took}", file=sys.stderr, flush=True)
    return found


def family_row(kind, found):
    counts = [sum(is_answered(runs[name]) for runs in found) for name in ("solve", *OTHERS)]
    answered = "all" if min(counts) == len(found) else ", ".join(map(str, counts))
    return kind, str(len(found)), answered, *(times_other(found, name) for name in OTHERS)


def times_other(found, other):
    """The mean ratio of `solve` to the other program, where both have an answer."""
    pairs = [(runs["solve"], runs[other]) for runs in found if is_answered(runs["solve"]) and is_answered(runs[other])]
    return mean_ratio([(ours.processor, theirs.processor) for ours, theirs in pairs])


def formulas(leank, path, kinds):
    singly("solving formulas", leank, path, kinds, lambda kind, file: apart(write_formula, FORMULAS[kind], SEED, file))


def circuits(leank, path, kinds):
    singly("solving circuits", leank, path, kinds, tool_formulas.write)


def singly(name, leank, path, kinds, write_kind):
    """A row on each formula that takes leank or minisat long, and one on all of these. The answers of the others are judged too."""
    table = PrintedTable(name, "formula", "clauses", "model", "`solve`", "minisat", "cadical", "`verify`", "answer, MB", "MB")
    formula, answer, found = path("formula"), path("answer"), []
    commands = solver_commands(leank, formula, answer)
    for kind in kinds:
        write_kind(kind, formula)
        runs = by_turns(commands, MOST_SECONDS)
        row = single_row(leank, kind, formula, answer, runs)
        if is_long(runs):
            table.add(*row)
            found.append(runs)
    mean = {"formula": "times minisat", "`solve`": times_other(found, "minisat")}
    table.add(*(mean.get(word, "") for word in table.head))


def single_row(leank, kind, formula, answer, runs):
    model, (_, clauses), solve, minisat = answer_of(kind, runs), size_of(formula), runs["solve"], runs["minisat"]
    both = is_answered(solve) and is_answered(minisat)
    return (kind, f"{clauses:,}", model, beside(solve.processor, minisat.processor) if both else shown(solve.processor, solve),
            *(shown(runs[it].processor, runs[it]) for it in ("minisat", "cadical")),
            *(checked_answer(leank, kind, formula, answer) if is_answered(solve) else (NOTHING, NOTHING)),
            megabytes(solve.memory))


def checked_answer(leank, kind, formula, answer):
    """Seconds of `verify`, with its ratio to reading, and how long the answer is."""
    expect_judged(kind, formula, answer)
    size, cut = os.path.getsize(answer), answer + ".cut"
    apart(copy_without_end, answer, cut)
    runs = by_turns({"verify": Command([leank, "verify", formula, answer], statuses=(0,)),
                     "reading": Command([leank, "verify", formula, cut], statuses=(2,))})
    return beside(*(it.processor for it in runs.values())), seconds(size / 1e6)


def copy_without_end(file, other):
    with open(file, "rb") as text, open(other, "wb") as out:
        out.write(text.read()[:-1])


def parts(leank, path, kinds):
    """Seconds of the clock."""
    table = PrintedTable("solving parts", "formula", "clauses", "model", "one worker", "two", "four", "minisat", "cadical")
    formula, answers = path("formula"), [path(f"answer{it}") for it in WORKERS]
    commands = {it: solver_commands(leank, formula, answer, "--workers", it)["solve"] for it, answer in zip(WORKERS, answers)}
    commands |= {name: it for name, it in solver_commands(leank, formula, os.devnull).items() if name != "solve"}
    for kind in kinds:
        apart(write_formula, PARTS[kind], SEED, formula)
        runs = by_turns(commands, MOST_SECONDS)
        model, (_, clauses) = answer_of(kind, runs), size_of(formula)
        if all(is_answered(runs[it]) for it in WORKERS):
            expect_same(kind, answers)
            expect_judged(kind, formula, answers[0])
        table.add(kind, f"{clauses:,}", model, *(shown(run.clock, run) for run in runs.values()))


def expect_same(kind, answers):
    if not all(filecmp.cmp(answers[0], other, shallow=False) for other in answers[1:]):
        sys.exit(f"{kind}: other answers by more workers")


# Of each group the function, its kinds, and what it needs beside minisat and cadical.
GROUPS = {
    "families": (families, FAMILIES, ["picosat"]),
    "formulas": (formulas, FORMULAS, []),
    "circuits": (circuits, CIRCUITS, tool_formulas.NEEDS),
    "parts": (parts, PARTS, []),
}


def main():
    words = CommandLine(__doc__)
    leank = words.program()
    groups = [words.one("GROUP", GROUPS)] if words.left else list(GROUPS)
    chosen = words.some("KIND", GROUPS[groups[0]][1]) if len(groups) == 1 else words.end()
    words.needs("minisat", "cadical", *(it for group in groups for it in GROUPS[group][2]))
    with tempfile.TemporaryDirectory() as folder:
        for measure, kinds, _ in (GROUPS[group] for group in groups):
            measure(leank, lambda name: os.path.join(folder, name), chosen or list(kinds))


if __name__ == "__main__":
    main()
