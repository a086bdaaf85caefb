#!/usr/bin/env python3
"""Compares `reduce general` with a plain program that finds the kernel by a solver, and its time with minisat's.

    bench/lean_kernel.py LEANK [KIND ...]

LEANK is the built program (`dist/leank`), and KIND the name of a formula. The plain program asks cadical for an autarky that sets a
variable of the clauses that are left, takes out what it touches, and asks again until there is none. The kept clauses must be the
same, and each document is checked, or the status is 1. Seconds are those of the clock, the least of three runs by turns. Needs
Debian's packages cadical and minisat. Nothing fails by time.
"""
import os
import random
import subprocess
import sys
import tempfile

from command_line import CommandLine
from formulas import coloured, counter, drawn_clauses, pigeons, side_by_side, square, write
from runs import Command, by_turns, least
from tables import PrintedTable, seconds

SEED = 1


def counters(draw):
    """A counter of 6 bits that shall stand at 13 after 12 steps, beside one that shall stand at 9."""
    return side_by_side([counter(6, 12, 13), counter(6, 12, 9)])


def reached(draw):
    return side_by_side([counter(8, 30, k + 5) for k in range(20)])


def clique(draw):
    """Three colours: 300 vertices with 450 drawn edges, and among them 4 that are all joined."""
    edges = set()
    while len(edges) < 450:
        v, w = sorted(draw.sample(range(300), 2))
        edges.add((v, w))
    edges |= {(v, w) for v in range(4) for w in range(v + 1, 4)}
    return coloured(300, sorted(edges), is_one=True)


def tied_pigeons(draw):
    """Six pigeons in five holes, and drawn clauses with a model, some of which have literals on the pigeons too."""
    variables, clauses = pigeons(5)
    rest = range(variables + 1, variables + 401)
    for k, clause in enumerate(drawn_clauses(draw, rest, 1500)):
        clause[draw.randrange(3)] = abs(draw.choice(clause))
        if k % 10 == 0:
            clause.append(draw.choice((1, -1)) * (5 * draw.randrange(6) + draw.randrange(5) + 1))
        clauses.append(clause)
    return rest[-1], clauses


def drawn(draw):
    """Many small unsatisfiable parts in a large formula that is nearly satisfiable."""
    clauses = list(drawn_clauses(draw, range(1, 4001), 6000))
    for k in range(200):
        a, b = draw.sample(range(1, 4001), 2)
        clauses += square(a, b)[:3 + (k % 4 == 0)]
    return 4000, clauses


KINDS = {
    "two counters of 6 bits, of which one cannot reach its target": counters,
    "20 counters of 8 bits that can reach theirs": reached,
    "three colours for a graph of 300 vertices with a clique of four": clique,
    "six pigeons in five holes, tied to drawn clauses": tied_pigeons,
    "50 squares in a random formula": drawn,
}


def write_file(name, variables, clauses):
    with open(name, "w") as out:
        write(out, variables, clauses)


def autarky(folder, variables, clauses):
    """The true literals of an autarky that sets a variable of the clauses, by the solver, or none."""
    truth = lambda l: 2 * abs(l) - (l > 0)
    occurring = sorted({abs(l) for clause in clauses for l in clause})
    asked = [[-truth(v), -truth(-v)] for v in occurring]
    asked.append([truth(l) for v in occurring for l in (v, -v)])
    for clause in clauses:
        asked += [[-truth(-l)] + [truth(k) for k in clause if k != l] for l in clause]
    question = os.path.join(folder, "question")
    write_file(question, 2 * variables, asked)
    answer = subprocess.run(["cadical", "-q", question], stdout=subprocess.PIPE, text=True).stdout
    if "s UNSATISFIABLE" in answer:
        return None
    values = {int(word) for line in answer.splitlines() if line.startswith("v") for word in line.split()[1:]}
    return {l for v in occurring for l in (v, -v) if truth(l) in values}


def kernel(folder, variables, clauses):
    """The positions of the largest lean part."""
    kept = list(range(len(clauses)))
    while kept:
        literals = autarky(folder, variables, [clauses[p] for p in kept])
        if literals is None:
            break
        kept = [p for p in kept if not any(l in literals or -l in literals for l in clauses[p])]
    return [p + 1 for p in kept]


def kept_in(document):
    """The positions that a document states."""
    with open(document) as lines:
        return [int(word) for line in lines if line.startswith("c keep ") for word in line.split()[2:-1]]


def main():
    words = CommandLine(__doc__)
    leank, kinds = words.program(), words.some("KIND", KINDS)
    words.needs("cadical", "minisat")
    table = PrintedTable("lean_kernel", "formula", "clauses", "kept", "`reduce general`", "minisat")
    with tempfile.TemporaryDirectory() as folder:
        formula, document = os.path.join(folder, "formula"), os.path.join(folder, "document")
        commands = {"leank": Command([leank, "reduce", "general", formula], document, statuses=(0,)),
                    "minisat": Command(["minisat", "-verb=0", formula])}
        for kind in kinds:
            variables, clauses = KINDS[kind](random.Random(SEED))
            clauses = [sorted(set(clause), key=abs) for clause in clauses]
            write_file(formula, variables, clauses)
            found = by_turns(commands)
            least(leank, "check", formula, document, times=1)
            if kept_in(document) != kernel(folder, variables, clauses):
                sys.exit(f"{kind}: another kernel")
            table.add(kind, f"{len(clauses):,}", f"{len(kept_in(document)):,}", *(seconds(it.clock) for it in found.values()))


if __name__ == "__main__":
    main()
