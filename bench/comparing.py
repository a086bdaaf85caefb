#!/usr/bin/env python3
"""Compares `solve` and `verify` with SAT solvers and with judge.py.

    bench/comparing.py LEANK [COUNT]
    bench/comparing.py LEANK tools [KIND ...]

LEANK is the built program (`dist/leank`). Needs python3 and Debian's packages
minisat, cadical and picosat; `tools` needs yosys and berkeley-abc too. The first compares COUNT drawn formulas (by default 300),
the second those of tool_formulas.py. Of each formula:

- the status is that of the solvers, with one worker and with two, and with a small budget if that is enough;
- judge.py accepts the answer, each step of a refutation is needed, and before the last one there are at most as many as clauses
  may be learned, and three for each literal;
- `verify` says of the answer, and of forged ones, what judge.py says;
- a refutation uses clauses of the general kernel alone;
- `check` says of an unfinished document that it is unfinished, with the budget as its number.

Each difference is printed with the name of a kept file. The status is 1 if there is one.
"""
import os
import random
import subprocess
import sys
import tempfile
from collections import Counter, namedtuple

import judge
import tool_formulas
from command_line import CommandLine
from forging import drawn_change, drawn_forgery
from formulas import (adders, counter, drawn_clause, formula_text, machine, mixed_clauses, parity, pebbles, pigeons, random_three,
                      shuffled, side_by_side)

SEED = 1
BUDGET = 100000
# An unfinished document of more learned clauses is not checked: each clause is compared with those that share a literal.
CHECKED = 5000
FORGED = 6
SECONDS = 300
SOLVERS = {"minisat": ["minisat", "-verb=0"], "cadical": ["cadical", "-q"], "picosat": ["picosat", "-n"]}

Ended = namedtuple("Ended", "status out say")


def tiny(draw):
    """At most six variables, or none; empty clauses, equal ones, and both signs of a variable."""
    variables = draw.randrange(7)
    clauses = mixed_clauses(draw, variables, draw.randrange(5 * variables + 3), (1, 2, 2, 3, 3, 3, 3, 0 if variables == 0 else 4))
    for clause in clauses:
        if draw.random() < 0.03:
            clause.clear()
        elif clause and draw.random() < 0.1 and -clause[0] not in clause:
            clause.append(-clause[0])
    return variables, clauses


def nothing(draw):
    """No clause, or no variable."""
    return draw.choice([(0, []), (draw.randrange(1, 50), []), (0, [[]] * draw.randrange(1, 4))])


def mixed(draw):
    """Clauses of one literal to five."""
    variables = draw.randrange(5, 80)
    return variables, mixed_clauses(draw, variables, int(variables * draw.choice((1, 2, 3))), (1, 2, 2, 3, 3, 3, 4, 5))


def parts(draw):
    """Many parts, some of which may have no model, with their variables and clauses among one another."""
    small = lambda: random_three(draw, draw.randrange(4, 15), draw.choice((2, 3, 3, 3, 4)))
    return shuffled(draw, *side_by_side([small() for _ in range(draw.randrange(2, 40))]))


def hopeless_part(draw):
    """Parts of which one has no model, at a drawn place."""
    some = [random_three(draw, draw.randrange(10, 60), 3.5) for _ in range(draw.randrange(1, 6))]
    some.insert(draw.randrange(len(some) + 1), draw.choice([pigeons(4), pigeons(5), random_three(draw, 40, 6), adders(3)]))
    return side_by_side(some)


def with_empty_clause(draw):
    """An empty clause among others."""
    variables, clauses = random_three(draw, draw.randrange(3, 50))
    clauses.insert(draw.randrange(len(clauses) + 1), [])
    return variables, clauses


def with_matched(draw):
    """Clauses with variables of their own, which go with the matching kernel, among others."""
    variables, clauses = draw.choice([pigeons(4), random_three(draw, 40), random_three(draw, 20, 7), parity(draw, 15)])
    more = draw.randrange(1, 200)
    for v in range(variables + 1, variables + more + 1):
        clauses.append(drawn_clause(draw, range(1, v), min(draw.randrange(4), v - 1)) + [draw.choice((v, -v))])
    return shuffled(draw, variables + more, clauses)


def built(draw):
    """Sums, counters, pyramids and machines."""
    return draw.choice([
        lambda: adders(draw.randrange(1, 9)),
        lambda: counter(draw.randrange(3, 7), draw.randrange(2, 15)),
        lambda: pebbles(draw.randrange(2, 25)),
        lambda: machine(draw, draw.randrange(6, 20), draw.randrange(2, 10)),
    ])()


DRAWN = {
    "around the threshold": lambda draw: random_three(draw, draw.randrange(20, 141), draw.choice((4.1, 4.26, 4.4))),
    "easy": lambda draw: random_three(draw, draw.randrange(20, 600), draw.choice((1, 2, 3, 3.5))),
    "many clauses": lambda draw: random_three(draw, draw.randrange(10, 80), draw.choice((6, 8, 12))),
    "mixed": mixed,
    "tiny": tiny,
    "nothing": nothing,
    "pigeons": lambda draw: (lambda holes: pigeons(holes, holes + draw.randrange(-1, 2)))(draw.randrange(2, 7)),
    "parity": lambda draw: parity(draw, draw.randrange(8, 70), draw.choice((-5, 0, 5))),
    "parts": parts,
    "hopeless part": hopeless_part,
    "empty clause": with_empty_clause,
    "matched": with_matched,
    "built": built,
}


def odd_word(draw, number):
    sign = "-" if number < 0 else ""
    return sign + "0" * draw.choice((0, 0, 0, 1, 5)) + str(abs(number)) if number else "0" * draw.choice((1, 1, 3))


def odd_text(draw, variables, clauses):
    """A text of the formula with comments, with clauses that go over lines, with zeros in front and literals twice."""
    words = []
    for clause in clauses:
        literals = [*clause, draw.choice(clause)] if clause and draw.random() < 0.2 else clause
        words += [odd_word(draw, l) for l in [*literals, 0]]
    if clauses and clauses[-1] and draw.random() < 0.3:
        words.pop()
    lines = ["c drawn", "", f"p  cnf 0{variables}\t{len(clauses)} "]
    while words:
        count = draw.randrange(1, 12)
        lines.append(draw.choice(("", " ", "\t")) + draw.choice((" ", "  ")).join(words[:count]) + draw.choice(("", " ", "\r")))
        words = words[count:]
        if draw.random() < 0.1:
            lines.append(draw.choice(("c", "", "c 1 0", "  c p cnf")))
    return "\n".join(lines + draw.choice(([], ["%"], ["%", "0"], ["c end"]))) + draw.choice(("", "\n"))


def bytes_of(name):
    with open(name, "rb") as file:
        return file.read()


def ended(words):
    """How a command ends, and what it prints."""
    done = subprocess.run(words, capture_output=True, timeout=SECONDS)
    return Ended(done.returncode, done.stdout, done.stderr)


class Comparison:
    """What is compared so far."""

    def __init__(self, leank, folder):
        self.leank, self.folder = leank, folder
        self.counts, self.faults = Counter(), 0

    def run(self, *words):
        return ended([self.leank, *words])

    def expect(self, holds, what, *files):
        """Counts and prints what does not hold, and keeps the files."""
        if holds:
            return
        self.faults += 1
        kept = tempfile.mkdtemp(prefix="differs-")
        for file in files:
            with open(os.path.join(kept, os.path.basename(file)), "wb") as out:
                out.write(bytes_of(file))
        print(f"{what}: {kept}")

    def put(self, name, text):
        """A file of the folder with this text."""
        file = os.path.join(self.folder, name)
        with open(file, "wb") as out:
            out.write(text)
        return file

    def solvers(self, kind, plain):
        """The status that the solvers give."""
        statuses = {name: ended([*words, plain]).status for name, words in SOLVERS.items()}
        self.expect(len(set(statuses.values())) == 1, f"{kind}: solvers differ {statuses}", plain)
        return statuses["minisat"]

    def formula(self, kind, draw, file, plain):
        """Compares what is answered to the formula of a file, which stands in a plain file too."""
        formula, status = judge.read_formula(bytes_of(file)), self.solvers(kind, plain)
        self.counts[f"solvers {status}"] += 1
        small = draw.choice((1, 2, 3, 5, 10, 30, 100))
        for options in ({}, {"--workers": 2}, {"--conflicts": small}, {"--conflicts": small, "--workers": 3}):
            words = [word for key, value in options.items() for word in (key, str(value))]
            self.answer(f"{kind} {' '.join(words)}", draw, file, formula, status, words, options.get("--conflicts", BUDGET))

    def answer(self, kind, draw, file, formula, expected, words, budget):
        found = self.run("solve", file, *words)
        self.counts[f"solve {found.status}"] += 1
        if found.status == 5:
            return self.unfinished(kind, file, formula, found, budget)
        text = self.put("answer", found.out)
        self.expect(found.status == expected, f"{kind}: status {found.status}, not {expected}", file)
        self.expect(found.say == b"", f"{kind}: says {found.say}", file)
        said = judge.verify(formula, found.out)
        self.expect(said[2] == 0, f"{kind}: the judge says {said}", file, text)
        if said[2] != 0:
            return
        reading = judge.read_answer(found.out, formula.n, formula.m)
        self.expect((reading.kind == "refutation") == (expected == 20), f"{kind}: another answer than the status", file, text)
        self.verified(kind, file, formula, found.out)
        if reading.kind == "refutation":
            self.refutation(kind, file, formula, reading.rounds[0], budget)
        for forged in (drawn_forgery, drawn_change) * FORGED:
            self.verified(kind + " forged", file, formula, forged(draw, found.out))

    def verified(self, kind, file, formula, text):
        """Compares what `verify` says of a text with what judge.py says."""
        name = self.put("verified", text)
        found = self.run("verify", file, name)
        line, fault, status = judge.verify(formula, text)
        written, said = (f"{told}\n".encode() if told else b"" for told in (line, fault))
        self.counts[f"verify {found.status}"] += 1
        self.expect(found == Ended(status, written, said), f"{kind}: verify {found}, the judge {line or fault}", file, name)

    def refutation(self, kind, file, formula, steps, budget):
        used, last, given = judge.reached(steps), steps[-1].number, formula.m
        self.expect(all(step.number in used for step in steps), f"{kind}: a step is not needed", file)
        most = budget + 3 * sum(map(len, formula.clause.values()))
        self.expect(last - given - 1 <= most, f"{kind}: {last - given - 1} steps before the last, not at most {most}", file)
        found = self.run("reduce", "general", file, "--conflicts", str(BUDGET))
        if found.status == 0:
            self.counts["kernels"] += 1
            keep = next(line for line in found.out.split(b"\n") if line.startswith(b"c keep "))
            outside = {number for number in used if number <= given} - set(map(int, keep.split()[2:]))
            self.expect(not outside, f"{kind}: {sorted(outside)} are not in the general kernel", file)

    def unfinished(self, kind, file, formula, found, budget):
        """Compares an unfinished document: its number, its one round, and what `check` says of it."""
        name = self.put("document", found.out)
        self.expect(found.say == b"leank: budget of %d conflicts used\n" % budget, f"{kind}: says {found.say}", file)
        self.expect(budget < 3 ** formula.n, f"{kind}: unfinished within 3^n", file)
        lines = found.out.split(b"\n")
        right = lines[0] == b"c leank 1 unfinished" and b"c learned %d" % budget in lines and lines.count(b"c round") == 1
        self.expect(right, f"{kind}: another document", file, name)
        if budget > CHECKED:
            self.counts["unfinished, not checked"] += 1
            return
        checked = self.run("check", file, name)
        self.expect(checked == Ended(5, b"unfinished %d\n" % budget, b""), f"{kind}: check {checked}", file, name)

    def drawn(self, count):
        for number in range(count):
            kind = list(DRAWN)[number % len(DRAWN)]
            draw = random.Random(f"{SEED} {number}")
            variables, clauses = DRAWN[kind](draw)
            plain = self.put("plain", formula_text(variables, clauses))
            odd = self.put("formula", odd_text(draw, variables, clauses).encode())
            read = judge.read_formula(bytes_of(odd))
            if (read.n, list(read.clause.values())) != (variables, clauses):
                sys.exit(f"{kind}: the text is of another formula")
            self.formula(f"{number} {kind}", draw, odd, plain)

    def tools(self, kinds):
        for kind in kinds:
            file = os.path.join(self.folder, "tool")
            if tool_formulas.written_by(kind, file):
                self.formula(kind, random.Random(SEED), file, file)
                os.unlink(file)


def main():
    words = CommandLine(__doc__)
    leank = words.program()
    kinds = words.some("KIND", tool_formulas.KINDS) if words.takes("tools") else []
    count = 0 if kinds else words.number("COUNT", 300)
    words.end()
    words.needs(*SOLVERS, *(tool_formulas.NEEDS if kinds else ()))
    with tempfile.TemporaryDirectory() as folder:
        comparison = Comparison(leank, folder)
        comparison.tools(kinds)
        comparison.drawn(count)
    print(", ".join(f"{name}: {count}" for name, count in sorted(comparison.counts.items())))
    print(f"{comparison.faults} differences")
    sys.exit(comparison.faults > 0)


if __name__ == "__main__":
    main()
