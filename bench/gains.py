#!/usr/bin/env python3
"""Counts what each class of `reduce` removes from formulas, and what that saves a solver.

    bench/gains.py LEANK [--seconds N] [GROUP ...]
    bench/gains.py rows

LEANK is the built program (`dist/leank`). GROUP is `yosys`, `abc`, `z3`, `drawn` or `built`; without it all are counted. The first
prints a table with a row for each formula, which measure.py keeps as bench/figures/gains.tsv. `rows` puts what that file says into
the rows of docs/GAINS.md that have the names of its formulas. Needs Debian's packages minisat and cadical, and for the groups of
tools yosys, berkeley-abc and z3.

A row has the formula's occurring variables and clauses, and for each class how many of both are removed; or why there is no
document: `time` if a run took more than N seconds (by default 10), and else the status. The same follows of what minisat removes
before it searches, for comparison: it eliminates variables, and what is left has other clauses. Then come the conflicts of minisat
and of cadical on the formula, and on the kernel of the class general, or matching if that is not finished; `-` if the solver took
more than N seconds. Conflicts are counted and not seconds, so the rows do not depend on the machine's other work, apart from what
runs out of time.
"""
import os
import random
import re
import subprocess
import tempfile

import tool_formulas
from command_line import CommandLine
from formulas import (adders, colouring, counter, machine, mixed_clauses, parity, pebbles, pigeons, planted_three,
                      random_three, shuffled, side_by_side, write)
from tables import PrintedTable, cells_of, line_of, put_text, text_of

HERE = os.path.dirname(os.path.abspath(__file__))
DATA, PAGE = os.path.join(HERE, "figures", "gains.tsv"), os.path.join(os.path.dirname(HERE), "docs", "GAINS.md")
SEED = 1
CLASSES = ("pure", "matching", "linear", "general")

# Questions on words of bits, as z3 reads them.
QUESTIONS = {
    "factors of 33,389": """
        (declare-const a (_ BitVec 16)) (declare-const b (_ BitVec 16))
        (assert (and (bvult a #x0100) (bvult b #x0100) (bvugt a #x0001) (bvugt b #x0001)))
        (assert (= (bvmul a b) #x826d))""",
    "a magic square": """
        (define-fun line ((x (_ BitVec 6)) (y (_ BitVec 6)) (z (_ BitVec 6))) Bool (= (bvadd x y z) (_ bv15 6)))
        (declare-const a (_ BitVec 6)) (declare-const b (_ BitVec 6)) (declare-const c (_ BitVec 6))
        (declare-const d (_ BitVec 6)) (declare-const e (_ BitVec 6)) (declare-const f (_ BitVec 6))
        (declare-const g (_ BitVec 6)) (declare-const h (_ BitVec 6)) (declare-const i (_ BitVec 6))
        (define-fun digit ((x (_ BitVec 6))) Bool (and (bvuge x (_ bv1 6)) (bvule x (_ bv9 6))))
        (assert (and (digit a) (digit b) (digit c) (digit d) (digit e) (digit f) (digit g) (digit h) (digit i)))
        (assert (distinct a b c d e f g h i))
        (assert (and (line a b c) (line d e f) (line g h i) (line a d g) (line b e h) (line c f i) (line a e i) (line c e g)))""",
    "two ways to average differ": """
        (declare-const x (_ BitVec 16)) (declare-const y (_ BitVec 16))
        (assert (not (= (bvadd (bvand x y) (bvlshr (bvxor x y) #x0001))
                        ((_ extract 15 0) (bvlshr (bvadd (concat #b0 x) (concat #b0 y)) (_ bv1 17))))))""",
    "a division, undone": """
        (declare-const x (_ BitVec 10)) (declare-const y (_ BitVec 10))
        (assert (not (= y (_ bv0 10))))
        (assert (not (= x (bvadd (bvmul (bvudiv x y) y) (bvurem x y)))))""",
    "a hash of two words": """
        (declare-const x (_ BitVec 32)) (declare-const y (_ BitVec 32))
        (define-fun mix ((h (_ BitVec 32)) (w (_ BitVec 32))) (_ BitVec 32)
          (let ((k (bvxor h w))) (bvadd (bvxor (bvshl k #x00000005) (bvlshr k #x00000003)) w)))
        (assert (= (mix (mix #x00001505 x) y) #xdeadbeef))""",
    "a sorted list, out of order": """
        (declare-const a (_ BitVec 8)) (declare-const b (_ BitVec 8)) (declare-const c (_ BitVec 8)) (declare-const d (_ BitVec 8))
        (define-fun low ((x (_ BitVec 8)) (y (_ BitVec 8))) (_ BitVec 8) (ite (bvult x y) x y))
        (define-fun high ((x (_ BitVec 8)) (y (_ BitVec 8))) (_ BitVec 8) (ite (bvult x y) y x))
        (assert (let ((p (low a b)) (q (high a b)) (r (low c d)) (s (high c d)))
          (let ((t (high p r)) (u (low q s))) (bvugt (low p r) (bvadd (low t u) #x00)))))""",
}


def path(count):
    """A path of a program that reads bytes: each is a letter or a digit, neighbours differ, and two contradict each other."""
    lines = [f"(declare-const b{k} (_ BitVec 8))" for k in range(count)]
    lines += [f"(assert (and (bvuge b{k} #x30) (bvule b{k} #x7a)))" for k in range(count)]
    lines += [f"(assert (not (= b{k} (bvadd b{k + 1} #x01))))" for k in range(0, count - 1, 2)]
    return "\n".join([*lines, "(assert (bvult (bvadd b0 b1) #x40))", "(assert (= (bvand b0 b1) #x61))"])


QUESTIONS["a path of a program that reads 40 bytes"] = path(40)


def by_z3(question):
    """The clauses that z3 makes of a question: words of bits taken apart, and each gate named by a variable."""
    text = question + "\n(apply (then simplify propagate-values bit-blast tseitin-cnf))\n"
    done = subprocess.run(["z3", "-in"], input=text, stdout=subprocess.PIPE, text=True)
    names, clauses, depth, clause, negative = {}, [], 0, None, False
    for word in re.findall(r"[()]|[^\s()]+", done.stdout.split("(goal\n", 1)[1].split(":precision")[0]):
        if word == "(":
            depth += 1
        elif word == ")":
            depth -= 1
            negative = False
            if depth == 0:
                clauses.append(clause)
                clause = None
        elif word in ("or", "not"):
            clause = [] if clause is None else clause
            negative = word == "not"
        else:
            variable = names.setdefault(word, len(names) + 1)
            if depth == 0:
                clauses.append([variable])
            else:
                clause.append(-variable if negative else variable)
    return len(names), clauses


def both(*formulas):
    """Formulas beside each other, renamed and mixed."""
    return lambda draw: shuffled(draw, *side_by_side([formula(draw) for formula in formulas]))


def horn(draw, variables, clauses, width=3):
    """Horn clauses: at most one literal of each is positive."""
    drawn = []
    for _ in range(clauses):
        chosen = draw.sample(range(1, variables + 1), width)
        drawn.append([chosen[0] if draw.random() < 0.7 else -chosen[0]] + [-v for v in chosen[1:]])
    return variables, drawn


def aimless(bits, steps):
    """The counter of formulas.py without its goal: the even ones of its first variables are its last state."""
    variables, clauses = counter(bits, steps)
    return variables, [c for c in clauses if len(c) > 1 or c[0] % 2]


DRAWN = {
    "random, 0.8 clauses for each of 1,000 variables": lambda draw: random_three(draw, 1000, 0.8),
    "random, 1.2 for each": lambda draw: random_three(draw, 1000, 1.2),
    "random, 1.6 for each": lambda draw: random_three(draw, 1000, 1.6),
    "random, 2 for each": lambda draw: random_three(draw, 1000, 2),
    "random, 3 for each": lambda draw: random_three(draw, 1000, 3),
    "random, 4.26 for each of 150": lambda draw: random_three(draw, 150),
    "with a model, 4.26 for each of 150": lambda draw: planted_three(draw, 150),
    "clauses of two to five literals": lambda draw: (1000, mixed_clauses(draw, 1000, 1500, (2, 3, 3, 4, 5))),
    "Horn clauses, 3 for each of 500": lambda draw: horn(draw, 500, 1500),
    "colouring, 200 points of degree 3": lambda draw: colouring(draw, 200, 1.5),
    "colouring, 200 points of degree 5": lambda draw: colouring(draw, 200, 2.5),
    "sums of three of 60 variables": lambda draw: parity(draw, 60),
    "a machine of 20 registers over 8 steps": lambda draw: machine(draw, 20, 8),
}

BUILT = {
    "pigeons, 7 holes": lambda draw: pigeons(7),
    "as many pigeons as holes, 7": lambda draw: pigeons(7, 7),
    "pebbles, 20 rows": lambda draw: pebbles(20),
    "adders, 8 bits": lambda draw: adders(8),
    "a counter that cannot, 8 bits over 30 steps": lambda draw: counter(8, 30),
    "a counter without a goal": lambda draw: aimless(8, 30),
    "10 counters, of which one cannot": both(
        lambda draw: counter(6, 20), *[lambda draw: aimless(6, 20)] * 9),
    "pigeons in 6 holes, and 2,000 random clauses": both(
        lambda draw: pigeons(6), lambda draw: planted_three(draw, 700, 2000 / 700)),
}


def of_tools(kinds):
    """Formulas that yosys or abc writes, by the names of tool_formulas.py."""

    def put(kind, file):
        return tool_formulas.written_by(kind, file)

    return {kind: (lambda file, kind=kind: put(kind, file)) for kind in kinds}


def of_drawers(drawers):
    """Formulas that are drawn, each from the same seed."""

    def put(drawer, file):
        with open(file, "w") as out:
            write(out, *drawer(random.Random(SEED)))
        return True

    return {kind: (lambda file, drawer=drawer: put(drawer, file)) for kind, drawer in drawers.items()}


GROUPS = {
    "yosys": of_tools([kind for kind in tool_formulas.KINDS if "by abc" not in kind]),
    "abc": of_tools([kind for kind in tool_formulas.KINDS if "by abc" in kind]),
    "z3": of_drawers({kind: (lambda draw, q=question: by_z3(q)) for kind, question in QUESTIONS.items()}),
    "drawn": of_drawers(DRAWN),
    "built": of_drawers(BUILT),
}
# What a group needs beside the solvers.
NEEDS = {"yosys": ["yosys"], "abc": tool_formulas.NEEDS, "z3": ["z3"]}


def run(words, seconds):
    """The status and what is printed, or None where it takes too long."""
    try:
        done = subprocess.run(words, stdout=subprocess.PIPE, stderr=subprocess.DEVNULL, timeout=seconds)
    except subprocess.TimeoutExpired:
        return None, b""
    return done.returncode, done.stdout


def size(text):
    """How many variables occur in a DIMACS text, and how many clauses it has."""
    variables, clauses = set(), 0
    for line in text.splitlines():
        if line[:1] in (b"c", b"p", b"%") or not line.strip():
            continue
        numbers = [int(word) for word in line.split()]
        variables.update(abs(l) for l in numbers if l)
        clauses += numbers.count(0)
    return len(variables), clauses


def simplified(file, out, variables, clauses, seconds):
    """How many variables and clauses fewer a formula has that minisat has simplified and writes."""
    status, _ = run(["minisat", "-verb=0", f"-dimacs={out}", file], seconds)
    if status == 20:
        return ["decided", "-"]
    if status is None or not os.path.exists(out):
        return ["time", "-"]
    with open(out, "rb") as it:
        left = size(it.read())
    return [variables - left[0], clauses - left[1]]


def conflicts(solver, file, seconds):
    """How many conflicts a solver has until its answer."""
    words = {"minisat": ["minisat", file], "cadical": ["cadical", "-n", file]}[solver]
    status, text = run(words, seconds)
    found = re.search(rb"^(?:c )?conflicts\s*:\s*(\d+)", text, re.M)
    if status not in (10, 20):
        return "-"
    return found[1].decode() if found else "0"


def row_of(leank, group, kind, put, seconds, folder):
    """The words of a formula's row."""
    file, kept = os.path.join(folder, "formula.cnf"), os.path.join(folder, "kept.cnf")
    if not put(file):
        return None
    with open(file, "rb") as it:
        variables, clauses = size(it.read())
    row, smaller = [group, kind, variables, clauses], None
    for name in CLASSES:
        status, text = run([leank, "reduce", name, file], seconds)
        if status == 0:
            left = size(text)
            row += [variables - left[0], clauses - left[1]]
            if name in ("matching", "general"):
                smaller = text
        else:
            row += ["time" if status is None else f"status {status}", "-"]
    with open(kept, "wb") as out:
        out.write(smaller or b"")
    row += simplified(file, os.path.join(folder, "simplified.cnf"), variables, clauses, seconds)
    for solver in ("minisat", "cadical"):
        row += [conflicts(solver, file, seconds), conflicts(solver, kept, seconds) if smaller else "-"]
    return row


HEAD = ["group", "formula", "variables", "clauses"]
HEAD += [f"{name} {what}" for name in [*CLASSES, "simplified"] for what in ("variables", "clauses")]
HEAD += [f"{solver} {on}" for solver in ("minisat", "cadical") for on in ("formula", "kernel")]


def count(leank, groups, seconds):
    table = PrintedTable("gains", *HEAD)
    with tempfile.TemporaryDirectory() as folder:
        for group in groups:
            for kind, put in GROUPS[group].items():
                row = row_of(leank, group, kind, put, seconds, folder)
                if row:
                    table.add(*map(str, row))
                for name in os.listdir(folder):
                    os.remove(os.path.join(folder, name))


def data_of(table, commit):
    """What the file has: the commit, and the table with tabs between its cells."""
    first = f"# What each class removes, counted by bench/gains.py with commit {commit}"
    return "".join(line + "\n" for line in [first, *map("\t".join, [table.head, *table.rows])])


def share(removed, whole):
    """A share of a whole in percent, or why there is none."""
    if not removed.isdigit():
        return {"status 5": "budget", "status 6": "wide", "status 7": "large"}.get(removed, removed)
    percent = 100 * int(removed) / int(whole)
    return "all" if percent == 100 else f"{percent:.1f}" if percent >= 0.1 else "<0.1" if percent else "0"


def grouped(number):
    return f"{int(number):,}" if number.isdigit() else number


def cells_on_page(row):
    """The cells of a formula in docs/GAINS.md."""
    cells = [row["formula"], grouped(row["clauses"])]
    for name in [*CLASSES, "simplified"]:
        removed = row[f"{name} clauses"]
        cells.append(share(row[f"{name} variables"] if removed == "-" else removed, row["clauses"]))
    for solver in ("minisat", "cadical"):
        before, after = grouped(row[f"{solver} formula"]), grouped(row[f"{solver} kernel"])
        cells.append(before if before == after else f"{before}→{after}")
    return cells


def with_rows(page, data):
    """The page with what the file says in the rows of its formulas, and with its commit."""
    first, head, *rows = [line.split("\t") for line in data.splitlines()]
    found = {row[1]: cells_on_page(dict(zip(head, row))) for row in rows}

    def on_page(line):
        name, *others = cells_of(line)
        is_row = line.startswith("|") and len(others) + 1 == len(found.get(name, ()))
        return line_of(found[name]) if is_row else line

    text = "".join(map(on_page, page.splitlines(keepends=True)))
    return re.sub(r"(`bench/gains.py` wrote with commit )\w+", rf"\g<1>{first[0].split()[-1]}", text)


def put_rows():
    put_text(PAGE, with_rows(text_of(PAGE), text_of(DATA)))


def main():
    words = CommandLine(__doc__)
    if words.takes("rows"):
        words.end()
        return put_rows()
    seconds = words.option("--seconds", 10.0, float)
    leank, groups = words.program(), words.some("GROUP", GROUPS)
    words.needs("minisat", "cadical", *(it for group in groups for it in NEEDS.get(group, ())))
    return count(leank, groups, seconds)


if __name__ == "__main__":
    main()
