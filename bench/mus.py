#!/usr/bin/env python3
"""Tests and measures `mus`.

    bench/mus.py drawn LEANK [NUMBER]
    bench/mus.py tools LEANK [KIND ...]
    bench/mus.py families LEANK [KIND ...]
    bench/mus.py circuits LEANK [KIND ...]

LEANK is the built program (`dist/leank`). `drawn` goes through so many drawn formulas, by default 200, and `tools` through
those of tool_formulas.py, by default the small ones: judge.py accepts each core, `verify` does, minisat, picosat and cadical
find no model of the text as it stands, and one of it without any single clause; where leank finds a model, so do they. Where
a budget is used up, judge.py and `check` find the document unfinished, with itself as the formula. A core of more than 400
clauses is tried without 60 drawn ones. The status is 1 if one of these does not hold.

`families` and `circuits` measure beside picomus, the second on the small formulas of tool_formulas.py: the seconds of the
processor to the core, the least of three runs by turns, or of one run that takes over five seconds, and how many clauses the cores
have. A run ends after 60 seconds there. The last row has the geometric means of the ratios, with the least and the greatest, where
both find a core; less than 5 milliseconds count as 5. Needs Debian's packages minisat, picosat and cadical; `tools` and `circuits`
need yosys and berkeley-abc too. Nothing fails by time.
"""
import os
import random
import re
import sys
import tempfile

import judge
import tool_formulas
from command_line import CommandLine
from formulas import (adders, colouring, counter, drawn_clauses, formula_text, mixed_clauses, parity, pebbles, pigeons,
                      random_three, shuffled, side_by_side)
from runs import Command, by_turns, run, size_of
from tables import NOTHING, PrintedTable, beside, mean_ratio, seconds

SEED = 1
MOST_SECONDS = 60
TOOL_SECONDS = 120
MOST_WHOLE = 400
SOME = 60
BUDGET = str(2**63 - 1)


def mixed(draw, variables, clauses):
    """Clauses of one to four literals."""
    return variables, mixed_clauses(draw, variables, clauses, (1, 2, 2, 3, 3, 3, 4))


def small(draw):
    """A drawn formula, mostly without a model."""
    kind = draw.randrange(8)
    if kind == 0:
        return random_three(draw, draw.randrange(20, 60), draw.uniform(4.5, 9))
    if kind == 1:
        return colouring(draw, draw.randrange(8, 30), draw.uniform(2.2, 4))
    if kind == 2:
        return shuffled(draw, *with_more(draw, pigeons(draw.randrange(2, 5)), draw.randrange(40)))
    if kind == 3:
        return shuffled(draw, *parity(draw, draw.randrange(5, 14)))
    if kind == 4:
        return shuffled(draw, *side_by_side([mixed(draw, 8, 24), random_three(draw, 15, 6)]))
    if kind == 5:
        return shuffled(draw, *counter(draw.randrange(3, 5), draw.randrange(4, 9)))
    if kind == 6:
        return adders(draw.randrange(1, 4))
    variables = draw.randrange(1, 25)
    return mixed(draw, variables, draw.randrange(1, 6 * variables))


def with_more(draw, formula, more):
    """The formula with so many further clauses of three literals over its variables."""
    variables, clauses = formula
    return variables, [*clauses, *drawn_clauses(draw, range(1, variables + 1), more, min(3, variables))]


FAMILIES = {
    "random, 100 variables, 8 clauses for each": lambda draw: random_three(draw, 100, 8),
    "random, 200 variables, 20 clauses for each": lambda draw: random_three(draw, 200, 20),
    "random, 100 variables, 5 clauses for each": lambda draw: random_three(draw, 100, 5),
    "random, 150 variables, 6 clauses for each": lambda draw: random_three(draw, 150, 6),
    "random, 200 variables, 8 clauses for each": lambda draw: random_three(draw, 200, 8),
    "random, 120 variables, 5 clauses for each": lambda draw: random_three(draw, 120, 5),
    "random, 200 variables, 7 clauses for each": lambda draw: random_three(draw, 200, 7),
    "random, 300 variables, 12 clauses for each": lambda draw: random_three(draw, 300, 12),
    "colouring, 150 points of degree 6": lambda draw: colouring(draw, 150, 3),
    "colouring, 300 points of degree 5": lambda draw: colouring(draw, 300, 2.5),
    "pigeons, 6 holes, and 200 clauses": lambda draw: with_more(draw, pigeons(6), 200),
    "pigeons, 7 holes, and 200 clauses": lambda draw: with_more(draw, pigeons(7), 200),
    "pigeons, 8 holes": lambda draw: pigeons(8),
    "counter, 6 bits over 40 steps": lambda draw: counter(6, 40),
    "counter, 8 bits over 40 steps": lambda draw: counter(8, 40),
    "adders, 5 bits": lambda draw: adders(5),
    "adders, 8 bits": lambda draw: adders(8),
    "pebbles, 15 rows, shuffled": lambda draw: shuffled(draw, *pebbles(15)),
    "pebbles, 20 rows": lambda draw: pebbles(20),
    "pebbles, 30 rows": lambda draw: pebbles(30),
    "parity, 40 variables": lambda draw: parity(draw, 40),
}

SOLVERS = {"minisat": ["minisat", "-verb=0"], "picosat": ["picosat", "-n"], "cadical": ["cadical", "-q", "-n"]}


def said(words, folder, most=MOST_SECONDS):
    """The status of a command, below 0 if it was stopped, and what it writes."""
    file = os.path.join(folder, "said")
    status = run(Command(words, file), most).status
    with open(file, "rb") as text:
        return status, text.read()


def written(folder, name, text):
    file = os.path.join(folder, name)
    with open(file, "wb") as out:
        out.write(text)
    return file


def formula_of(file):
    with open(file, "rb") as text:
        return judge.read_formula(text.read())


def statuses(file):
    """What each of the solvers says of a formula: 10 or 20."""
    return {name: run(Command([*words, file]), MOST_SECONDS).status for name, words in SOLVERS.items()}


def all_say(name, file, status):
    found = statuses(file)
    if set(found.values()) != {status}:
        sys.exit(f"{name}: {found} where {status} is right")


def expect_verdict(leank, name, folder, words, expected):
    _, text = said([leank, *words], folder)
    if text != expected:
        sys.exit(f"{name}: {words[0]} says {text}")


def try_without_each(draw, name, folder, variables, clauses):
    """Without any one of them the clauses have a model."""
    places = range(len(clauses))
    for k in places if len(clauses) <= MOST_WHOLE else draw.sample(places, SOME):
        file = written(folder, "less.cnf", formula_text(variables, clauses[:k] + clauses[k + 1 :]))
        all_say(f"{name}, without clause {k + 1} of the core", file, 10)


def test_core(draw, leank, name, folder, file, text):
    formula = formula_of(file)
    accepted(name, formula, text)
    core = written(folder, "core.cnf", text)
    expect_verdict(leank, name, folder, ["verify", file, core], b"accepted\n")
    all_say(name, core, 20)
    found = judge.read_answer(text, formula.n, formula.m)
    try_without_each(draw, name, folder, formula.n, [found.clause[p] for p in found.keep])
    return len(found.keep)


def accepted(name, formula, text):
    verdict = judge.verify(formula, text)
    if verdict != ("accepted", None, 0):
        sys.exit(f"{name}: the judge says {verdict}")


def test_model(leank, name, folder, file, text):
    accepted(name, formula_of(file), text)
    expect_verdict(leank, name, folder, ["verify", file, written(folder, "model.txt", text)], b"accepted\n")
    all_say(name, file, 10)


def is_within(some, formula):
    """The clauses of the first formula are those of the other one, some of them left out."""
    rest = iter(formula.clause.values())
    return some.n == formula.n and all(any(one == other for other in rest) for one in some.clause.values())


def test_unfinished(leank, name, folder, file, text, budget):
    verdict = judge.check(text, text)
    if verdict != (f"unfinished {budget}", None, 5) or not is_within(judge.read_formula(text), formula_of(file)):
        sys.exit(f"{name}: the judge says {verdict}")
    document = written(folder, "open.cnf", text)
    expect_verdict(leank, name, folder, ["check", document, document], b"unfinished %d\n" % budget)


def test_formula(draw, leank, name, folder, file, most=MOST_SECONDS):
    """Tests what is written of a formula, and says in a word what that is."""
    status, text = said([leank, "mus", file, "--conflicts", BUDGET], folder, most)
    if status == 0:
        return f"a core of {test_core(draw, leank, name, folder, file, text)}"
    if status == 10:
        test_model(leank, name, folder, file, text)
        return "a model"
    if status in (9, -9, -24):
        return "no answer"
    return sys.exit(f"{name}: status {status}")


def test_budget(leank, name, folder, file, budget):
    status, text = said([leank, "mus", file, "--conflicts", str(budget)], folder)
    if status == 5:
        test_unfinished(leank, name, folder, file, text, budget)
    elif status not in (0, 10):
        sys.exit(f"{name}: status {status}")
    return status == 5


def test_drawn(leank, number):
    draw, told, stopped = random.Random(SEED), {}, 0
    with tempfile.TemporaryDirectory() as folder:
        for k in range(number):
            file = written(folder, "f.cnf", formula_text(*small(draw)))
            word = test_formula(draw, leank, f"drawn formula {k}", folder, file)
            kind = re.sub("a core.*", "a core", word)
            told[kind] = told.get(kind, 0) + 1
            stopped += test_budget(leank, f"drawn formula {k}", folder, file, draw.choice((1, 1, 2, 5, 20)))
    print(", ".join(f"{count} times {word}" for word, count in sorted(told.items())) + f"; {stopped} budgets used up")


def test_tools(leank, kinds):
    draw = random.Random(SEED)
    with tempfile.TemporaryDirectory() as folder:
        for kind in kinds:
            file = os.path.join(folder, "f.cnf")
            if tool_formulas.written_by(kind, file):
                formula = formula_of(file)
                print(f"{kind}: {formula.n} variables, {formula.m} clauses: "
                      f"{test_formula(draw, leank, kind, folder, file, TOOL_SECONDS)}", flush=True)
                os.unlink(file)


def core_size(file):
    """How many clauses the core has that leank or picomus writes."""
    with open(file, "rb") as it:
        text = it.read()
    found = re.search(rb"^p cnf \d+ (\d+)$", text, re.MULTILINE)
    return int(found[1]) if found else len(re.findall(rb"^v [1-9]", text, re.MULTILINE))


def write_family(kind, file):
    written(*os.path.split(file), formula_text(*FAMILIES[kind](random.Random(SEED))))


def shown(found, is_core):
    """The seconds of a run, or why there are none."""
    if is_core:
        return seconds(found.processor)
    return f">{MOST_SECONDS}" if found.status < 0 else f"status {found.status}"


def measure(name, leank, kinds, write_kind):
    """A row on each formula, and one with the means of the ratios."""
    table, pairs, sizes = PrintedTable(name, "formula", "clauses", "`mus`", "core", "picomus", "its core"), [], []
    with tempfile.TemporaryDirectory() as folder:
        file, core, other = (os.path.join(folder, it) for it in ("formula", "core", "other"))
        commands = {"leank": Command([leank, "mus", file, "--conflicts", BUDGET], core),
                    "picomus": Command(["picomus", file], other)}
        for kind in kinds:
            write_kind(kind, file)
            ours, theirs = by_turns(commands, MOST_SECONDS).values()
            has_ours, has_theirs = ours.status == 0, theirs.status == 20
            if has_ours and has_theirs:
                pairs.append((ours.processor, theirs.processor))
                sizes.append((core_size(core), core_size(other)))
            table.add(kind, f"{size_of(file)[1]:,}", beside(*pairs[-1]) if has_ours and has_theirs else shown(ours, has_ours),
                      f"{core_size(core):,}" if has_ours else NOTHING, shown(theirs, has_theirs),
                      f"{core_size(other):,}" if has_theirs else NOTHING)
    table.add(f"times picomus, {len(pairs)} formulas", "", mean_ratio(pairs), mean_ratio(sizes), "", "")


def main():
    words = CommandLine(__doc__)
    group, leank = words.one("group", ("drawn", "tools", "families", "circuits")), words.program()
    if group == "drawn":
        number = words.number("NUMBER", 200)
        words.end()
        words.needs(*SOLVERS)
        test_drawn(leank, number)
    elif group == "tools":
        kinds = words.some("KIND", tool_formulas.SMALL_KINDS)
        words.needs(*SOLVERS, *tool_formulas.NEEDS)
        test_tools(leank, kinds)
    elif group == "families":
        kinds = words.some("KIND", FAMILIES)
        words.needs("picomus")
        measure("mus families", leank, kinds, write_family)
    else:
        kinds = words.some("KIND", tool_formulas.SMALL_KINDS)
        words.needs("picomus", *tool_formulas.NEEDS)
        measure("mus circuits", leank, kinds, tool_formulas.write)


if __name__ == "__main__":
    main()
